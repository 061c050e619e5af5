//! The replay of scripts in hand-written plain Rust, unproved, for comparison with the proved
//! program.

mod csv;
#[allow(dead_code, reason = "each program uses a part of it")]
mod interlock;
mod usage;
mod words;

use csv::{Record, Records};
use interlock::{Call, LAST_STAMP, Machine, State};
use std::io::{self, BufWriter, Read, Write};

fn word_of(field: &[u8]) -> Option<&str> {
    std::str::from_utf8(field).ok()
}

/// The version of a script. Only scripts of the second can stop the cell.
#[derive(Clone, Copy, PartialEq, Eq)]
enum Version {
    First,
    Second,
}

impl Version {
    const ALL: [Version; 2] = [Version::First, Version::Second];

    /// The first field of record 0.
    fn word(self) -> &'static str {
        match self {
            Version::First => "start",
            Version::Second => "start2",
        }
    }

    fn of(record: &Record) -> Option<Version> {
        let word = word_of(record.field(0)?)?;
        Version::ALL.into_iter().find(|version| version.word() == word)
    }

    fn has(self, call: Call) -> bool {
        self == Version::Second || !matches!(call, Call::Stop | Call::Resume)
    }
}

/// The start in record 0, after its first field.
fn start(record: &Record) -> Option<State> {
    let places = word_of(record.field(1)?)?;
    let stamp = word_of(record.field(2).unwrap_or(b"0"))?;
    if record.len() > 3 || stamp.is_empty() || stamp.len() > 7 || !stamp.bytes().all(|digit| digit.is_ascii_digit()) {
        return None;
    }
    State::start(places, stamp.parse().ok().filter(|stamp| *stamp <= LAST_STAMP)?)
}

/// The call in a record of a script of this version, and the machine that makes it.
fn call_of(version: Version, record: &Record) -> Option<(Machine, Call)> {
    let machine = word_of(record.field(0)?)?;
    let machine = Machine::ALL.into_iter().find(|it| it.word() == machine)?;
    let verb = word_of(record.field(1)?)?;
    let call = match record.len() {
        2 => Call::read(verb, None)?,
        3 => Call::read(verb, Some(word_of(record.field(2)?)?))?,
        _ => return None,
    };
    version.has(call).then_some((machine, call))
}

/// Why a replay ends early.
enum Fault {
    Script(String),
    Read,
    Write,
}

fn script(fault: &str) -> Result<(), Fault> {
    Err(Fault::Script(fault.to_string()))
}

/// The records of a script. One is held back, since the last one of a cut script isn't answered.
struct Script<R> {
    records: Records<R>,
    held: Record,
    holds: bool,
    is_cut: bool,
}

impl<R: Read> Script<R> {
    fn new(input: R) -> io::Result<Script<R>> {
        let mut script = Script { records: Records::new(input, 4_194_304)?, held: Record::default(), holds: false, is_cut: false };
        script.read_ahead()?;
        Ok(script)
    }

    fn read_ahead(&mut self) -> io::Result<()> {
        self.holds = self.records.read(&mut self.held)?;
        if !self.holds {
            self.is_cut = self.records.is_cut()?;
        }
        Ok(())
    }

    /// Reads the next record into this one. Is false where none is left.
    fn next(&mut self, record: &mut Record) -> io::Result<bool> {
        if !self.holds {
            return Ok(false);
        }
        std::mem::swap(record, &mut self.held);
        self.read_ahead()?;
        Ok(self.holds || !self.is_cut)
    }
}

/// Answers the records; each line is written when it is known. They go out together, and before the
/// input is waited for.
fn tell(input: impl Read, output: &mut impl Write) -> Result<(), Fault> {
    let mut records = Script::new(input).map_err(|_| Fault::Read)?;
    let mut record = Record::default();
    if !records.next(&mut record).map_err(|_| Fault::Read)? {
        return script(if records.is_cut { "long" } else { "nostart" });
    }
    let Some(version) = Version::of(&record) else {
        return script("nostart");
    };
    let Some(mut state) = start(&record) else {
        return script("badstart");
    };
    writeln!(output, "0 {} {} {}", state.stamp, version.word(), state.plates()).map_err(|_| Fault::Write)?;
    for number in 1.. {
        if cfg!(flush_each_line) || !records.records.has_line() {
            output.flush().map_err(|_| Fault::Write)?;
        }
        if !records.next(&mut record).map_err(|_| Fault::Read)? {
            break;
        }
        if number > 65_536 {
            return script("long");
        }
        let Some((machine, call)) = call_of(version, &record) else {
            return Err(Fault::Script(format!("badrow {number}")));
        };
        let answer = state.apply(machine, call);
        writeln!(output, "{number} {} {}", state.stamp, answer).map_err(|_| Fault::Write)?;
    }
    if records.is_cut { script("long") } else { Ok(()) }
}

fn main() -> std::process::ExitCode {
    if let Some(status) = usage::answer_to_words("usage: ./replay < FILE.csv") {
        return status;
    }
    let mut output = BufWriter::new(io::stdout().lock());
    let end = tell(io::stdin().lock(), &mut output);
    let written = match &end {
        Ok(()) | Err(Fault::Write) => Ok(()),
        Err(Fault::Read) => writeln!(output, "fault read"),
        Err(Fault::Script(fault)) => writeln!(output, "fault {fault}"),
    };
    let written = written.and_then(|()| output.flush());
    u8::from(end.is_err() || written.is_err()).into()
}
