//! What the plain programs for the cell share: configurations, the machines' turns and logs, and
//! the report. Hand-written and unproved.

use crate::audit::{Entry, audit};
use crate::config::{Config, read_config};
use crate::interlock::{Answer, Call, Machine, Refusal, State, owner_word};
use crate::machines::{Crane, Deposit, Feed, Press, Program, Robot, Table, Watch};
use std::fmt::Write as _;
use std::io::{Read, Write};
use std::process::ExitCode;

#[derive(Clone, Copy, PartialEq, Eq)]
pub enum Status {
    Fine,
    Worn,
    Refused,
}

impl Status {
    pub fn word(self) -> &'static str {
        match self {
            Status::Fine => "ok",
            Status::Worn => "worn",
            Status::Refused => "refused",
        }
    }
}

/// What is stored of a machine: its counts, its status, and its settled calls.
struct Log {
    turns: u64,
    done: u64,
    read: u64,
    refused: u64,
    busy: u64,
    status: Status,
    journal: Vec<Entry>,
}

pub struct Seat<P> {
    pub program: P,
    log: Log,
}

impl<P: Program> Seat<P> {
    fn new(program: P) -> Seat<P> {
        let log = Log { turns: 0, done: 0, read: 0, refused: 0, busy: 0, status: Status::Fine, journal: Vec::new() };
        Seat { program, log }
    }

    pub fn status(&self) -> Status {
        self.log.status
    }

    /// A turn of its program: a step with a call, or one that drives. The call is answered with the
    /// stamp after it, or finds the interlock busy.
    #[inline(always)]
    pub fn turn(&mut self, ask: impl FnOnce(Machine, Call) -> Option<(Answer, u32)>) {
        let log = &mut self.log;
        if log.status != Status::Fine {
            return;
        }
        log.turns += 1;
        let Some((call, waits)) = self.program.asks() else {
            return self.program.drive();
        };
        let Some((answer, stamp)) = ask(P::MACHINE, call) else {
            log.busy += 1;
            return;
        };
        log.journal.push(Entry { call, answer, stamp });
        match answer {
            Answer::Done => {
                log.done += 1;
                self.program.finish_call();
            }
            Answer::Shown(at) => {
                log.read += 1;
                self.program.take_answer(at);
            }
            Answer::Refused(refusal) => {
                log.refused += 1;
                if refusal == Refusal::Worn {
                    log.status = Status::Worn;
                } else if refusal != Refusal::Stopped && !waits(refusal) {
                    log.status = Status::Refused;
                }
            }
        }
    }
}

pub struct Cell {
    pub feed: Seat<Feed>,
    pub table: Seat<Table>,
    pub robot: Seat<Robot>,
    pub press: Seat<Press>,
    pub deposit: Seat<Deposit>,
    pub crane: Seat<Crane>,
    pub watch: Seat<Watch>,
}

impl Cell {
    pub fn new(config: &Config) -> Cell {
        let (start, [arm1, arm2, rotation, turn, gripper]) = (&config.start, config.gauges);
        Cell {
            feed: Seat::new(Feed::new(start)),
            table: Seat::new(Table::new(start, turn)),
            robot: Seat::new(Robot::new(start, arm1, arm2, rotation)),
            press: Seat::new(Press::new(start)),
            deposit: Seat::new(Deposit::new(start)),
            crane: Seat::new(Crane::new(start, gripper)),
            watch: Seat::new(Watch::new()),
        }
    }

    fn logs(&self) -> [(Machine, &Log); 7] {
        [
            (Machine::Feed, &self.feed.log),
            (Machine::Table, &self.table.log),
            (Machine::Robot, &self.robot.log),
            (Machine::Press, &self.press.log),
            (Machine::Deposit, &self.deposit.log),
            (Machine::Crane, &self.crane.log),
            (Machine::Watch, &self.watch.log),
        ]
    }

    /// The report of a run, and whether it succeeded.
    pub fn report(&self, start: &State, end: &State) -> (String, bool) {
        let mut text = String::new();
        let _ = writeln!(text, "version 2");
        let _ = writeln!(text, "start {} {}", digits(&start.full), start.stamp);
        for (machine, log) in self.logs() {
            let Log { turns, done, read, refused, busy, .. } = log;
            let status = log.status.word();
            let _ = writeln!(text, "{} turns {turns} done {done} read {read} refused {refused} busy {busy} {status}", machine.word());
        }
        for (number, at) in (1..).zip(&end.zones) {
            let _ = writeln!(text, "zone z{number} {} {} {}", owner_word(at.owner), u8::from(at.flag), at.posture.word());
        }
        let _ = writeln!(text, "places {}", digits(&end.full));
        let (robot, table, crane) = (&self.robot.program, &self.table.program, &self.crane.program);
        let _ = writeln!(
            text,
            "axes press {} arm1 {} arm2 {} rotation {} lift {} turn {} crane {} gripper {}",
            self.press.program.position, robot.arm1, robot.arm2, robot.rotation, table.lift, table.turn, crane.travel, crane.gripper
        );
        let _ = writeln!(text, "stamp {} plates {} stopped {}", end.stamp, end.plates(), u8::from(end.stopped));
        let journals = self.logs().map(|(machine, log)| (machine, &log.journal[..]));
        let audited = audit(&journals, start, end);
        let _ = writeln!(text, "audit {}", audited.as_ref().err().map_or("ok", String::as_str));
        let is_fine = self.logs().iter().all(|(_, log)| log.status == Status::Fine);
        (text, is_fine && audited.is_ok())
    }
}

fn digits(full: &[bool; 10]) -> String {
    full.iter().map(|full| if *full { '1' } else { '0' }).collect()
}

/// The configuration on standard input, or the line that says why there is none.
pub fn read_input() -> Result<Config, String> {
    let mut bytes = Vec::new();
    std::io::stdin().take(2_097_153).read_to_end(&mut bytes).map_err(|_| "fault read".to_string())?;
    read_config(&bytes).map_err(|fault| format!("fault config {fault}"))
}

/// Reads the configuration from standard input, runs it, and writes the report.
pub fn serve(run: impl FnOnce(&Config, &mut Cell) -> State) -> ExitCode {
    let config = match read_input() {
        Ok(config) => config,
        Err(fault) => {
            println!("{fault}");
            return 1.into();
        }
    };
    let mut cell = Cell::new(&config);
    let end = run(&config, &mut cell);
    let (text, is_well) = cell.report(&config.start, &end);
    let written = std::io::stdout().write_all(text.as_bytes());
    u8::from(!is_well || written.is_err()).into()
}
