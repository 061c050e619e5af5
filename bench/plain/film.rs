//! The lines of a film in hand-written plain Rust, unproved: a line for the start of a simulation,
//! and one for each turn, for comparison with what `film` writes between head and tail of its page.
//! With the word `--loop` it writes a picture that loops.

mod audit;
#[allow(dead_code, reason = "each program uses a part of it")]
mod cell;
mod config;
#[allow(dead_code, reason = "each program uses a part of it")]
mod interlock;
mod loop_picture;
mod machines;
mod toml;
mod words;

use cell::{Cell, Seat, Status, read_input};
use config::Config;
use interlock::State;
use loop_picture::{Frame, picture};
use machines::{Belt, Crane, Deposit, Feed, Group, Press, Program, Robot, Table, Watch};
use std::fmt::Write as _;
use std::io::Write as _;
use std::process::ExitCode;

/// The most turns that are simulated.
const MOST_TURNS: usize = 100_000;

/// What a film shows of a machine. A motor that is on moves its axis, since none drives at an end; so
/// the positions before the turn say it.
trait Shown: Program {
    fn step(&self) -> &'static str;
    fn positions(&self) -> Vec<Option<i32>>;
    /// The machine's part, after a turn that began with these positions.
    fn part(&self, before: &[Option<i32>]) -> String;
}

/// The positions with `+` or `-` while a motor is on.
fn axes(now: &[Option<i32>], before: &[Option<i32>]) -> String {
    let mut text = String::new();
    for (now, before) in now.iter().zip(before) {
        let comma = if text.is_empty() { "" } else { "," };
        let now = now.unwrap_or(0);
        let motor = match now - before.unwrap_or(0) {
            0 => "",
            1.. => "+",
            _ => "-",
        };
        let _ = write!(text, "{comma}{now}{motor}");
    }
    text
}

fn plates(belt: &Belt) -> Vec<Option<i32>> {
    vec![belt.entry, belt.last]
}

/// A belt that runs carries a plate on.
fn belt_part(belt: &Belt, before: &[Option<i32>]) -> String {
    let runs = plates(belt).iter().zip(before).any(|(now, before)| now.is_some() && before.is_some() && now != before);
    let [entry, last] = [belt.entry, belt.last].map(|plate| plate.map_or(String::new(), |at| at.to_string()));
    format!("{entry},{last},{}", u8::from(runs))
}

impl Shown for Feed {
    fn step(&self) -> &'static str {
        [
            "claim entry", "pose landing", "release entry", "take plate", "start in", "run in", "move on", "",
            "claim exit", "start out", "run out", "halt", "give plate",
        ][self.step as usize]
    }

    fn positions(&self) -> Vec<Option<i32>> {
        plates(&self.belt)
    }

    fn part(&self, before: &[Option<i32>]) -> String {
        belt_part(&self.belt, before)
    }
}

impl Shown for Deposit {
    fn step(&self) -> &'static str {
        [
            "claim entry", "claim exit", "pose landing", "release entry", "take plate", "start run", "run in",
            "run out", "move on", "pose offering", "give plate", "claim back",
        ][self.step as usize]
    }

    fn positions(&self) -> Vec<Option<i32>> {
        plates(&self.belt)
    }

    fn part(&self, before: &[Option<i32>]) -> String {
        belt_part(&self.belt, before)
    }
}

impl Shown for Table {
    fn step(&self) -> &'static str {
        [
            "claim entry", "claim exit", "leave for loading", "move to loading", "pose loading", "release entry",
            "take plate", "leave for unloading", "move to unloading", "pose unloading", "give plate", "claim back",
        ][self.step as usize]
    }

    fn positions(&self) -> Vec<Option<i32>> {
        vec![Some(self.lift), Some(self.turn)]
    }

    fn part(&self, before: &[Option<i32>]) -> String {
        axes(&self.positions(), before)
    }
}

impl Shown for Robot {
    fn step(&self) -> &'static str {
        let steps: &[&str] = match self.group {
            Group::Grasp => &[
                "turn to table", "await plate", "reach table", "grip plate", "leave table", "take plate",
                "release table",
            ],
            Group::Load => &[
                "turn to load", "claim press", "inspect press", "release press", "reach to load", "drop in press",
                "leave loaded", "give to press",
            ],
            Group::Unload => &[
                "turn to unload", "await forged", "reach to unload", "grip forged", "leave unloaded",
                "take forged", "release unloaded",
            ],
            Group::Put => &[
                "turn to deposit", "claim deposit", "reach deposit", "drop on deposit", "leave deposit",
                "give to deposit",
            ],
        };
        steps[self.step as usize - 1]
    }

    fn positions(&self) -> Vec<Option<i32>> {
        vec![Some(self.arm1), Some(self.arm2), Some(self.rotation)]
    }

    fn part(&self, before: &[Option<i32>]) -> String {
        let (grips1, grips2) = (u8::from(self.grips1()), u8::from(self.grips2()));
        format!("{},{grips1},{grips2}", axes(&self.positions(), before))
    }
}

impl Robot {
    /// Whether the first arm's magnet is on.
    pub fn grips1(&self) -> bool {
        match self.group {
            Group::Grasp => self.arm1_loaded || self.step >= 5,
            Group::Load => self.arm1_loaded && self.step < 7,
            Group::Unload | Group::Put => self.arm1_loaded,
        }
    }

    /// Whether the second arm's magnet is on.
    pub fn grips2(&self) -> bool {
        match self.group {
            Group::Unload => self.arm2_loaded || self.step >= 5,
            Group::Put => self.arm2_loaded && self.step < 5,
            Group::Grasp | Group::Load => self.arm2_loaded,
        }
    }
}

impl Crane {
    /// Whether the gripper's magnet is on.
    pub fn grips(&self) -> bool {
        (6..=12).contains(&self.step)
    }
}

impl Shown for Press {
    fn step(&self) -> &'static str {
        [
            "claim first", "leave for middle", "move to middle", "pose middle", "release interior", "take plate",
            "leave for top", "move to top", "pose top", "forge", "leave for bottom", "move to bottom", "pose low",
            "give plate", "claim back",
        ][self.step as usize]
    }

    fn positions(&self) -> Vec<Option<i32>> {
        vec![Some(self.position)]
    }

    fn part(&self, before: &[Option<i32>]) -> String {
        axes(&self.positions(), before)
    }
}

impl Shown for Crane {
    fn step(&self) -> &'static str {
        [
            "", "raise to fetch", "travel to deposit", "await plate", "lower to plate", "grip plate",
            "raise with plate", "take plate", "release deposit", "travel to feed", "claim feed", "lower to feed",
            "drop plate", "raise from feed", "give plate",
        ][self.step as usize]
    }

    fn positions(&self) -> Vec<Option<i32>> {
        vec![Some(self.travel), Some(self.gripper)]
    }

    fn part(&self, before: &[Option<i32>]) -> String {
        format!("{},{}", axes(&self.positions(), before), u8::from(self.grips()))
    }
}

impl Shown for Watch {
    fn step(&self) -> &'static str {
        ""
    }

    fn positions(&self) -> Vec<Option<i32>> {
        Vec::new()
    }

    fn part(&self, _before: &[Option<i32>]) -> String {
        String::new()
    }
}

/// What was written of a machine last.
#[derive(Default)]
struct Seen {
    step: String,
    part: String,
    asked: String,
}

/// The text if it isn't what was seen; then it is seen.
fn text_if_new(seen: &mut String, text: String) -> String {
    if *seen == text {
        return String::new();
    }
    *seen = text.clone();
    text
}

fn step_of<P: Shown>(seat: &Seat<P>) -> String {
    match seat.status() {
        Status::Fine => seat.program.step().to_string(),
        status => format!("{}!{}", seat.program.step(), status.word()),
    }
}

impl Seen {
    fn of<P: Shown>(seat: &Seat<P>) -> Seen {
        let program = &seat.program;
        Seen { step: step_of(seat), part: program.part(&program.positions()), asked: ";".to_string() }
    }
}

/// Owner, flag and posture of each zone, the places, the stamp and the mark, in one word.
fn pack(state: &State) -> u64 {
    let mut word = u64::from(state.stamp) << 40 | u64::from(state.stopped) << 60;
    for (zone, at) in interlock::Zone::ALL.into_iter().zip(&state.zones) {
        let owner = match at.owner {
            None => 0,
            Some(machine) if machine == zone.host() => 1,
            Some(_) => 2,
        };
        word |= (owner | u64::from(at.flag) << 2 | (at.posture as u64) << 3) << (5 * zone as u64);
    }
    state.full.iter().enumerate().fold(word, |word, (place, full)| word | u64::from(*full) << (30 + place))
}

/// The lines so far, with what each machine's last line said, in the order of `Machine::ALL`, and the
/// frames for a picture.
struct Film {
    text: String,
    state: State,
    seen: [Seen; 7],
    frames: Vec<Frame>,
}

impl Film {
    fn new(config: &Config, cell: &Cell) -> Film {
        let seen = [
            Seen::of(&cell.feed),
            Seen::of(&cell.table),
            Seen::of(&cell.robot),
            Seen::of(&cell.press),
            Seen::of(&cell.deposit),
            Seen::of(&cell.crane),
            Seen::of(&cell.watch),
        ];
        let mut text = format!("start;{:x}", pack(&config.start));
        for machine in &seen[..6] {
            let _ = write!(text, ";{},{}", machine.step, machine.part);
        }
        text.push('\n');
        let frames = vec![Frame::of(cell, config.start, [false; 2], false)];
        Film { text, state: config.start, seen, frames }
    }

    /// A turn of a machine, and its line.
    fn turn<P: Shown>(&mut self, seat: &mut Seat<P>, letter: char) {
        let (before, word) = (seat.program.positions(), pack(&self.state));
        let (is_busy, state) = (letter.is_ascii_uppercase(), &mut self.state);
        let mut asked = ";".to_string();
        seat.turn(|machine, call| {
            if is_busy {
                asked = format!("{call};busy");
                return None;
            }
            let answer = state.apply(machine, call);
            asked = format!("{call};{answer}");
            Some((answer, state.stamp))
        });
        let seen = &mut self.seen[P::MACHINE as usize];
        let step = text_if_new(&mut seen.step, step_of(seat));
        let part = text_if_new(&mut seen.part, seat.program.part(&before));
        let is_as_before = seen.asked == asked;
        let word = if pack(state) == word { String::new() } else { format!("{:x}", pack(state)) };
        self.text.push(letter);
        if !(is_as_before && step.is_empty() && part.is_empty() && word.is_empty()) {
            let _ = write!(self.text, ";{step};{asked};{word};{part}");
        }
        self.text.push('\n');
        seen.asked = asked;
    }

    fn keep(&mut self, cell: &Cell, letter: char) {
        let runs = [&self.seen[0], &self.seen[4]].map(|belt| belt.part.ends_with('1'));
        let takes = letter == 'f' && self.seen[0].asked == "take z6;done";
        self.frames.push(Frame::of(cell, self.state, runs, takes));
    }
}

fn film(config: &Config) -> Film {
    let mut cell = Cell::new(config);
    let mut film = Film::new(config, &cell);
    for letter in config.schedule.chars().take(MOST_TURNS) {
        match letter.to_ascii_lowercase() {
            'f' => film.turn(&mut cell.feed, letter),
            't' => film.turn(&mut cell.table, letter),
            'r' => film.turn(&mut cell.robot, letter),
            'p' => film.turn(&mut cell.press, letter),
            'd' => film.turn(&mut cell.deposit, letter),
            'c' => film.turn(&mut cell.crane, letter),
            _ => film.turn(&mut cell.watch, letter),
        }
        film.keep(&cell, letter);
    }
    if config.schedule.len() > MOST_TURNS {
        let _ = writeln!(film.text, "cut {}", config.schedule.len());
    }
    film
}

fn main() -> ExitCode {
    let (text, is_well) = match read_input() {
        Ok(config) if std::env::args().nth(1).as_deref() == Some("--loop") => (picture(&film(&config).frames), true),
        Ok(config) => (film(&config).text, true),
        Err(fault) => (format!("{fault}\n"), false),
    };
    let written = std::io::stdout().write_all(text.as_bytes());
    u8::from(!is_well || written.is_err()).into()
}
