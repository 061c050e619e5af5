//! The simulation of the cell in hand-written plain Rust, unproved, for comparison with `cell sim`.
//! Like the proved program, it keeps a history of all calls and a journal for each machine, and
//! audits the journals.

mod audit;
#[allow(dead_code, reason = "each program uses a part of it")]
mod cell;
mod config;
#[allow(dead_code, reason = "each program uses a part of it")]
mod interlock;
mod machines;
mod toml;
mod usage;

use cell::{Cell, serve};
use config::Config;
use interlock::{Answer, Call, Machine, State};

struct Event {
    _machine: Machine,
    _call: Call,
    _answer: Answer,
}

/// The state after a schedule.
fn run(config: &Config, cell: &mut Cell) -> State {
    let mut state = config.start;
    let mut history = Vec::new();
    for letter in config.schedule.bytes() {
        let is_busy = letter.is_ascii_uppercase();
        let ask = |machine, call| {
            if is_busy {
                return None;
            }
            let answer = state.apply(machine, call);
            history.push(Event { _machine: machine, _call: call, _answer: answer });
            Some((answer, state.stamp))
        };
        match letter.to_ascii_lowercase() {
            b'f' => cell.feed.turn(ask),
            b't' => cell.table.turn(ask),
            b'r' => cell.robot.turn(ask),
            b'p' => cell.press.turn(ask),
            b'd' => cell.deposit.turn(ask),
            b'c' => cell.crane.turn(ask),
            _ => cell.watch.turn(ask),
        }
    }
    std::hint::black_box(history);
    state
}

fn main() -> std::process::ExitCode {
    usage::answer_to_words("usage: ./sim < FILE.toml").unwrap_or_else(|| serve(run))
}
