//! Six workers, one for each machine, each in its own thread, on one interlock under a Mutex.
//! Hand-written plain Rust, unproved, for comparison with `cell run`. Each keeps a journal, and the
//! journals are audited. Its one word is the number of turns.

mod audit;
#[allow(dead_code, reason = "each program uses a part of it")]
mod cell;
#[allow(dead_code, reason = "each program uses a part of it")]
mod config;
#[allow(dead_code, reason = "each program uses a part of it")]
mod interlock;
mod machines;
mod toml;

use cell::{Cell, Seat, serve};
use config::Config;
use interlock::State;
use machines::Program;
use std::sync::{Mutex, PoisonError};

/// A number of turns of a machine.
fn work<P: Program>(seat: &mut Seat<P>, interlock: &Mutex<State>, turns: u32) {
    for _ in 0..turns {
        seat.turn(|machine, call| {
            let mut state = interlock.lock().unwrap_or_else(PoisonError::into_inner);
            let answer = state.apply(machine, call);
            Some((answer, state.stamp))
        });
    }
}

fn run(config: &Config, cell: &mut Cell, turns: u32) -> State {
    let interlock = Mutex::new(config.start);
    let state = &interlock;
    std::thread::scope(|scope| {
        scope.spawn(|| work(&mut cell.feed, state, turns));
        scope.spawn(|| work(&mut cell.table, state, turns));
        scope.spawn(|| work(&mut cell.robot, state, turns));
        scope.spawn(|| work(&mut cell.press, state, turns));
        scope.spawn(|| work(&mut cell.deposit, state, turns));
        scope.spawn(|| work(&mut cell.crane, state, turns));
    });
    interlock.into_inner().unwrap_or_else(PoisonError::into_inner)
}

fn main() -> std::process::ExitCode {
    let turns = std::env::args().nth(1).and_then(|word| word.parse().ok()).unwrap_or(1000);
    serve(|config, cell| run(config, cell, turns))
}
