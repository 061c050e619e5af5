//! Plates come to a source and go from a sink, through the crate for cargo: of each call its order in the history, as a log has it, and
//! the answer.
use bagunjoki::Answer;
use bagunjoki::plan::{Interlock, Plan, Verb, WATCH};

/// The press of plan_log.c, whose loader has a hand, a source, and a tray, a sink.
const BYTES: [u8; 63] = [
    2, 1, 4, 3, 1, 0, 1, 0, 2, 1, 2, 1, 1, 1, 3, 0, 0, 0, 0, 0, 0, 0, 0, 0, 1, 1, 4, 0, 0, 0, 0, 0, 0, 0, 0, 0, 1, 1, 1, 0, 0, 0,
    0, 0, 0, 0, 0, 0, 1, 0, 2, 0, 0, 0, 0, 0, 0, 0, 0, 0, 64, 128, 1,
];
const LOADER: u8 = 0;
const PRESS: u8 = 1;
const HAND: u8 = 0;
const TRAY: u8 = 1;
const DIE: u8 = 2;

fn main() {
    let plan = Plan::open(&BYTES).expect("a plan");
    let cell = Interlock::new(&plan, "010", 7).expect("a start");
    let ask = |machine, verb, object| {
        let reply = cell.ask(machine, verb, object, 8);
        let order = 2 * plan.stamp_of(reply.next) + u32::from(reply.answer != Answer::DONE);
        println!("{order}: {machine} {} {object}: {}", verb as u8, reply.answer.0);
    };
    ask(LOADER, Verb::Advance, TRAY);
    ask(LOADER, Verb::Advance, TRAY);
    ask(LOADER, Verb::Advance, HAND);
    ask(LOADER, Verb::Advance, HAND);
    ask(PRESS, Verb::Advance, HAND);
    ask(PRESS, Verb::Advance, DIE);
    ask(WATCH, Verb::Stop, 0);
    ask(LOADER, Verb::Advance, TRAY);
    let settled = cell.settle(WATCH, Verb::Resume, 0);
    println!("{}", settled.answer.0);
    println!("{}", cell.settle(LOADER, Verb::Advance, DIE + 1).answer.0);
}
