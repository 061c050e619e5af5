//! Two machines at a press, each a thread, as in plan_press.c: the loader puts plates into the press and takes them out.
//!
//!     BAGUNJOKI_PREFIX=PREFIX cargo run --manifest-path ../rust/Cargo.toml --features plan --example plan_press
use bagunjoki::Answer;
use bagunjoki::plan::{Interlock, Motor, Plan, Verb};
use std::thread;

/// What `plan header` prints of this plan, as far as it is used here.
const BYTES: [u8; 62] = [
    2, 1, 4, 2, 1, 0, 1, 0, 1, 1, 1, 0, 1, 1, 3, 0, 0, 0, 0, 0, 0, 0, 0, 0, 1, 1, 4, 0, 0, 0, 0, 0, 0, 0, 0, 0, 1, 1, 1, 0, 0, 0,
    0, 0, 0, 0, 0, 0, 1, 0, 2, 0, 0, 0, 0, 0, 0, 0, 0, 0, 0, 1,
];
const LOADER: u8 = 0;
const PRESS: u8 = 1;
const INTERIOR: u8 = 0;
const LOAD: u8 = 0;
const UNLOAD: u8 = 1;
const CLOSED: u8 = 2;
const TRAVELLING: u8 = 3;
const RAM: Option<Motor> = Some(Motor { mask: 27, pattern: 9 });
const ARM: Option<Motor> = Some(Motor { mask: 3, pattern: 2 });
const ROUNDS: usize = 1000;

/// A call, and the motor that runs before it, if one does.
type Step = (Verb, u8, Option<Motor>);

const PRESS_PROGRAM: [Step; 10] = [
    (Verb::Claim, INTERIOR, None),
    (Verb::SetPose, TRAVELLING, None),
    (Verb::SetPose, LOAD, RAM),
    (Verb::Yield, INTERIOR, None),
    (Verb::Take, INTERIOR, None),
    (Verb::SetPose, TRAVELLING, None),
    (Verb::SetPose, CLOSED, RAM),
    (Verb::SetPose, TRAVELLING, None),
    (Verb::SetPose, UNLOAD, RAM),
    (Verb::Give, INTERIOR, None),
];
const LOADER_PROGRAM: [Step; 3] = [(Verb::Give, INTERIOR, ARM), (Verb::Take, INTERIOR, ARM), (Verb::Release, INTERIOR, None)];

/// Goes through a program again and again, and tells how many calls were done and how often a motor ran.
fn run(cell: &Interlock, machine: u8, program: &[Step]) -> Result<(usize, usize), Answer> {
    let (mut done, mut driven) = (0, 0);
    while done < ROUNDS * program.len() {
        let (verb, object, motor) = program[done % program.len()];
        if !motor.is_none_or(|motor| motor.may_run(cell.word())) {
            thread::yield_now(); // (the motor is off)
            continue;
        }
        // here the motor runs, until it is off and at rest
        cell.renew(5000, 0, 8);
        match cell.ask(machine, verb, object, 8).answer {
            Answer::DONE => {
                done += 1;
                driven += usize::from(motor.is_some());
            }
            Answer::HELD | Answer::NOT_OWNER | Answer::BUSY => thread::yield_now(),
            refusal => return Err(refusal), // one that the program doesn't know: here its motors stop
        }
    }
    Ok((done, driven))
}

fn main() {
    let plan = Plan::open(&BYTES).expect("a plan");
    let cell = &Interlock::new(&plan, "10", 0).expect("a start");
    let machines: [(&str, u8, &[Step]); 2] = [("loader", LOADER, &LOADER_PROGRAM), ("press", PRESS, &PRESS_PROGRAM)];
    thread::scope(|scope| {
        let threads = machines.map(|(name, machine, program)| (name, scope.spawn(move || run(cell, machine, program))));
        for (name, thread) in threads {
            let (done, driven) = thread.join().expect("a thread").expect("no refusal that stops it");
            println!("{name}: {done} calls done, its motor run {driven} times, stopped by 0");
        }
    });
}
