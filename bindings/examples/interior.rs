//! Press and robot ask for the interior of the press.
//!
//!     BAGUNJOKI_PREFIX=PREFIX cargo run --manifest-path ../rust/Cargo.toml --example interior
use bagunjoki::{Interlock, Machine, Reply, Verb, Zone, stamp_of};

fn main() {
    let cell = Interlock::new("0000000000", 0).expect("a start");
    let ask = |what: &str, machine, verb| {
        let Reply { next, answer, owner, posture, .. } = cell.ask(machine, verb, Zone::Z3 as u8, 8);
        println!("{what}: answer {}, owner {owner}, posture {posture}, stamp {}", answer.0, stamp_of(next));
    };
    let rows = [
        ("press claims", Machine::Press, Verb::Claim),
        ("robot claims", Machine::Robot, Verb::Claim),
        ("press releases", Machine::Press, Verb::Release),
        ("robot claims", Machine::Robot, Verb::Claim),
        ("watch inquires", Machine::Watch, Verb::Inquire),
    ];
    for (what, machine, verb) in rows {
        ask(what, machine, verb);
    }
    // (a plant renews from a stamp near the end)
    assert!(cell.renew(2, 0, 8));
    ask("renewed, press claims", Machine::Press, Verb::Claim);
}
