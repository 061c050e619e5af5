//! The project in Rust: the interlock on one `AtomicU64`, called by seven threads, which log what
//! they were told. The rules of calls are those of `bench/plain/interlock.rs`; here are the word,
//! the threads and the log.
//!
//!   rustc --edition 2024 -O -o word exercises/project/word.rs
//!   ./word 20000 > log.csv; exercises/judge.py log.csv
//!
//! The first argument is the number of calls of each machine. With a second one, `store`, a plain
//! store stands in place of the compare-exchange.

#[allow(dead_code)]
#[path = "../../bench/plain/interlock.rs"]
mod interlock;
#[path = "../../bench/plain/words.rs"]
mod words;

use interlock::{Answer, At, Call, Machine, Pose, Posture, State, Zone};
use std::sync::Barrier;
use std::sync::atomic::{AtomicU64, Ordering::SeqCst};
use std::{env, thread};

const TRIES: u32 = 3;
const PLACES: &str = "1001000010";
const POSTURES: [Posture; 4] = [Posture::Closed, Posture::Moving, Posture::OpenIn, Posture::OpenOut];

/// The two machines that use each zone, its host first.
const PARTIES: [[Machine; 2]; 6] = [
    [Machine::Table, Machine::Feed],
    [Machine::Table, Machine::Robot],
    [Machine::Press, Machine::Robot],
    [Machine::Deposit, Machine::Robot],
    [Machine::Deposit, Machine::Crane],
    [Machine::Feed, Machine::Crane],
];

/// The 64 bits of `docs/MODEL.md`.
fn pack(state: &State) -> u64 {
    let mut word = u64::from(state.stamp) << 40 | u64::from(state.stopped) << 60;
    for (zone, at) in state.zones.iter().enumerate() {
        let owner = PARTIES[zone].iter().position(|it| Some(*it) == at.owner).map_or(0, |it| it as u64 + 1);
        word |= (owner | u64::from(at.flag) << 2 | (at.posture as u64) << 3) << (5 * zone);
    }
    for (place, full) in state.full.iter().enumerate() {
        word |= u64::from(*full) << (30 + place);
    }
    word
}

fn unpack(word: u64) -> State {
    let zones = std::array::from_fn(|zone| {
        let bits = (word >> (5 * zone) & 31) as usize;
        let owner = (bits & 3).checked_sub(1).map(|it| PARTIES[zone][it]);
        At { owner, flag: bits & 4 != 0, posture: POSTURES[bits >> 3] }
    });
    let full = std::array::from_fn(|place| word >> (30 + place) & 1 == 1);
    State { zones, full, stamp: (word >> 40 & 0xF_FFFF) as u32, stopped: word >> 60 & 1 == 1 }
}

struct Interlock {
    word: AtomicU64,
    stores: bool,
}

impl Interlock {
    /// Puts `new` in place of `old`, and returns the word that was there.
    fn exchange(&self, old: u64, new: u64) -> u64 {
        if self.stores {
            let found = self.word.load(SeqCst);
            if found == old {
                thread::yield_now();
                self.word.store(new, SeqCst);
            }
            return found;
        }
        self.word.compare_exchange(old, new, SeqCst, SeqCst).unwrap_or_else(|found| found)
    }

    /// Makes a call, and returns the lost exchanges and what the caller is told.
    fn ask(&self, machine: Machine, call: Call) -> (u32, String) {
        let mut word = self.word.load(SeqCst);
        for lost in 0.. {
            let mut state = unpack(word);
            let answer = state.apply(machine, call);
            if answer == Answer::Done && lost == TRIES {
                return (lost, format!("{} busy {lost}", unpack(word).stamp));
            }
            if answer != Answer::Done {
                return (lost, format!("{} {answer}", state.stamp));
            }
            if machine as usize % 2 == 0 {
                thread::yield_now();
            }
            let found = self.exchange(word, pack(&state));
            if found == word {
                return (lost, format!("{} {answer}", state.stamp));
            }
            word = found;
        }
        unreachable!()
    }
}

/// A call of the machine, chosen by a number that looks random.
fn choose_call(machine: Machine, number: u64) -> Call {
    let own: Vec<Zone> = Zone::ALL.into_iter().filter(|it| PARTIES[*it as usize].contains(&machine)).collect();
    let zones = if own.is_empty() { Zone::ALL.to_vec() } else { own };
    let zone = zones[number as usize / 16 % zones.len()];
    match (machine, number % 16) {
        (Machine::Watch, 0) => Call::Stop,
        (Machine::Watch, 1..5) => Call::Resume,
        (_, 0..4) => Call::Claim(zone),
        (_, 4 | 5) => Call::Give(zone),
        (_, 6 | 7) => Call::Take(zone),
        (_, 8 | 9) => Call::Release(zone),
        (_, 10) => Call::Yield(zone),
        (_, 11) => Call::Inquire(zone),
        (_, 12) => Call::Advance,
        _ => Call::SetPose(Pose::WORDS[number as usize / 128 % 12].1),
    }
}

fn journal(interlock: &Interlock, machine: Machine, calls: u32) -> String {
    let (mut text, mut number) = (String::new(), machine as u64 + 1);
    for _ in 0..calls {
        number = number.wrapping_mul(6_364_136_223_846_793_005).wrapping_add(1_442_695_040_888_963_407);
        let call = choose_call(machine, number >> 33);
        let (lost, told) = interlock.ask(machine, call);
        let call = call.to_string().replace(' ', ",");
        text += &format!("{},{call},{lost},{told}\n", machine.word());
    }
    text
}

fn main() {
    let arguments: Vec<String> = env::args().collect();
    let calls = arguments.get(1).and_then(|it| it.parse().ok()).unwrap_or(20_000);
    let start = State::start(PLACES, 0).expect("these places are a start");
    let stores = arguments.get(2).is_some_and(|it| it == "store");
    let interlock = Interlock { word: AtomicU64::new(pack(&start)), stores };
    let all = Barrier::new(7);
    println!("start,{PLACES},{TRIES}");
    thread::scope(|scope| {
        let threads = Machine::ALL.map(|machine| {
            let (interlock, all) = (&interlock, &all);
            scope.spawn(move || {
                all.wait();
                journal(interlock, machine, calls)
            })
        });
        for it in threads {
            print!("{}", it.join().expect("no thread panics"));
        }
    });
}
