//! The interlock of the production cell, over its library for C; with the feature `plan`, also that of any plant
//! (`plan`), over another library.
//!
//! ```no_run
//! use bagunjoki::{Answer, Interlock, Machine, Verb, Zone};
//!
//! let cell = Interlock::new("0000000000", 0).expect("a start");
//! let reply = cell.ask(Machine::Press, Verb::Claim, Zone::Z3 as u8, 8);
//! assert_eq!(reply.answer, Answer::DONE);
//! ```
//!
//! The library's functions are proved. The loops here do what those of `bagunjoki.h` do, and no proof says so. Only they
//! write the word, which is private: safe Rust can't spoil it. One caller a machine is your duty, as `docs/FROM_C.md` says.
use std::sync::atomic::{AtomicU64, Ordering::SeqCst};

#[cfg(feature = "plan")]
pub mod plan;

/// Who calls. `Nobody` is an owner, and makes no calls.
#[repr(u8)]
#[derive(Clone, Copy, Debug, PartialEq, Eq)]
pub enum Machine {
    Nobody = 0,
    Feed = 1,
    Table = 2,
    Robot = 3,
    Press = 4,
    Deposit = 5,
    Crane = 6,
    Watch = 7,
}

/// The spaces that two machines use.
#[repr(u8)]
#[derive(Clone, Copy, Debug, PartialEq, Eq)]
pub enum Zone {
    Z1 = 1,
    Z2 = 2,
    Z3 = 3,
    Z4 = 4,
    Z5 = 5,
    Z6 = 6,
}

/// Of a machine: it gives the machine's zones their postures.
#[repr(u8)]
#[derive(Clone, Copy, Debug, PartialEq, Eq)]
pub enum Pose {
    Turning = 1,
    Loading = 2,
    Unloading = 3,
    Travelling = 4,
    Middle = 5,
    Low = 6,
    Top = 7,
    Running = 8,
    Landing = 9,
    Halted = 10,
    Offering = 11,
    Standing = 12,
}

/// What is asked. The object of `SetPose` is a pose, that of `Advance`, `Stop` and `Resume` is 0, that of all others a zone.
#[repr(u8)]
#[derive(Clone, Copy, Debug, PartialEq, Eq)]
pub enum Verb {
    Claim = 1,
    Give = 2,
    Yield = 3,
    Take = 4,
    Release = 5,
    SetPose = 6,
    Advance = 7,
    Inquire = 8,
    Stop = 9,
    Resume = 10,
}

/// What is answered. Only `DONE` changes the word; 1 to 16 are refusals.
#[repr(transparent)]
#[derive(Clone, Copy, Debug, PartialEq, Eq)]
pub struct Answer(pub u8);

impl Answer {
    pub const DONE: Answer = Answer(0);
    pub const NOT_PARTY: Answer = Answer(1);
    pub const HELD: Answer = Answer(2);
    pub const ALREADY_MINE: Answer = Answer(3);
    pub const SHUT: Answer = Answer(4);
    pub const NOT_OWNER: Answer = Answer(5);
    pub const PLATE_IN_ZONE: Answer = Answer(6);
    pub const NO_PLATE: Answer = Answer(7);
    pub const PLACE_FULL: Answer = Answer(8);
    pub const WRONG_WAY: Answer = Answer(9);
    pub const JUMP: Answer = Answer(10);
    pub const NOT_AT_WORK: Answer = Answer(11);
    pub const NO_POSE: Answer = Answer(12);
    pub const WORN: Answer = Answer(13);
    pub const STOPPED: Answer = Answer(14);
    pub const NOT_STOPPED: Answer = Answer(15);
    pub const IN_USE: Answer = Answer(16);
    pub const SHOWN: Answer = Answer(32);
    pub const NO_CALL: Answer = Answer(64);
    pub const NO_STATE: Answer = Answer(65);
    /// Of `ask` alone: others made a change before each of its tries. Ask again.
    pub const BUSY: Answer = Answer(66);
}

/// The last stamp: when a word has it, the interlock is worn. `renew` keeps it from that.
pub const LAST_STAMP: u32 = 1_048_575;

/// What a call gives back.
#[repr(C)]
#[derive(Clone, Copy, Debug)]
pub struct Reply {
    /// The word after the call. Unless the answer is `DONE`, the one before it.
    pub next: u64,
    pub answer: Answer,
    /// The number of the machine that the answer names; if it names none, 0. So are `zone` and `posture`.
    pub owner: u8,
    pub zone: u8,
    pub posture: u8,
    pub plate: bool,
}

unsafe extern "C" {
    safe fn bagunjoki_step(word: u64, machine: u8, verb: u8, object: u8) -> Reply;
    fn bagunjoki_start(digits: *const u8, length: usize, stamp: u32) -> u64;
    safe fn bagunjoki_stamp(word: u64) -> u32;
    safe fn bagunjoki_restamp(word: u64, stamp: u32) -> u64;
}

/// The stamp of a state's word: the first one, or that of the last renewal, and one more for each call done since.
pub fn stamp_of(word: u64) -> u32 {
    bagunjoki_stamp(word)
}

/// What answers a call on a word: the cell's library, or an opened plan.
trait Rules {
    /// Instead of a word.
    const NO_WORD: u64;

    fn step(&self, word: u64, machine: u8, verb: u8, object: u8) -> Reply;
    fn stamp(&self, word: u64) -> u32;
    fn restamp(&self, word: u64, stamp: u32) -> u64;
}

/// A word that threads share, with the loops of the headers.
struct Shared(AtomicU64);

impl Shared {
    fn word(&self) -> u64 {
        self.0.load(SeqCst)
    }

    fn ask(&self, rules: &impl Rules, machine: u8, verb: u8, object: u8, tries: u32) -> Reply {
        let mut word = self.word();
        for _ in 0..tries {
            let reply = rules.step(word, machine, verb, object);
            if reply.answer != Answer::DONE {
                return reply;
            }
            match self.0.compare_exchange(word, reply.next, SeqCst, SeqCst) {
                Ok(_) => return reply,
                Err(found) => word = found,
            }
        }
        let reply = rules.step(word, machine, verb, object);
        match reply.answer {
            Answer::DONE => Reply { answer: Answer::BUSY, next: word, ..reply },
            _ => reply,
        }
    }

    fn settle(&self, rules: &impl Rules, machine: u8, verb: u8, object: u8) -> Reply {
        loop {
            let reply = self.ask(rules, machine, verb, object, LAST_STAMP);
            if reply.answer != Answer::BUSY {
                return reply;
            }
        }
    }

    fn renew<R: Rules>(&self, rules: &R, from: u32, to: u32, tries: u32) -> bool {
        let mut word = self.word();
        for _ in 0..tries {
            let next = rules.restamp(word, to);
            if rules.stamp(word) < from || next == R::NO_WORD {
                break;
            }
            match self.0.compare_exchange(word, next, SeqCst, SeqCst) {
                Ok(_) => return true,
                Err(found) => word = found,
            }
        }
        rules.stamp(word) < from
    }
}

/// The rules of the cell.
struct Cell;

impl Rules for Cell {
    const NO_WORD: u64 = u64::MAX;

    fn step(&self, word: u64, machine: u8, verb: u8, object: u8) -> Reply {
        bagunjoki_step(word, machine, verb, object)
    }

    fn stamp(&self, word: u64) -> u32 {
        bagunjoki_stamp(word)
    }

    fn restamp(&self, word: u64, stamp: u32) -> u64 {
        bagunjoki_restamp(word, stamp)
    }
}

/// A word that threads share by a reference.
pub struct Interlock(Shared);

impl Interlock {
    /// A cell with plates at these places, ten digits 0 or 1, and this stamp. `None` if there is no such start.
    pub fn new(places: &str, stamp: u32) -> Option<Interlock> {
        // the library reads these bytes and no others
        let start = unsafe { bagunjoki_start(places.as_ptr(), places.len(), stamp) };
        (start != Cell::NO_WORD).then(|| Interlock(Shared(AtomicU64::new(start))))
    }

    /// The word now.
    pub fn word(&self) -> u64 {
        self.0.word()
    }

    /// A call, with at most this number of exchanges; what `bagunjoki_ask` of the header does.
    pub fn ask(&self, machine: Machine, verb: Verb, object: u8, tries: u32) -> Reply {
        self.0.ask(&Cell, machine as u8, verb as u8, object, tries)
    }

    /// Asks until it is answered; what `bagunjoki_settle` of the header does.
    pub fn settle(&self, machine: Machine, verb: Verb, object: u8) -> Reply {
        self.0.settle(&Cell, machine as u8, verb as u8, object)
    }

    /// If the stamp is `from` or later, makes it `to`; what `bagunjoki_renew` of the header does. Whether nothing is left to do.
    pub fn renew(&self, from: u32, to: u32, tries: u32) -> bool {
        self.0.renew(&Cell, from, to, tries)
    }
}
