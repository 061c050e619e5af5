//! The interlock of any plant, by its plan, over its library for C.
//!
//! ```no_run
//! use bagunjoki::plan::{Interlock, Plan, Verb};
//!
//! const BYTES: &[u8] = &[/* PLAN_BYTES of `plan header` */];
//! let plan = Plan::open(BYTES).expect("a plan");
//! let cell = Interlock::new(&plan, "10", 0).expect("a start");
//! let reply = cell.ask(1, Verb::Claim, 0, 8);
//! ```
//!
//! Numbers of machines, zones, poses and places are those that `plan header` prints, from 0. Where a reply names no
//! machine, zone or posture, it has `NOTHING`. The duties are those of `bagunjoki_plan.h`.
use crate::{Reply, Rules, Shared};
use std::sync::atomic::AtomicU64;

/// The watch's number as a machine: it inquires, stops and resumes.
pub const WATCH: u8 = 30;

/// Where a reply names no machine, no zone or no posture.
pub const NOTHING: u8 = 255;

/// As the owner in a reply: no machine owns the zone.
pub const NOBODY: u8 = NOTHING;

/// What is asked. The object of `SetPose` is a pose, that of `Advance` a place, that of `Stop` and `Resume` is 0, that of all others a
/// zone.
#[repr(u8)]
#[derive(Clone, Copy, Debug, PartialEq, Eq)]
pub enum Verb {
    Claim = 1,
    Give = 2,
    Yield = 3,
    Take = 4,
    Release = 5,
    SetPose = 6,
    Inquire = 8,
    Stop = 9,
    Resume = 10,
    Advance = 11,
}

/// What `bagunjoki_plan_open` gives. Only the library makes one, so its fields are private.
#[repr(C)]
#[derive(Clone)]
struct Opened {
    is_plan: bool,
    kept: [u64; 4102],
}

unsafe extern "C" {
    fn bagunjoki_plan_open(bytes: *const u8, length: usize) -> Opened;
    safe fn bagunjoki_plan_step(plan: &Opened, word: u64, machine: u8, verb: u8, object: u8) -> Reply;
    fn bagunjoki_plan_start(plan: &Opened, digits: *const u8, count: usize, stamp: u32) -> u64;
    safe fn bagunjoki_plan_restamp(plan: &Opened, word: u64, stamp: u32) -> u64;
    safe fn bagunjoki_plan_stamp(plan: &Opened, word: u64) -> u32;
    safe fn bagunjoki_plan_may_run(word: u64, mask: u64, pattern: u64) -> bool;
}

/// A plan that was opened.
#[derive(Clone)]
pub struct Plan(Opened);

impl Plan {
    /// Opens a plan by its bytes. `None` if they are no plan's.
    pub fn open(bytes: &[u8]) -> Option<Plan> {
        // the library reads these bytes and no others
        let opened = unsafe { bagunjoki_plan_open(bytes.as_ptr(), bytes.len()) };
        opened.is_plan.then_some(Plan(opened))
    }

    /// The stamp of a state's word; `u32::MAX` if the word is no state's.
    pub fn stamp_of(&self, word: u64) -> u32 {
        bagunjoki_plan_stamp(&self.0, word)
    }
}

impl Rules for Plan {
    // no state of any plan has this word
    const NO_WORD: u64 = 0x8000_0000_0000_0002;

    fn step(&self, word: u64, machine: u8, verb: u8, object: u8) -> Reply {
        bagunjoki_plan_step(&self.0, word, machine, verb, object)
    }

    fn stamp(&self, word: u64) -> u32 {
        self.stamp_of(word)
    }

    fn restamp(&self, word: u64, stamp: u32) -> u64 {
        bagunjoki_plan_restamp(&self.0, word, stamp)
    }
}

/// A motor, or a part that stands somewhere: which bits of a word it looks at, and what they have to be. `plan header` prints both.
#[derive(Clone, Copy, Debug)]
pub struct Motor {
    pub mask: u64,
    pub pattern: u64,
}

impl Motor {
    /// Whether a word's state permits it. It stays so until a call of its own machine loses the permission.
    pub fn may_run(self, word: u64) -> bool {
        bagunjoki_plan_may_run(word, self.mask, self.pattern)
    }
}

/// A word of a plan that threads share by a reference.
pub struct Interlock {
    plan: Plan,
    shared: Shared,
}

impl Interlock {
    /// A start: a digit for each place of the plan, 1 where there is a plate, and this stamp. `None` if there is none such.
    pub fn new(plan: &Plan, places: &str, stamp: u32) -> Option<Interlock> {
        // the library reads these bytes and no others
        let start = unsafe { bagunjoki_plan_start(&plan.0, places.as_ptr(), places.len(), stamp) };
        let begin = || Interlock { plan: plan.clone(), shared: Shared(AtomicU64::new(start)) };
        (start != Plan::NO_WORD).then(begin)
    }

    /// The plan.
    pub fn plan(&self) -> &Plan {
        &self.plan
    }

    /// The word now.
    pub fn word(&self) -> u64 {
        self.shared.word()
    }

    /// A call of a machine, with at most this number of exchanges; what `bagunjoki_plan_ask` of the header does.
    pub fn ask(&self, machine: u8, verb: Verb, object: u8, tries: u32) -> Reply {
        self.shared.ask(&self.plan, machine, verb as u8, object, tries)
    }

    /// Asks until it is answered; what `bagunjoki_plan_settle` of the header does.
    pub fn settle(&self, machine: u8, verb: Verb, object: u8) -> Reply {
        self.shared.settle(&self.plan, machine, verb as u8, object)
    }

    /// If the stamp is `from` or later, makes it `to`; what `bagunjoki_plan_renew` of the header does. Whether nothing is left to do.
    pub fn renew(&self, from: u32, to: u32, tries: u32) -> bool {
        self.shared.renew(&self.plan, from, to, tries)
    }
}
