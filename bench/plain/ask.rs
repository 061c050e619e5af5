//! The interlock in plain Rust, three times: its rules on the bits of the word, with a load, a
//! match and a compare-exchange; the same rules on a word under a Mutex; and a bare load and
//! compare-exchange without rules. Reads letters, each of which says what is done next, and writes a
//! line for each: its name, the nanoseconds that it took, and the digest, or 0.
//!
//! `d` is a digest of the replies to random calls. 1,000,000 times: `w` asks on the word, `m` under
//! the Mutex, `b` without rules; `s` makes a step of a word, `t` one that first tests the word. By `W`
//! and `M` six threads ask 150,000 times each.

use std::hint::black_box;
use std::io::Read;
use std::sync::Mutex;
use std::sync::atomic::{AtomicU64, Ordering::SeqCst};
use std::thread;
use std::time::Instant;

#[derive(Clone, Copy, PartialEq, Eq, Debug)]
enum Machine { Feed, Table, Robot, Press, Deposit, Crane, Watch }
use Machine::*;

#[derive(Clone, Copy, PartialEq, Eq, Debug)]
enum Refusal { NotParty, Held(Machine), AlreadyMine, Shut(u8), NotOwner(Option<Machine>), PlateInZone(usize), NoPlate, PlaceFull, WrongWay, Jump, NotAtWork, NoPose, Worn, Stopped, NotStopped, InUse }
use Refusal::*;

#[derive(Clone, Copy, PartialEq, Eq, Debug)]
enum Answer { Done, Shown { owner: Option<Machine>, flag: bool, posture: u8 }, Refused(Refusal) }

#[derive(Clone, Copy, PartialEq, Eq, Debug)]
enum Call { Claim(usize), Give(usize), Yield(usize), Take(usize), Release(usize), SetPose(usize), Advance, Inquire(usize), Stop, Resume }
use Call::*;

#[derive(Clone, Copy, PartialEq, Eq, Debug)]
enum Reply { Settled(Answer, u32), Busy { lost: u8, stamp: u32 } }

const MACHINES: [Machine; 6] = [Feed, Table, Robot, Press, Deposit, Crane];
const HOSTS: [Machine; 6] = [Table, Table, Press, Deposit, Deposit, Feed];
const GUESTS: [Machine; 6] = [Feed, Robot, Robot, Robot, Crane, Crane];
const CLOSED: u8 = 0;
const MOVING: u8 = 1;
const IN: u8 = 2;
const OUT: u8 = 3;
const FEED_END: u64 = 1 << 31;
const DEP_END: u64 = 1 << 38;
const STAMP: u64 = 1 << 40;
const LAST: u64 = 1_048_575 << 40;
const MARK: u64 = 1 << 60;

// Giver, receiver, and the bits of the giving and the receiving place.
type Row = (Machine, Machine, u32, u32);

fn row(z: usize, posture: u8) -> Option<Row> {
    Some(match (z, posture) {
        (0, IN) => (Feed, Table, 31, 32),
        (1, OUT) => (Table, Robot, 32, 33),
        (2, IN) => (Robot, Press, 33, 34),
        (2, OUT) => (Press, Robot, 35, 36),
        (3, IN) => (Robot, Deposit, 36, 37),
        (4, OUT) => (Deposit, Crane, 38, 39),
        (5, IN) => (Crane, Feed, 39, 30),
        _ => return None,
    })
}

// turning, loading, unloading, travelling, middle, low, top, running, landing, halted, offering, standing
fn postures(m: Machine, pose: usize) -> &'static [(usize, u8)] {
    match (m, pose) {
        (Table, 0) => &[(0, MOVING), (1, MOVING)],
        (Table, 1) => &[(0, IN), (1, CLOSED)],
        (Table, 2) => &[(0, CLOSED), (1, OUT)],
        (Press, 3) => &[(2, MOVING)],
        (Press, 4) => &[(2, IN)],
        (Press, 5) => &[(2, OUT)],
        (Press, 6) => &[(2, CLOSED)],
        (Feed, 7) => &[(5, MOVING)],
        (Feed, 8) => &[(5, IN)],
        (Feed, 9) => &[(5, CLOSED)],
        (Deposit, 7) => &[(3, MOVING), (4, MOVING)],
        (Deposit, 8) => &[(3, IN), (4, CLOSED)],
        (Deposit, 9) => &[(3, CLOSED), (4, CLOSED)],
        (Deposit, 10) => &[(3, CLOSED), (4, OUT)],
        (Deposit, 11) => &[(3, IN), (4, OUT)],
        _ => &[],
    }
}

fn owner(w: u64, z: usize) -> u64 { w >> (5 * z) & 3 }
fn flag(w: u64, z: usize) -> bool { w >> (5 * z + 2) & 1 == 1 }
fn posture(w: u64, z: usize) -> u8 { (w >> (5 * z + 3) & 3) as u8 }
fn full(w: u64, bit: u32) -> bool { w >> bit & 1 == 1 }
fn with_owner(w: u64, z: usize, code: u64) -> u64 { w & !(3 << (5 * z)) | code << (5 * z) }
fn with_posture(w: u64, z: usize, p: u8) -> u64 { w & !(3 << (5 * z + 3)) | u64::from(p) << (5 * z + 3) }
fn code(m: Machine, z: usize) -> u64 { if m == HOSTS[z] { 1 } else if m == GUESTS[z] { 2 } else { 0 } }

fn who(w: u64, z: usize) -> Option<Machine> {
    match owner(w, z) { 0 => None, 1 => Some(HOSTS[z]), _ => Some(GUESTS[z]) }
}

// The refusals common to all calls that need the zone.
fn require_held(w: u64, m: Machine, z: usize) -> Result<u64, Refusal> {
    let mine = code(m, z);
    if mine == 0 { Err(NotParty) } else if owner(w, z) != mine { Err(NotOwner(who(w, z))) } else { Ok(mine) }
}

fn in_use(w: u64, m: Machine, z: usize) -> Result<(), Refusal> {
    if m == Feed && z == 0 && posture(w, 5) == MOVING && w & FEED_END != 0 { Err(InUse) } else { Ok(()) }
}

fn unless(refused: bool, r: Refusal) -> Result<(), Refusal> { if refused { Err(r) } else { Ok(()) } }
fn bump(w: u64) -> Result<u64, Refusal> { unless(w & LAST == LAST, Worn)?; Ok(w + STAMP) }
fn not_stopped(w: u64) -> Result<(), Refusal> { unless(w & MARK != 0, Stopped) }

fn claim(w: u64, m: Machine, z: usize) -> Result<u64, Refusal> {
    let mine = code(m, z);
    unless(mine == 0, NotParty)?;
    not_stopped(w)?;
    unless(owner(w, z) == mine, AlreadyMine)?;
    if let Some(other) = who(w, z) { return Err(Held(other)); }
    unless(mine == 2 && posture(w, z) < IN, Shut(posture(w, z)))?;
    bump(with_owner(w, z, mine))
}

fn give(w: u64, m: Machine, z: usize) -> Result<u64, Refusal> {
    unless(code(m, z) == 0, NotParty)?;
    not_stopped(w)?;
    let mine = require_held(w, m, z)?;
    unless(flag(w, z), PlateInZone(z))?;
    let Some((_, _, from, to)) = row(z, posture(w, z)).filter(|row| row.0 == m) else { return Err(WrongWay); };
    unless(!full(w, from), NoPlate)?;
    unless(full(w, to), PlaceFull)?;
    bump(with_owner(w & !(1 << from) | 4 << (5 * z), z, 3 - mine))
}

fn hand_over(w: u64, m: Machine, z: usize) -> Result<u64, Refusal> {
    let mine = require_held(w, m, z)?;
    unless(flag(w, z), PlateInZone(z))?;
    unless(posture(w, z) < IN, Shut(posture(w, z)))?;
    in_use(w, m, z)?;
    bump(with_owner(w, z, 3 - mine))
}

fn take(w: u64, m: Machine, z: usize) -> Result<u64, Refusal> {
    require_held(w, m, z)?;
    unless(!flag(w, z), NoPlate)?;
    let to = row(z, posture(w, z)).map_or(0, |row| 1 << row.3);
    bump(w & !(4 << (5 * z)) | to)
}

fn release(w: u64, m: Machine, z: usize) -> Result<u64, Refusal> {
    require_held(w, m, z)?;
    unless(flag(w, z), PlateInZone(z))?;
    unless(posture(w, z) == MOVING, Shut(MOVING))?;
    in_use(w, m, z)?;
    bump(with_owner(w, z, 0))
}

fn set_pose(w: u64, m: Machine, pose: usize) -> Result<u64, Refusal> {
    let zones = postures(m, pose);
    unless(zones.is_empty(), NoPose)?;
    let moves = zones[0].1 == MOVING;
    if moves { not_stopped(w)?; }
    let concerns = |z: usize, p: u8| moves || posture(w, z) != p;
    for &(z, p) in zones {
        if concerns(z, p) { unless(owner(w, z) != 1, NotOwner(who(w, z)))?; }
    }
    for &(z, p) in zones {
        if concerns(z, p) { unless(flag(w, z), PlateInZone(z))?; }
    }
    if !moves && (m == Table || m == Press) {
        unless(zones.iter().any(|&(z, _)| posture(w, z) != MOVING), Jump)?;
    }
    for &(z, p) in zones {
        if p == IN && posture(w, z) != IN {
            let to = match z { 0 => full(w, 32), 2 => full(w, 34) || full(w, 35), 3 => full(w, 37), _ => full(w, 30) };
            unless(to, PlaceFull)?;
        }
    }
    unless(m == Deposit && moves && w & DEP_END != 0, PlaceFull)?;
    unless(m == Feed && moves && w & FEED_END != 0 && owner(w, 0) != 2, PlaceFull)?;
    bump(zones.iter().fold(w, |w, &(z, p)| with_posture(w, z, p)))
}

fn advance(w: u64, m: Machine) -> Result<u64, Refusal> {
    let (from, to, at_work) = match m {
        Feed => (30, 31, posture(w, 5) == MOVING),
        Deposit => (37, 38, posture(w, 3) == MOVING && posture(w, 4) == MOVING),
        Press => {
            unless(owner(w, 2) != 1, NotOwner(who(w, 2)))?;
            (34, 35, posture(w, 2) == CLOSED)
        }
        _ => return Err(NoPose),
    };
    unless(!at_work, NotAtWork)?;
    unless(!full(w, from), NoPlate)?;
    unless(full(w, to), PlaceFull)?;
    let moved = w & !(1 << from) | 1 << to;
    bump(match m {
        Feed => with_posture(moved, 5, CLOSED),
        Deposit => with_posture(with_posture(moved, 3, CLOSED), 4, CLOSED),
        _ => moved,
    })
}

fn stop(w: u64, m: Machine) -> Result<u64, Refusal> {
    unless(m != Watch, NotParty)?;
    not_stopped(w)?;
    bump(w | MARK)
}

fn resume(w: u64, m: Machine) -> Result<u64, Refusal> {
    unless(m != Watch, NotParty)?;
    unless(w & MARK == 0, NotStopped)?;
    bump(w & !MARK)
}

fn step(w: u64, m: Machine, call: Call) -> (Answer, u64) {
    let next = match call {
        Claim(z) => claim(w, m, z),
        Give(z) => give(w, m, z),
        Yield(z) => hand_over(w, m, z),
        Take(z) => take(w, m, z),
        Release(z) => release(w, m, z),
        SetPose(pose) => set_pose(w, m, pose),
        Advance => advance(w, m),
        Stop => stop(w, m),
        Resume => resume(w, m),
        Inquire(z) => return (Answer::Shown { owner: who(w, z), flag: flag(w, z), posture: posture(w, z) }, w),
    };
    match next { Ok(next) => (Answer::Done, next), Err(refusal) => (Answer::Refused(refusal), w) }
}

// The codes that the five bits of each zone may have, each as a set bit.
const CODES: [u32; 6] = [0x27_0203, 0x4700_0203, 0x4727_0203, 0x27_0203, 0x4700_0203, 0x27_0203];

// Whether a word is a state's: its zones have codes that they may have, no plate is on its way to a
// full place, and the press has one plate at most.
fn is_state(w: u64) -> bool {
    let is_lawful = |z| {
        let onto = row(z, posture(w, z)).filter(|_| flag(w, z)).map_or(0, |row| 1 << row.3);
        CODES[z] >> (w >> (5 * z) & 31) & 1 == 1 && w & onto == 0
    };
    w >> 61 == 0 && (0..6).all(is_lawful) && (!full(w, 35) || !full(w, 34) && posture(w, 2) != IN)
}

fn tested_step(w: u64, m: Machine, call: Call) -> Option<(Answer, u64)> {
    is_state(w).then(|| step(w, m, call))
}

fn stamp(w: u64) -> u32 { (w >> 40 & 0xF_FFFF) as u32 }

trait Shared: Sync {
    fn ask(&self, m: Machine, call: Call) -> Reply;
}

struct Word(AtomicU64);

impl Shared for Word {
    fn ask(&self, m: Machine, call: Call) -> Reply {
        let mut word = self.0.load(SeqCst);
        for _ in 0..64 {
            let (answer, next) = step(word, m, call);
            if answer != Answer::Done { return Reply::Settled(answer, stamp(word)); }
            match self.0.compare_exchange(word, next, SeqCst, SeqCst) {
                Ok(_) => return Reply::Settled(Answer::Done, stamp(next)),
                Err(found) => word = found,
            }
        }
        match step(word, m, call) {
            (Answer::Done, _) => Reply::Busy { lost: 64, stamp: stamp(word) },
            (answer, _) => Reply::Settled(answer, stamp(word)),
        }
    }
}

struct Locked(Mutex<u64>);

impl Shared for Locked {
    fn ask(&self, m: Machine, call: Call) -> Reply {
        let mut word = self.0.lock().unwrap();
        let (answer, next) = step(*word, m, call);
        *word = next;
        Reply::Settled(answer, stamp(next))
    }
}

struct Bare(AtomicU64);

impl Shared for Bare {
    fn ask(&self, _: Machine, _: Call) -> Reply {
        let word = self.0.load(SeqCst);
        let lost = u32::from(self.0.compare_exchange(word, word + STAMP, SeqCst, SeqCst).is_err());
        Reply::Settled(Answer::Done, lost)
    }
}

// Every call of the press in this round is Done.
const ROUND: [Call; 8] = [Claim(2), SetPose(3), SetPose(4), Release(2), Claim(2), SetPose(3), SetPose(6), Release(2)];

// Six machines at once: four claim and release a zone of their own, two inquire and are refused.
const PAIRS: [(Machine, [Call; 2]); 6] = [
    (Feed, [Claim(5), Release(5)]),
    (Table, [Claim(0), Release(0)]),
    (Robot, [Inquire(2), Claim(2)]),
    (Press, [Claim(2), Release(2)]),
    (Deposit, [Claim(3), Release(3)]),
    (Crane, [Inquire(4), Claim(4)]),
];

// 1,000,000 calls that no other overtakes, eight of them one after another, as in a program.
fn alone<S: Shared>(shared: S) {
    let ask = |call| { black_box(shared.ask(black_box(Press), call)); };
    for _ in 0..125_000 {
        ask(ROUND[0]);
        ask(ROUND[1]);
        ask(ROUND[2]);
        ask(ROUND[3]);
        ask(ROUND[4]);
        ask(ROUND[5]);
        ask(ROUND[6]);
        ask(ROUND[7]);
    }
}

// Six threads of 150,000 calls each.
fn six<S: Shared>(shared: S) {
    thread::scope(|scope| {
        for (machine, pair) in PAIRS {
            let shared = &shared;
            scope.spawn(move || {
                for n in 0..150_000 {
                    black_box(shared.ask(black_box(machine), black_box(pair[n % 2])));
                }
            });
        }
    });
}

// The press's calls on words alone.
fn steps() {
    let mut word = 0;
    for n in 0..1_000_000 {
        word = black_box(step(word, black_box(Press), black_box(ROUND[n % 8]))).1;
    }
}

fn tested_steps() {
    let mut word = 0;
    for n in 0..1_000_000 {
        let Some((_, next)) = black_box(tested_step(word, black_box(Press), black_box(ROUND[n % 8]))) else { return };
        word = next;
    }
}

// Random numbers from a seed.
struct Numbers(u32);

impl Numbers {
    fn below(&mut self, end: u32) -> usize {
        self.0 = self.0.wrapping_mul(1_664_525).wrapping_add(1_013_904_223);
        ((self.0 >> 8) % end) as usize
    }

    fn call(&mut self) -> Call {
        let zone = self.below(6);
        match self.below(8) {
            0 => Claim(zone),
            1 => Give(zone),
            2 => Yield(zone),
            3 => Take(zone),
            4 => Release(zone),
            5 => SetPose(self.below(12)),
            6 => Advance,
            _ => Inquire(zone),
        }
    }

    // Who calls, and what: now and then the watch stops all or resumes.
    fn next_call(&mut self) -> (Machine, Call) {
        match self.below(64) {
            0 => (Watch, Stop),
            1 | 2 => (Watch, Resume),
            _ => (MACHINES[self.below(6)], self.call()),
        }
    }
}

fn number(answer: Answer) -> u32 {
    match answer {
        Answer::Done => 0,
        Answer::Shown { owner, flag, posture } => {
            20 + owner.map_or(0, |it| it as u32 + 1) + 10 * u32::from(flag) + 100 * u32::from(posture)
        }
        Answer::Refused(refusal) => match refusal {
            NotParty => 1,
            Held(_) => 2,
            AlreadyMine => 3,
            Shut(_) => 4,
            NotOwner(_) => 5,
            PlateInZone(_) => 6,
            NoPlate => 7,
            PlaceFull => 8,
            WrongWay => 9,
            Jump => 10,
            NotAtWork => 11,
            NoPose => 12,
            Worn => 13,
            Stopped => 14,
            NotStopped => 15,
            InUse => 16,
        },
    }
}

// A digest of the replies to 2,000,000 random calls, which has to equal the proved program's.
fn digest(word: u64) -> u32 {
    let shared = Word(AtomicU64::new(word));
    let mut numbers = Numbers(1995);
    let mut digest = 0u32;
    for _ in 0..2_000_000 {
        let (machine, call) = numbers.next_call();
        if let Reply::Settled(answer, stamp) = shared.ask(machine, call) {
            digest = digest.wrapping_mul(31).wrapping_add(number(answer)).wrapping_mul(31).wrapping_add(stamp);
        }
    }
    digest
}

fn main() -> std::io::Result<()> {
    let mut letters = String::new();
    std::io::stdin().read_to_string(&mut letters)?;
    for letter in letters.chars() {
        let begun = Instant::now();
        let mut sum = 0;
        let name = match letter {
            'd' => {
                // plates at FeedEnd, Table and PressIn
                sum = digest(1 << 31 | 1 << 32 | 1 << 34);
                "digest"
            }
            's' => { steps(); "step" }
            't' => { tested_steps(); "tested" }
            'w' => { alone(Word(AtomicU64::new(0))); "word" }
            'm' => { alone(Locked(Mutex::new(0))); "mutex" }
            'b' => { alone(Bare(AtomicU64::new(0))); "bare" }
            'W' => { six(Word(AtomicU64::new(0))); "word_six" }
            'M' => { six(Locked(Mutex::new(0))); "mutex_six" }
            _ => continue,
        };
        println!("{name} {} {sum}", begun.elapsed().as_nanos());
    }
    Ok(())
}
