//! The machines' programs and parts in hand-written plain Rust, unproved. Each machine goes through
//! numbered steps.

use crate::interlock::*;

/// Which refusals a step waits out.
pub type Waits = fn(Refusal) -> bool;

pub trait Program {
    const MACHINE: Machine;
    /// The call of the step, if it has one.
    fn asks(&self) -> Option<(Call, Waits)>;
    /// The step's call was done.
    fn finish_call(&mut self);
    /// The step's inquiry was answered.
    fn take_answer(&mut self, _at: At) {}
    /// A step without a call: it sets its motors and moves for a tick. It ends in the turn in which
    /// all motors are off.
    fn drive(&mut self);
}

fn never(_: Refusal) -> bool {
    false
}

fn is_not_owned(refusal: Refusal) -> bool {
    matches!(refusal, Refusal::NotOwner(_))
}

fn place_full(refusal: Refusal) -> bool {
    refusal == Refusal::PlaceFull
}

fn is_held(refusal: Refusal) -> bool {
    matches!(refusal, Refusal::Held(_))
}

fn is_held_or_shut(refusal: Refusal) -> bool {
    matches!(refusal, Refusal::Held(_) | Refusal::Shut(_))
}

#[derive(Clone, Copy, PartialEq, Eq)]
enum Motor {
    Off,
    Plus,
    Minus,
}

use Motor::{Minus, Off, Plus};

/// The position of an axis after a tick, not below 0 or past its end.
fn position_after(position: i32, motor: Motor, end: i32) -> i32 {
    match motor {
        Off => position,
        Plus => (position + 20).min(end),
        Minus => (position - 20).max(0),
    }
}

fn until(at: bool, on: Motor) -> Motor {
    if at { Off } else { on }
}

/// A potentiometer, read by a line or, if there are measured pairs, by a curve through them.
#[derive(Clone, Copy)]
pub struct Gauge {
    pub raw_lo: i32,
    pub raw_hi: i32,
    pub tol: i32,
    pub end: i32,
    pub pairs: [(i64, i64); 32],
    pub filled: usize,
}

impl Gauge {
    fn read(&self, position: i32) -> i64 {
        let (width, end) = (i64::from(self.raw_hi - self.raw_lo), i64::from(self.end));
        let above = i64::from(position) * width / end;
        let raw = i64::from(self.raw_lo) + above;
        let pairs = &self.pairs[..self.filled];
        match pairs.windows(2).find(|both| raw <= both[1].0) {
            None => above * end / width,
            Some(both) => {
                let ((left, from), (right, to)) = (both[0], both[1]);
                from + ((to - from) * (raw - left)).div_euclid(right - left)
            }
        }
    }

    /// Whether pairs make a curve near the line.
    pub fn is_curve(&self, pairs: &[(i64, i64)]) -> bool {
        let (lo, hi, end) = (i64::from(self.raw_lo), i64::from(self.raw_hi), i64::from(self.end));
        let is_near = |&(raw, at): &(i64, i64)| {
            let off = (at * (hi - lo) - (raw - lo) * end).abs();
            (0..=end).contains(&at) && off <= i64::from(self.tol - 1) * (hi - lo)
        };
        (2..=32).contains(&pairs.len())
            && pairs[0].0 == lo
            && pairs[pairs.len() - 1].0 == hi
            && pairs.windows(2).all(|both| both[0].0 < both[1].0)
            && pairs.iter().all(is_near)
    }

    fn drive(&self, position: i32, target: i32, half: i32) -> Motor {
        let off = self.read(position) - i64::from(target);
        let inner = i64::from(half - self.tol);
        if off < -inner {
            Plus
        } else if off > inner {
            Minus
        } else {
            Off
        }
    }

    fn is_retracted(&self, position: i32) -> bool {
        self.read(position) <= i64::from(50 - self.tol)
    }

    fn is_high(&self, position: i32) -> bool {
        self.read(position) >= i64::from(800 + self.tol)
    }
}

/// A belt with the two plates that it may have.
pub struct Belt {
    pub entry: Option<i32>,
    pub last: Option<i32>,
}

impl Belt {
    fn barrier(&self) -> bool {
        [self.entry, self.last].into_iter().flatten().any(|at| (900..1000).contains(&at))
    }

    fn run(&mut self) {
        for plate in [&mut self.entry, &mut self.last].into_iter().flatten() {
            *plate = (*plate + 20).min(1100);
        }
    }
}

pub struct Feed {
    pub step: u32,
    entry: bool,
    last: bool,
    pub belt: Belt,
}

impl Feed {
    pub fn new(start: &State) -> Feed {
        let (entry, last) = (start.full[FEED_ENTRY], start.full[FEED_END]);
        Feed { step: 0, entry, last, belt: Belt { entry: entry.then_some(0), last: last.then_some(900) } }
    }

    fn choice(&self) -> u32 {
        match (self.last, self.entry) {
            (true, _) => 8,
            (false, true) => 4,
            (false, false) => 1,
        }
    }
}

impl Program for Feed {
    const MACHINE: Machine = Machine::Feed;

    fn asks(&self) -> Option<(Call, Waits)> {
        Some(match self.step {
            0 => (Call::Claim(Zone::Z6), never),
            1 => (Call::SetPose(Pose::Landing), never),
            2 => (Call::Release(Zone::Z6), never),
            3 => (Call::Take(Zone::Z6), is_not_owned),
            4 | 9 => (Call::SetPose(Pose::Running), never),
            6 => (Call::Advance, never),
            8 => (Call::Claim(Zone::Z1), is_held_or_shut),
            11 => (Call::SetPose(Pose::Halted), never),
            12 => (Call::Give(Zone::Z1), never),
            _ => return None,
        })
    }

    fn finish_call(&mut self) {
        match self.step {
            3 => (self.entry, self.belt.entry) = (true, Some(0)),
            6 => {
                (self.entry, self.last) = (false, true);
                self.belt.last = self.belt.entry.take();
            }
            12 => (self.last, self.belt.last) = (false, None),
            _ => {}
        }
        self.step = match self.step {
            0 | 12 => self.choice(),
            6 => 8,
            step => step + 1,
        };
    }

    fn drive(&mut self) {
        if self.belt.barrier() == (self.step == 5) {
            self.step += 1;
        } else {
            self.belt.run();
        }
    }
}

pub struct Deposit {
    pub step: u32,
    entry: bool,
    last: bool,
    pub belt: Belt,
}

impl Deposit {
    pub fn new(start: &State) -> Deposit {
        let (entry, last) = (start.full[DEPOSIT_ENTRY], start.full[DEPOSIT_END]);
        Deposit { step: 0, entry, last, belt: Belt { entry: entry.then_some(0), last: last.then_some(1000) } }
    }

    fn choice(&self) -> u32 {
        match (self.last, self.entry) {
            (true, _) => 9,
            (false, true) => 5,
            (false, false) => 2,
        }
    }
}

impl Program for Deposit {
    const MACHINE: Machine = Machine::Deposit;

    fn asks(&self) -> Option<(Call, Waits)> {
        Some(match self.step {
            0 => (Call::Claim(Zone::Z4), never),
            1 => (Call::Claim(Zone::Z5), never),
            2 => (Call::SetPose(Pose::Landing), never),
            3 => (Call::Release(Zone::Z4), never),
            4 => (Call::Take(Zone::Z4), is_not_owned),
            5 => (Call::SetPose(Pose::Running), never),
            8 => (Call::Advance, never),
            9 => (Call::SetPose(Pose::Offering), never),
            10 => (Call::Give(Zone::Z5), place_full),
            11 => (Call::Claim(Zone::Z5), is_held),
            _ => return None,
        })
    }

    fn finish_call(&mut self) {
        match self.step {
            4 => (self.entry, self.belt.entry) = (true, Some(0)),
            8 => {
                (self.entry, self.last) = (false, true);
                self.belt.last = self.belt.entry.take();
            }
            10 => (self.last, self.belt.last) = (false, None),
            _ => {}
        }
        self.step = match self.step {
            1 | 11 => self.choice(),
            step => step + 1,
        };
    }

    fn drive(&mut self) {
        if self.belt.barrier() == (self.step == 6) {
            self.step += 1;
        } else {
            self.belt.run();
        }
    }
}

pub struct Table {
    pub step: u32,
    loaded: bool,
    gauge: Gauge,
    pub lift: i32,
    pub turn: i32,
}

impl Table {
    pub fn new(start: &State, gauge: Gauge) -> Table {
        Table { step: 0, loaded: start.full[ON_TABLE], gauge, lift: 0, turn: 0 }
    }
}

impl Program for Table {
    const MACHINE: Machine = Machine::Table;

    fn asks(&self) -> Option<(Call, Waits)> {
        Some(match self.step {
            0 => (Call::Claim(Zone::Z1), never),
            1 => (Call::Claim(Zone::Z2), never),
            2 | 7 => (Call::SetPose(Pose::Turning), never),
            4 => (Call::SetPose(Pose::Loading), never),
            5 => (Call::Release(Zone::Z1), never),
            6 => (Call::Take(Zone::Z1), is_not_owned),
            9 => (Call::SetPose(Pose::Unloading), never),
            10 => (Call::Give(Zone::Z2), place_full),
            11 => (Call::Claim(Zone::Z2), is_held),
            _ => return None,
        })
    }

    fn finish_call(&mut self) {
        self.step = match self.step {
            1 if self.loaded => 7,
            11 => 2,
            step => step + 1,
        };
    }

    fn drive(&mut self) {
        let (height, target) = if self.step == 3 {
            (until(self.lift <= 10, Minus), 0)
        } else {
            (until(self.lift >= 590, Plus), 500)
        };
        let rotation = self.gauge.drive(self.turn, target, 20);
        self.lift = position_after(self.lift, height, 600);
        self.turn = position_after(self.turn, rotation, 500);
        if height == Off && rotation == Off {
            self.step += 1;
        }
    }
}

pub struct Press {
    pub step: u32,
    loaded: bool,
    forged: bool,
    before: Motor,
    pub position: i32,
}

impl Press {
    pub fn new(start: &State) -> Press {
        Press { step: 0, loaded: start.full[PRESS_IN], forged: start.full[PRESS_OUT], before: Minus, position: 1000 }
    }
}

impl Program for Press {
    const MACHINE: Machine = Machine::Press;

    fn asks(&self) -> Option<(Call, Waits)> {
        Some(match self.step {
            0 => (Call::Claim(Zone::Z3), never),
            1 | 6 | 10 => (Call::SetPose(Pose::Travelling), never),
            3 => (Call::SetPose(Pose::Middle), never),
            4 => (Call::Release(Zone::Z3), never),
            5 => (Call::Take(Zone::Z3), is_not_owned),
            8 => (Call::SetPose(Pose::Top), never),
            9 => (Call::Advance, never),
            12 => (Call::SetPose(Pose::Low), never),
            13 => (Call::Give(Zone::Z3), place_full),
            14 => (Call::Claim(Zone::Z3), is_held),
            _ => return None,
        })
    }

    fn finish_call(&mut self) {
        self.step = match self.step {
            0 if self.forged => 10,
            0 if self.loaded => 6,
            14 => 1,
            step => step + 1,
        };
    }

    fn drive(&mut self) {
        let (bottom, top) = (self.position <= 10, self.position >= 990);
        let motor = match self.step {
            2 if (490..=510).contains(&self.position) => Off,
            2 if bottom => Plus,
            2 if top => Minus,
            2 => self.before,
            7 => until(top, Plus),
            _ => until(bottom, Minus),
        };
        self.position = position_after(self.position, motor, 1000);
        if motor == Off {
            self.step += 1;
        } else {
            self.before = motor;
        }
    }
}

pub struct Crane {
    pub step: u32,
    gauge: Gauge,
    pub travel: i32,
    pub gripper: i32,
}

impl Crane {
    pub fn new(start: &State, gauge: Gauge) -> Crane {
        Crane { step: if start.full[ON_CRANE] { 9 } else { 1 }, gauge, travel: 0, gripper: 900 }
    }

    /// Travels while the gripper is high, and ends at the switch.
    fn travel(&mut self, at: bool, on: Motor) {
        if self.gauge.is_high(self.gripper) {
            let motor = until(at, on);
            self.travel = position_after(self.travel, motor, 2000);
            if motor == Off {
                self.step += 1;
            }
        }
    }
}

impl Program for Crane {
    const MACHINE: Machine = Machine::Crane;

    fn asks(&self) -> Option<(Call, Waits)> {
        Some(match self.step {
            3 => (Call::Inquire(Zone::Z5), never),
            7 => (Call::Take(Zone::Z5), never),
            8 => (Call::Release(Zone::Z5), never),
            10 => (Call::Claim(Zone::Z6), is_held_or_shut),
            14 => (Call::Give(Zone::Z6), never),
            _ => return None,
        })
    }

    fn finish_call(&mut self) {
        self.step = if self.step == 14 { 1 } else { self.step + 1 };
    }

    fn take_answer(&mut self, at: At) {
        if at.owner == Some(Machine::Crane) && at.flag {
            self.step = 4;
        }
    }

    fn drive(&mut self) {
        let target = match self.step {
            2 => return self.travel(self.travel <= 10, Minus),
            9 => return self.travel(self.travel >= 1990, Plus),
            1 | 6 | 13 => 900,
            4 => 100,
            11 => 300,
            // a magnet is switched
            _ => return self.step += 1,
        };
        let motor = self.gauge.drive(self.gripper, target, 50);
        self.gripper = position_after(self.gripper, motor, 1000);
        if motor == Off {
            self.step += 1;
        }
    }
}

/// The steps of the robot: four groups, each of which ends by choosing the next.
pub struct Robot {
    pub group: Group,
    pub step: u32,
    pub arm1_loaded: bool,
    pub arm2_loaded: bool,
    fed: bool,
    gauges: [Gauge; 3],
    pub arm1: i32,
    pub arm2: i32,
    pub rotation: i32,
}

#[derive(Clone, Copy, PartialEq, Eq)]
pub enum Group {
    Grasp,
    Load,
    Unload,
    Put,
}

use Group::*;

impl Robot {
    pub fn new(start: &State, arm1: Gauge, arm2: Gauge, rotation: Gauge) -> Robot {
        let mut robot = Robot {
            group: Grasp,
            step: 1,
            arm1_loaded: start.full[ON_ARM1],
            arm2_loaded: start.full[ON_ARM2],
            fed: start.full[PRESS_IN] || start.full[PRESS_OUT],
            gauges: [arm1, arm2, rotation],
            arm1: 0,
            arm2: 0,
            rotation: 300,
        };
        robot.choose();
        robot
    }

    fn choose(&mut self) {
        self.step = 1;
        self.group = match (self.arm2_loaded, self.fed, self.arm1_loaded) {
            (true, _, _) => Put,
            (false, true, _) => Unload,
            (false, false, true) => Load,
            (false, false, false) => Grasp,
        };
    }

    /// Rotates while both arms are in.
    fn rotate(&mut self, target: i32) {
        let [arm1, arm2, rotation] = &self.gauges;
        if arm1.is_retracted(self.arm1) && arm2.is_retracted(self.arm2) {
            let motor = rotation.drive(self.rotation, target, 40);
            self.rotation = position_after(self.rotation, motor, 2000);
            if motor == Off {
                self.step += 1;
            }
        }
    }

    fn move_arm1(&mut self, target: i32) {
        let motor = self.gauges[0].drive(self.arm1, target, 40);
        self.arm1 = position_after(self.arm1, motor, 1000);
        if motor == Off {
            self.step += 1;
        }
    }

    fn move_arm2(&mut self, target: i32) {
        let motor = self.gauges[1].drive(self.arm2, target, 40);
        self.arm2 = position_after(self.arm2, motor, 1000);
        if motor == Off {
            self.step += 1;
        }
    }
}

impl Program for Robot {
    const MACHINE: Machine = Machine::Robot;

    fn asks(&self) -> Option<(Call, Waits)> {
        Some(match (self.group, self.step) {
            (Grasp, 2) => (Call::Inquire(Zone::Z2), never),
            (Grasp, 6) => (Call::Take(Zone::Z2), never),
            (Grasp, 7) => (Call::Release(Zone::Z2), never),
            (Load, 2) => (Call::Claim(Zone::Z3), is_held_or_shut),
            (Load, 3) | (Unload, 2) => (Call::Inquire(Zone::Z3), never),
            (Load, 4) | (Unload, 7) => (Call::Release(Zone::Z3), never),
            (Load, 8) => (Call::Give(Zone::Z3), never),
            (Unload, 6) => (Call::Take(Zone::Z3), never),
            (Put, 2) => (Call::Claim(Zone::Z4), is_held_or_shut),
            (Put, 6) => (Call::Give(Zone::Z4), never),
            _ => return None,
        })
    }

    fn finish_call(&mut self) {
        match (self.group, self.step) {
            (Grasp, 6) => self.arm1_loaded = true,
            (Load, 8) => (self.arm1_loaded, self.fed) = (false, true),
            (Unload, 6) => (self.arm2_loaded, self.fed) = (true, false),
            (Put, 6) => self.arm2_loaded = false,
            _ => {}
        }
        match (self.group, self.step) {
            (Load, 4) => self.step = 2,
            (Grasp | Unload, 7) | (Load, 8) | (Put, 6) => self.choose(),
            _ => self.step += 1,
        }
    }

    fn take_answer(&mut self, at: At) {
        let handed = at.owner == Some(Machine::Robot) && at.flag;
        self.step = match (self.group, self.step) {
            (Load, _) if at.posture == Posture::OpenIn => 5,
            (Load, _) => 4,
            (_, step) if handed => step + 1,
            (_, step) => step,
        };
    }

    fn drive(&mut self) {
        match (self.group, self.step) {
            (Grasp, 1) => self.rotate(300),
            (Load, 1) => self.rotate(1500),
            (Unload, 1) => self.rotate(600),
            (Put, 1) => self.rotate(1800),
            (Grasp, 3) => self.move_arm1(600),
            (Load, 5) => self.move_arm1(800),
            (Grasp, 5) | (Load, 7) => self.move_arm1(0),
            (Unload, 3) => self.move_arm2(800),
            (Put, 3) => self.move_arm2(600),
            (Unload | Put, 5) => self.move_arm2(0),
            // a magnet is switched
            _ => self.step += 1,
        }
    }
}

/// The watch stops the cell, and resumes it in its next turn.
pub struct Watch {
    has_stopped: bool,
}

impl Watch {
    pub fn new() -> Watch {
        Watch { has_stopped: false }
    }
}

impl Program for Watch {
    const MACHINE: Machine = Machine::Watch;

    fn asks(&self) -> Option<(Call, Waits)> {
        Some((if self.has_stopped { Call::Resume } else { Call::Stop }, never))
    }

    fn finish_call(&mut self) {
        self.has_stopped = !self.has_stopped;
    }

    fn drive(&mut self) {}
}
