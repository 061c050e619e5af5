//! The sequential interlock in hand-written plain Rust, unproved. The programs of this folder use
//! it.

#[derive(Clone, Copy, PartialEq, Eq, PartialOrd, Ord)]
pub enum Machine {
    Feed,
    Table,
    Robot,
    Press,
    Deposit,
    Crane,
    Watch,
}

use Machine::*;

impl Machine {
    pub const ALL: [Machine; 7] = [Feed, Table, Robot, Press, Deposit, Crane, Watch];

    pub fn word(self) -> &'static str {
        match self {
            Feed => "feed",
            Table => "table",
            Robot => "robot",
            Press => "press",
            Deposit => "deposit",
            Crane => "crane",
            Watch => "watch",
        }
    }
}

#[derive(Clone, Copy, PartialEq, Eq)]
pub enum Zone {
    Z1,
    Z2,
    Z3,
    Z4,
    Z5,
    Z6,
}

use Zone::*;

impl Zone {
    pub const ALL: [Zone; 6] = [Z1, Z2, Z3, Z4, Z5, Z6];

    pub fn word(self) -> &'static str {
        ["z1", "z2", "z3", "z4", "z5", "z6"][self as usize]
    }

    pub fn host(self) -> Machine {
        match self {
            Z1 | Z2 => Table,
            Z3 => Press,
            Z4 | Z5 => Deposit,
            Z6 => Feed,
        }
    }

    fn guest(self) -> Machine {
        match self {
            Z1 => Feed,
            Z2 | Z3 | Z4 => Robot,
            Z5 | Z6 => Crane,
        }
    }

    fn other(self, machine: Machine) -> Machine {
        if machine == self.host() {
            self.guest()
        } else {
            self.host()
        }
    }
}

pub const FEED_ENTRY: usize = 0;
pub const FEED_END: usize = 1;
pub const ON_TABLE: usize = 2;
pub const ON_ARM1: usize = 3;
pub const PRESS_IN: usize = 4;
pub const PRESS_OUT: usize = 5;
pub const ON_ARM2: usize = 6;
pub const DEPOSIT_ENTRY: usize = 7;
pub const DEPOSIT_END: usize = 8;
pub const ON_CRANE: usize = 9;

pub const LAST_STAMP: u32 = 1_048_575;

#[derive(Clone, Copy, PartialEq, Eq)]
pub enum Posture {
    Closed,
    Moving,
    OpenIn,
    OpenOut,
}

use Posture::*;

impl Posture {
    pub fn word(self) -> &'static str {
        ["closed", "moving", "openin", "openout"][self as usize]
    }
}

#[derive(Clone, Copy, PartialEq, Eq)]
pub enum Pose {
    Turning,
    Loading,
    Unloading,
    Travelling,
    Middle,
    Low,
    Top,
    Running,
    Landing,
    Halted,
    Offering,
    Standing,
}

impl Pose {
    pub const WORDS: [(&'static str, Pose); 12] = [
        ("turning", Pose::Turning),
        ("loading", Pose::Loading),
        ("unloading", Pose::Unloading),
        ("travelling", Pose::Travelling),
        ("middle", Pose::Middle),
        ("low", Pose::Low),
        ("top", Pose::Top),
        ("running", Pose::Running),
        ("landing", Pose::Landing),
        ("halted", Pose::Halted),
        ("offering", Pose::Offering),
        ("standing", Pose::Standing),
    ];

    /// The postures that the pose gives the machine's own zones, in order.
    fn postures(self, machine: Machine) -> Option<&'static [(Zone, Posture)]> {
        Some(match (machine, self) {
            (Table, Pose::Turning) => &[(Z1, Moving), (Z2, Moving)],
            (Table, Pose::Loading) => &[(Z1, OpenIn), (Z2, Closed)],
            (Table, Pose::Unloading) => &[(Z1, Closed), (Z2, OpenOut)],
            (Press, Pose::Travelling) => &[(Z3, Moving)],
            (Press, Pose::Middle) => &[(Z3, OpenIn)],
            (Press, Pose::Low) => &[(Z3, OpenOut)],
            (Press, Pose::Top) => &[(Z3, Closed)],
            (Feed, Pose::Running) => &[(Z6, Moving)],
            (Feed, Pose::Landing) => &[(Z6, OpenIn)],
            (Feed, Pose::Halted) => &[(Z6, Closed)],
            (Deposit, Pose::Running) => &[(Z4, Moving), (Z5, Moving)],
            (Deposit, Pose::Landing) => &[(Z4, OpenIn), (Z5, Closed)],
            (Deposit, Pose::Offering) => &[(Z4, Closed), (Z5, OpenOut)],
            (Deposit, Pose::Standing) => &[(Z4, OpenIn), (Z5, OpenOut)],
            (Deposit, Pose::Halted) => &[(Z4, Closed), (Z5, Closed)],
            _ => return None,
        })
    }
}

#[derive(Clone, Copy)]
pub enum Call {
    Claim(Zone),
    Give(Zone),
    Yield(Zone),
    Take(Zone),
    Release(Zone),
    Inquire(Zone),
    SetPose(Pose),
    Advance,
    Stop,
    Resume,
}

impl Call {
    /// The call of these words, if they are one.
    pub fn read(verb: &str, object: Option<&str>) -> Option<Call> {
        let zone = || object.and_then(|word| Zone::ALL.into_iter().find(|zone| zone.word() == word));
        Some(match verb {
            "claim" => Call::Claim(zone()?),
            "give" => Call::Give(zone()?),
            "yield" => Call::Yield(zone()?),
            "take" => Call::Take(zone()?),
            "release" => Call::Release(zone()?),
            "inquire" => Call::Inquire(zone()?),
            "pose" => Call::SetPose(Pose::WORDS.iter().find(|(word, _)| Some(*word) == object)?.1),
            "advance" if object.is_none() => Call::Advance,
            "stop" if object.is_none() => Call::Stop,
            "resume" if object.is_none() => Call::Resume,
            _ => return None,
        })
    }
}

#[derive(Clone, Copy, PartialEq, Eq)]
pub enum Refusal {
    NotParty,
    Held(Machine),
    Already,
    Shut(Posture),
    NotOwner(Option<Machine>),
    PlateIn(Zone),
    NoPlate,
    PlaceFull,
    WrongWay,
    Jump,
    NotAtWork,
    NoPose,
    Worn,
    Stopped,
    NotStopped,
    InUse,
}

/// The state of a zone: its owner, whether a plate is in it, and its posture.
#[derive(Clone, Copy, PartialEq, Eq)]
pub struct At {
    pub owner: Option<Machine>,
    pub flag: bool,
    pub posture: Posture,
}

#[derive(Clone, Copy, PartialEq, Eq)]
pub enum Answer {
    Done,
    Shown(At),
    Refused(Refusal),
}

type Checked = Result<(), Refusal>;

#[derive(Clone, Copy, PartialEq, Eq)]
pub struct State {
    pub zones: [At; 6],
    pub full: [bool; 10],
    pub stamp: u32,
    pub stopped: bool,
}

impl State {
    /// The start with plates at these places, one digit a place, if there is such a start.
    pub fn start(places: &str, stamp: u32) -> Option<State> {
        if places.len() != 10 || !places.bytes().all(|digit| digit == b'0' || digit == b'1') {
            return None;
        }
        let mut full = [false; 10];
        for (place, digit) in full.iter_mut().zip(places.bytes()) {
            *place = digit == b'1';
        }
        let free = At { owner: None, flag: false, posture: Closed };
        let state = State { zones: [free; 6], full, stamp, stopped: false };
        (state.plates() <= 6 && !(full[PRESS_IN] && full[PRESS_OUT]) && stamp <= LAST_STAMP).then_some(state)
    }

    pub fn plates(&self) -> usize {
        self.full.iter().filter(|full| **full).count() + self.zones.iter().filter(|at| at.flag).count()
    }

    fn at(&self, zone: Zone) -> &At {
        &self.zones[zone as usize]
    }

    fn at_mut(&mut self, zone: Zone) -> &mut At {
        &mut self.zones[zone as usize]
    }

    /// Where a plate comes from and goes to in this zone, in its posture.
    fn way(&self, zone: Zone) -> Option<(usize, usize)> {
        match (zone, self.at(zone).posture) {
            (Z1, OpenIn) => Some((FEED_END, ON_TABLE)),
            (Z2, OpenOut) => Some((ON_TABLE, ON_ARM1)),
            (Z3, OpenIn) => Some((ON_ARM1, PRESS_IN)),
            (Z3, OpenOut) => Some((PRESS_OUT, ON_ARM2)),
            (Z4, OpenIn) => Some((ON_ARM2, DEPOSIT_ENTRY)),
            (Z5, OpenOut) => Some((DEPOSIT_END, ON_CRANE)),
            (Z6, OpenIn) => Some((ON_CRANE, FEED_ENTRY)),
            _ => None,
        }
    }

    fn is_party(machine: Machine, zone: Zone) -> Checked {
        check(machine == zone.host() || machine == zone.guest(), Refusal::NotParty)
    }

    fn owns(&self, machine: Machine, zone: Zone) -> Checked {
        let owner = self.at(zone).owner;
        check(owner == Some(machine), Refusal::NotOwner(owner))
    }

    fn no_plate_in(&self, zone: Zone) -> Checked {
        check(!self.at(zone).flag, Refusal::PlateIn(zone))
    }

    fn is_open(&self, zone: Zone) -> Checked {
        let posture = self.at(zone).posture;
        check(posture == OpenIn || posture == OpenOut, Refusal::Shut(posture))
    }

    fn not_in_use(&self, machine: Machine, zone: Zone) -> Checked {
        let pushes = self.at(Z6).posture == Moving && self.full[FEED_END];
        check(!(machine == Feed && zone == Z1 && pushes), Refusal::InUse)
    }

    fn not_worn(&self) -> Checked {
        check(self.stamp < LAST_STAMP, Refusal::Worn)
    }

    fn not_stopped(&self) -> Checked {
        check(!self.stopped, Refusal::Stopped)
    }

    fn can_move(&self, from: usize, to: usize) -> Checked {
        check(self.full[from], Refusal::NoPlate)?;
        check(!self.full[to], Refusal::PlaceFull)?;
        self.not_worn()
    }

    fn claim(&mut self, machine: Machine, zone: Zone) -> Checked {
        Self::is_party(machine, zone)?;
        self.not_stopped()?;
        match self.at(zone).owner {
            Some(owner) if owner == machine => return Err(Refusal::Already),
            Some(owner) => return Err(Refusal::Held(owner)),
            None => {}
        }
        if machine == zone.guest() {
            self.is_open(zone)?;
        }
        self.not_worn()?;
        self.at_mut(zone).owner = Some(machine);
        Ok(())
    }

    fn give(&mut self, machine: Machine, zone: Zone) -> Checked {
        Self::is_party(machine, zone)?;
        self.not_stopped()?;
        self.owns(machine, zone)?;
        self.no_plate_in(zone)?;
        let giver = if self.at(zone).posture == OpenIn { zone.guest() } else { zone.host() };
        let (from, to) = self.way(zone).filter(|_| giver == machine).ok_or(Refusal::WrongWay)?;
        self.can_move(from, to)?;
        self.full[from] = false;
        self.at_mut(zone).flag = true;
        self.at_mut(zone).owner = Some(zone.other(machine));
        Ok(())
    }

    fn yield_to(&mut self, machine: Machine, zone: Zone) -> Checked {
        Self::is_party(machine, zone)?;
        self.owns(machine, zone)?;
        self.no_plate_in(zone)?;
        self.is_open(zone)?;
        self.not_in_use(machine, zone)?;
        self.not_worn()?;
        self.at_mut(zone).owner = Some(zone.other(machine));
        Ok(())
    }

    fn take(&mut self, machine: Machine, zone: Zone) -> Checked {
        Self::is_party(machine, zone)?;
        self.owns(machine, zone)?;
        check(self.at(zone).flag, Refusal::NoPlate)?;
        self.not_worn()?;
        self.at_mut(zone).flag = false;
        if let Some((_, to)) = self.way(zone) {
            self.full[to] = true;
        }
        Ok(())
    }

    fn release(&mut self, machine: Machine, zone: Zone) -> Checked {
        Self::is_party(machine, zone)?;
        self.owns(machine, zone)?;
        self.no_plate_in(zone)?;
        check(self.at(zone).posture != Moving, Refusal::Shut(Moving))?;
        self.not_in_use(machine, zone)?;
        self.not_worn()?;
        self.at_mut(zone).owner = None;
        Ok(())
    }

    fn set_pose(&mut self, machine: Machine, pose: Pose) -> Checked {
        let postures = pose.postures(machine).ok_or(Refusal::NoPose)?;
        let moves = postures[0].1 == Moving;
        if moves {
            self.not_stopped()?;
        }
        for &(zone, _) in postures.iter().filter(|(zone, posture)| moves || self.at(*zone).posture != *posture) {
            self.owns(machine, zone)?;
        }
        for &(zone, _) in postures.iter().filter(|(zone, posture)| moves || self.at(*zone).posture != *posture) {
            self.no_plate_in(zone)?;
        }
        let was_moving = postures.iter().all(|(zone, _)| self.at(*zone).posture == Moving);
        check(moves || was_moving || !matches!(machine, Table | Press), Refusal::Jump)?;
        check(!postures.iter().any(|&(zone, posture)| self.opens_onto_full(zone, posture)), Refusal::PlaceFull)?;
        check(!(moves && self.runs_onto_full(machine)), Refusal::PlaceFull)?;
        self.not_worn()?;
        for &(zone, posture) in postures {
            self.at_mut(zone).posture = posture;
        }
        Ok(())
    }

    fn opens_onto_full(&self, zone: Zone, posture: Posture) -> bool {
        posture == OpenIn
            && self.at(zone).posture != OpenIn
            && match zone {
                Z1 => self.full[ON_TABLE],
                Z3 => self.full[PRESS_IN] || self.full[PRESS_OUT],
                Z4 => self.full[DEPOSIT_ENTRY],
                Z6 => self.full[FEED_ENTRY],
                Z2 | Z5 => false,
            }
    }

    fn runs_onto_full(&self, machine: Machine) -> bool {
        match machine {
            Deposit => self.full[DEPOSIT_END],
            Feed => self.full[FEED_END] && self.at(Z1).owner != Some(Feed),
            _ => false,
        }
    }

    fn advance(&mut self, machine: Machine) -> Checked {
        let (from, to, zones, at_work): (usize, usize, &[Zone], Posture) = match machine {
            Feed => (FEED_ENTRY, FEED_END, &[Z6], Moving),
            Deposit => (DEPOSIT_ENTRY, DEPOSIT_END, &[Z4, Z5], Moving),
            Press => (PRESS_IN, PRESS_OUT, &[Z3], Closed),
            _ => return Err(Refusal::NoPose),
        };
        if machine == Press {
            self.owns(Press, Z3)?;
        }
        check(zones.iter().all(|zone| self.at(*zone).posture == at_work), Refusal::NotAtWork)?;
        self.can_move(from, to)?;
        self.full[from] = false;
        self.full[to] = true;
        for &zone in zones {
            self.at_mut(zone).posture = Closed;
        }
        Ok(())
    }

    /// The watch stops the cell.
    fn stop(&mut self, machine: Machine) -> Checked {
        check(machine == Watch, Refusal::NotParty)?;
        self.not_stopped()?;
        self.not_worn()?;
        self.stopped = true;
        Ok(())
    }

    /// The watch lifts its stop.
    fn resume(&mut self, machine: Machine) -> Checked {
        check(machine == Watch, Refusal::NotParty)?;
        check(self.stopped, Refusal::NotStopped)?;
        self.not_worn()?;
        self.stopped = false;
        Ok(())
    }

    /// Answers the call, and changes the state if it is done.
    pub fn apply(&mut self, machine: Machine, call: Call) -> Answer {
        let checked = match call {
            Call::Claim(zone) => self.claim(machine, zone),
            Call::Give(zone) => self.give(machine, zone),
            Call::Yield(zone) => self.yield_to(machine, zone),
            Call::Take(zone) => self.take(machine, zone),
            Call::Release(zone) => self.release(machine, zone),
            Call::Inquire(zone) => return Answer::Shown(*self.at(zone)),
            Call::SetPose(pose) => self.set_pose(machine, pose),
            Call::Advance => self.advance(machine),
            Call::Stop => self.stop(machine),
            Call::Resume => self.resume(machine),
        };
        match checked {
            Ok(()) => {
                self.stamp += 1;
                Answer::Done
            }
            Err(refusal) => Answer::Refused(refusal),
        }
    }
}

fn check(holds: bool, refusal: Refusal) -> Checked {
    if holds { Ok(()) } else { Err(refusal) }
}

/// An owner's word.
pub fn owner_word(owner: Option<Machine>) -> &'static str {
    owner.map_or("free", Machine::word)
}
