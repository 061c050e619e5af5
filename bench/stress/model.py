"""The interlock of docs/MODEL.md: what a call is answered in a state, and what it changes. Written from that page alone."""

MACHINES = ("feed", "table", "robot", "press", "deposit", "crane", "watch")
FEED, TABLE, ROBOT, PRESS, DEPOSIT, CRANE, WATCH = range(7)
NOBODY = 7
Z1, Z2, Z3, Z4, Z5, Z6 = range(6)
POSTURES = ("closed", "moving", "openin", "openout")
CLOSED, MOVING, OPENIN, OPENOUT = range(4)
FEED_ENTRY, FEED_END, ON_TABLE, ARM1, PRESS_IN, PRESS_OUT, ARM2, DEP_ENTRY, DEP_END, ON_CRANE = range(10)
LAST_STAMP = 1_048_575

HOST = (TABLE, TABLE, PRESS, DEPOSIT, DEPOSIT, FEED)
GUEST = (FEED, ROBOT, ROBOT, ROBOT, CRANE, CRANE)
# Where a plate comes from and goes to: openin the guest gives, openout the host.
WAYS = {
    (Z1, OPENIN): (FEED_END, ON_TABLE),
    (Z2, OPENOUT): (ON_TABLE, ARM1),
    (Z3, OPENIN): (ARM1, PRESS_IN),
    (Z3, OPENOUT): (PRESS_OUT, ARM2),
    (Z4, OPENIN): (ARM2, DEP_ENTRY),
    (Z5, OPENOUT): (DEP_END, ON_CRANE),
    (Z6, OPENIN): (ON_CRANE, FEED_ENTRY),
}
POSES = ("turning", "loading", "unloading", "travelling", "middle", "low", "top", "running", "landing", "halted", "offering", "standing")
HOSTED = {TABLE: (Z1, Z2), PRESS: (Z3,), FEED: (Z6,), DEPOSIT: (Z4, Z5)}
# The postures that a pose gives the zones that its machine hosts.
POSE_OF = {
    (TABLE, "turning"): (MOVING, MOVING),
    (TABLE, "loading"): (OPENIN, CLOSED),
    (TABLE, "unloading"): (CLOSED, OPENOUT),
    (PRESS, "travelling"): (MOVING,),
    (PRESS, "middle"): (OPENIN,),
    (PRESS, "low"): (OPENOUT,),
    (PRESS, "top"): (CLOSED,),
    (FEED, "running"): (MOVING,),
    (FEED, "landing"): (OPENIN,),
    (FEED, "halted"): (CLOSED,),
    (DEPOSIT, "running"): (MOVING, MOVING),
    (DEPOSIT, "landing"): (OPENIN, CLOSED),
    (DEPOSIT, "offering"): (CLOSED, OPENOUT),
    (DEPOSIT, "standing"): (OPENIN, OPENOUT),
    (DEPOSIT, "halted"): (CLOSED, CLOSED),
}
# Where the plate of an Advance comes from and goes to, and the posture that the machine's zones have at work.
ADVANCES = {FEED: (FEED_ENTRY, FEED_END, MOVING), DEPOSIT: (DEP_ENTRY, DEP_END, MOVING), PRESS: (PRESS_IN, PRESS_OUT, CLOSED)}

CALLS = [f"{verb} z{zone + 1}" for verb in ("claim", "give", "yield", "take", "release", "inquire") for zone in range(6)]
CALLS += [f"pose {pose}" for pose in POSES] + ["advance", "stop", "resume"]

# The numbers of the refusals.
NOTPARTY, HELD, ALREADY, SHUT, NOTOWNER, PLATEIN, NOPLATE, PLACEFULL, WRONGWAY, JUMP, NOTATWORK, NOPOSE, WORN, STOPPED, NOTSTOPPED, INUSE = range(1, 17)
NAMES = "notparty held already shut notowner platein noplate placefull wrongway jump notatwork nopose worn stopped notstopped inuse"
REFUSALS = dict(zip(range(1, 17), NAMES.split()))
DONE = 0


def refusal(number, named=0):
    """The number of a refusal, with the machine, zone or posture that it names."""
    return number << 3 | named


def zone_answer(owner, flag, posture):
    """The number of an inquiry's answer."""
    return 192 | owner << 3 | flag << 2 | posture


def words(answer):
    """The words of an answer's number."""
    if answer == DONE:
        return "done"
    if answer >= 192:
        owner = answer >> 3 & 7
        return f"zone {'free' if owner == NOBODY else MACHINES[owner]} {answer >> 2 & 1} {POSTURES[answer & 3]}"
    number, named = answer >> 3, answer & 7
    if number in (HELD, NOTOWNER):
        return f"{REFUSALS[number]} {'free' if named == NOBODY else MACHINES[named]}"
    if number == SHUT:
        return f"shut {POSTURES[named]}"
    if number == PLATEIN:
        return f"platein z{named + 1}"
    return REFUSALS.get(number, f"number {answer}")


class State:
    """Owners, flags and postures of the zones, the full places, and whether it is stopped; the stamp is kept beside it."""

    __slots__ = ("owner", "flag", "posture", "full", "stopped", "told")

    def __init__(self, owner, flag, posture, full, stopped=False):
        self.owner, self.flag, self.posture, self.full, self.stopped = owner, flag, posture, full, stopped
        # What calls were answered here before, by machine and call: the answer's number, or the state after the call if it is done.
        self.told = {}

    @staticmethod
    def start(full):
        """The start with these full places, if there is one."""
        if sum(full) > 6 or full[PRESS_IN] and full[PRESS_OUT]:
            return None
        return State((NOBODY,) * 6, (False,) * 6, (CLOSED,) * 6, tuple(full))

    def key(self):
        """All that it says."""
        return self.owner, self.flag, self.posture, self.full, self.stopped

    def plates(self):
        """How many plates there are."""
        return sum(self.full) + sum(self.flag)

    def is_sound(self):
        """The rules of sound states."""
        for zone in range(6):
            owner, posture = self.owner[zone], self.posture[zone]
            if owner not in (NOBODY, HOST[zone], GUEST[zone]):
                return False
            if self.flag[zone]:
                if (zone, posture) not in WAYS or self.full[WAYS[zone, posture][1]]:
                    return False
                if owner != (HOST[zone] if posture == OPENIN else GUEST[zone]):
                    return False
            if owner == GUEST[zone] and posture not in (OPENIN, OPENOUT) or posture == MOVING and owner != HOST[zone]:
                return False
        for machine, zones in HOSTED.items():
            its = tuple(self.posture[zone] for zone in zones)
            for zone, posture in zip(zones, its):
                poses = [it for (who, _), it in POSE_OF.items() if who == machine]
                if posture != CLOSED and all(it[zones.index(zone)] != posture for it in poses):
                    return False
        pressing = self.full[PRESS_IN] and self.full[PRESS_OUT] or self.full[PRESS_OUT] and self.posture[Z3] == OPENIN
        return not pressing

    def with_changes(self, owner=(), flag=(), posture=(), full=()):
        """The state with these changes, each a dictionary."""
        parts = []
        for part, changes in ((self.owner, owner), (self.flag, flag), (self.posture, posture), (self.full, full)):
            part = list(part)
            for number, value in dict(changes).items():
                part[number] = value
            parts.append(tuple(part))
        return State(*parts, self.stopped)

    def with_mark(self, stopped):
        """The state, stopped or not."""
        return State(self.owner, self.flag, self.posture, self.full, stopped)

    def answer(self, machine, call):
        """The number of the answer to a call, or the state after it if it is done. (It is worn where the stamp is the last.)"""
        if call >= 49:
            return self.mark(machine, call == 49)
        if call == 48:
            return self.advance(machine)
        if call >= 36:
            return self.pose(machine, POSES[call - 36])
        verb, zone = divmod(call, 6)
        if verb == 5:
            return zone_answer(self.owner[zone], self.flag[zone], self.posture[zone])
        if machine not in (HOST[zone], GUEST[zone]):
            return refusal(NOTPARTY)
        if self.stopped and verb in (0, 1):
            return refusal(STOPPED)
        if verb == 0:
            return self.claim(machine, zone)
        if self.owner[zone] != machine:
            return refusal(NOTOWNER, self.owner[zone])
        return (None, self.give, self.yield_, self.take, self.release)[verb](machine, zone)

    def is_open(self, zone):
        """Whether plates can go through the zone."""
        return self.posture[zone] in (OPENIN, OPENOUT)

    def is_in_use(self, machine, zone):
        """Whether the feed belt pushes a plate to this zone."""
        return machine == FEED and zone == Z1 and self.posture[Z6] == MOVING and self.full[FEED_END]

    def claim(self, machine, zone):
        """Claim."""
        if self.owner[zone] == machine:
            return refusal(ALREADY)
        if self.owner[zone] != NOBODY:
            return refusal(HELD, self.owner[zone])
        if machine == GUEST[zone] and not self.is_open(zone):
            return refusal(SHUT, self.posture[zone])
        return self.with_changes(owner={zone: machine})

    def give(self, machine, zone):
        """Give, by the owner."""
        if self.flag[zone]:
            return refusal(PLATEIN, zone)
        posture = self.posture[zone]
        way = WAYS.get((zone, posture))
        if way is None or machine != (GUEST[zone] if posture == OPENIN else HOST[zone]):
            return refusal(WRONGWAY)
        if not self.full[way[0]]:
            return refusal(NOPLATE)
        if self.full[way[1]]:
            return refusal(PLACEFULL)
        return self.with_changes(owner={zone: HOST[zone] + GUEST[zone] - machine}, flag={zone: True}, full={way[0]: False})

    def yield_(self, machine, zone):
        """Yield, by the owner."""
        if self.flag[zone]:
            return refusal(PLATEIN, zone)
        if not self.is_open(zone):
            return refusal(SHUT, self.posture[zone])
        if self.is_in_use(machine, zone):
            return refusal(INUSE)
        return self.with_changes(owner={zone: HOST[zone] + GUEST[zone] - machine})

    def take(self, _machine, zone):
        """Take, by the owner."""
        if not self.flag[zone]:
            return refusal(NOPLATE)
        return self.with_changes(flag={zone: False}, full={WAYS[zone, self.posture[zone]][1]: True})

    def release(self, machine, zone):
        """Release, by the owner."""
        if self.flag[zone]:
            return refusal(PLATEIN, zone)
        if self.posture[zone] == MOVING:
            return refusal(SHUT, MOVING)
        if self.is_in_use(machine, zone):
            return refusal(INUSE)
        return self.with_changes(owner={zone: NOBODY})

    def pose(self, machine, pose):
        """SetPose."""
        postures = POSE_OF.get((machine, pose))
        if postures is None:
            return refusal(NOPOSE)
        zones = HOSTED[machine]
        moves = MOVING in postures
        if moves and self.stopped:
            return refusal(STOPPED)
        looked_at = [zone for zone, posture in zip(zones, postures) if moves or self.posture[zone] != posture]
        for zone in looked_at:
            if self.owner[zone] != machine:
                return refusal(NOTOWNER, self.owner[zone])
        for zone in looked_at:
            if self.flag[zone]:
                return refusal(PLATEIN, zone)
        if machine in (TABLE, PRESS) and not moves and any(self.posture[zone] != MOVING for zone in zones):
            return refusal(JUMP)
        for zone, posture in zip(zones, postures):
            if posture == OPENIN and self.posture[zone] != OPENIN:
                places = (PRESS_IN, PRESS_OUT) if zone == Z3 else (WAYS[zone, OPENIN][1],)
                if any(self.full[place] for place in places):
                    return refusal(PLACEFULL)
        if moves and (machine == DEPOSIT and self.full[DEP_END] or machine == FEED and self.full[FEED_END] and self.owner[Z1] != FEED):
            return refusal(PLACEFULL)
        return self.with_changes(posture=dict(zip(zones, postures)))

    def advance(self, machine):
        """Advance."""
        if machine not in ADVANCES:
            return refusal(NOPOSE)
        begin, end, at_work = ADVANCES[machine]
        if machine == PRESS and self.owner[Z3] != PRESS:
            return refusal(NOTOWNER, self.owner[Z3])
        if any(self.posture[zone] != at_work for zone in HOSTED[machine]):
            return refusal(NOTATWORK)
        if not self.full[begin]:
            return refusal(NOPLATE)
        if self.full[end]:
            return refusal(PLACEFULL)
        closed = {} if machine == PRESS else {zone: CLOSED for zone in HOSTED[machine]}
        return self.with_changes(posture=closed, full={begin: False, end: True})

    def mark(self, machine, stops):
        """Stop and Resume."""
        if machine != WATCH:
            return refusal(NOTPARTY)
        if stops == self.stopped:
            return refusal(STOPPED if stops else NOTSTOPPED)
        return self.with_mark(stops)
