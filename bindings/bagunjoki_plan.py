"""The interlock of any plant, by its plan, over its library for C.

    ./plan header --python < plan.toml > press.py       # the plan as a module, of which PLANT is a Plant

    from press import PLANT
    cell = PLANT.word("10")                             # a digit for each place: 1 where there is a plate
    cell.ask("press", "claim", "interior")              # done
    cell.motors()                                       # the motors that may run now
    cell.show()

A script, line by line, answered as `./plan replay` does:

    python3 press.py [--show] [--answers] [SCRIPT]

The library is the file that the variable BAGUNJOKI_PLAN names, or else libbagunjoki_plan.so beside the module
bagunjoki, one folder above, in out/lib of a checkout, or where the system finds it. The status is as that of `python3 -m bagunjoki`.
"""

import ctypes
import enum
from typing import NamedTuple, Optional, Tuple

import bagunjoki
from bagunjoki import LAST_STAMP, Answer, Posture, RawReply, Word, name_of, word_of

__version__ = "1.0.0"

# Who stops and resumes, and where a reply names no machine, zone or posture.
WATCH, NOTHING = 30, 255
# Instead of a word. No state of any plan has it.
NO_WORD = 0x8000000000000002
# Bits of the stamp.
STAMP_BITS = 20
WORD, BYTE, STAMP, TEXT, SIZE = ctypes.c_uint64, ctypes.c_uint8, ctypes.c_uint32, ctypes.c_char_p, ctypes.c_size_t


class Verb(enum.IntEnum):
    """What is asked: of a zone, a pose (SET_POSE) or a place (ADVANCE), or of nothing (STOP, RESUME)."""

    CLAIM = 1
    GIVE = 2
    YIELD = 3
    TAKE = 4
    RELEASE = 5
    SET_POSE = 6
    INQUIRE = 8
    STOP = 9
    RESUME = 10
    ADVANCE = 11


WITHOUT_OBJECT = (Verb.STOP, Verb.RESUME)


class RawOpened(ctypes.Structure):
    """A plan that was opened, as C has it."""

    _fields_ = [("is_plan", ctypes.c_bool), ("kept", WORD * 4102)]


OPENED = ctypes.POINTER(RawOpened)
FUNCTIONS = {
    "open": (RawOpened, [TEXT, SIZE]),
    "step": (RawReply, [OPENED, WORD, BYTE, BYTE, BYTE]),
    "start": (WORD, [OPENED, TEXT, SIZE, STAMP]),
    "restamp": (WORD, [OPENED, WORD, STAMP]),
    "stamp": (STAMP, [OPENED, WORD]),
    "may_run": (ctypes.c_bool, [WORD, WORD, WORD]),
}


def load_library(path=None):
    """The library for any plan, with the types of its functions."""
    return bagunjoki.load_library(path, "bagunjoki_plan", FUNCTIONS)


class Motor(NamedTuple):
    """A motor, or a part that stands somewhere: which bits of a word it looks at, and what they have to be."""

    name: str
    mask: int
    pattern: int


class PlanReply(NamedTuple):
    """An answer, what it names, and the stamp after it. As a text it has the words of `plan replay`."""

    answer: Answer
    stamp: int
    owner: Optional[str] = None
    zone: Optional[str] = None
    posture: Optional[Posture] = None
    plate: Optional[bool] = None

    @property
    def order(self):
        """The call's place in the history of all calls, until stamps begin again: a log is sorted by it."""
        return 2 * self.stamp + (self.answer is not Answer.DONE)

    def __str__(self):
        words = [word_of(self.answer), self.owner]
        words += [None if self.plate is None else str(int(self.plate)), self.zone]
        words.append(None if self.posture is None else word_of(self.posture))
        return " ".join(it for it in words if it is not None)


class Plant:
    """A plan with its names, in the order of their numbers, and its bytes. What `plan header --python` prints makes one."""

    def __init__(self, machines, zones, places, poses, motors, plan):
        self.machines: Tuple[str, ...] = machines
        self.zones: Tuple[str, ...] = zones
        self.places: Tuple[str, ...] = places
        self.poses: Tuple[Tuple[str, str], ...] = poses
        self.motors = tuple(Motor(*it) for it in motors)
        self.plan = bytes(plan)

    def word(self, places=None, stamp=0, library=None, renews=False):
        """A start: a digit for each place, 1 where there is a plate, or else no plate at all, and the first stamp."""
        return PlanWord(self, "0" * len(self.places) if places is None else places, stamp, library, renews)

    def machine(self, name):
        """The number of a machine, or of the watch."""
        return WATCH if name == "watch" else number_in(self.machines, name, "machine")

    def pose(self, machine, name):
        """The number of the pose that a machine means by a name: its own, or else the first with the name."""
        caller = self.machine(machine)
        own = [it for it, (whose, pose) in enumerate(self.poses) if pose == name and self.machine(whose) == caller]
        return own[0] if own else number_in([it for _, it in self.poses], name, "pose")

    def machine_name(self, number):
        """The name of a machine, or of nobody."""
        return "free" if number == NOTHING else self.machines[number]

    def main(self, words=None):
        """Plays a script, and gives the exit status."""
        return bagunjoki.main(words, self.answers_of, load_library, __doc__)

    def start_of(self, record, library):
        """The word of a script's first record."""
        return bagunjoki.start_of(record, ("start",), lambda places, stamp: self.word(places, stamp, library))

    def answers_of(self, script, library):
        """Plays a script, as `answers_of` of the module bagunjoki does."""
        return bagunjoki.answers_by(script, lambda record: self.start_of(record, library), lambda version, record: True)


def zone_widths(plan):
    """How many bits each zone has in the word, by the plan's bytes: four counts, and then rows of zones and of poses. There are those
    for its space's owner, one for its flag if a plate has a way through it, and as many for its posture as poses give it postures
    besides `closed`, but at most two. A zone that is of one space with the one before it has none for the owner; the first zone of
    a space has two for one guest or two, three for up to six, and four for more."""
    zones, poses = plan[1], plan[2]
    rows, given = [plan[4 + 8 * it :] for it in range(zones)], 6 + 8 * zones
    others = [{plan[given + 12 * pose + it] for pose in range(poses)} - {0, 1} for it in range(zones)]
    joined = [it > 0 and row[2] > 1 for it, row in enumerate(rows)] + [False]
    guests = [0 if joined[it] else joined.index(False, it + 1) - it for it in range(zones)]
    owners = [0 if it == 0 else 2 if it < 3 else 3 if it < 7 else 4 for it in guests]
    return [owner + (row[2] % 2 or row[5]) + min(len(its), 2) for owner, row, its in zip(owners, rows, others)]


def number_in(names, name, kind):
    """The place of a name among others; a number stays."""
    if isinstance(name, int):
        return name
    if name not in names:
        raise ValueError(f"{name} is no {kind}")
    return names.index(name)


def name_in(names, number, kind):
    """The name at a place among others."""
    if number not in range(len(names)):
        raise ValueError(f"{number} is no {kind}")
    return names[number]


class PlanLibrary:
    """The library for one plan: the functions that the cell's library has, so that a word may call either."""

    def __init__(self, plant, library):
        self.library, self.places = library, len(plant.places)
        self.plan = library.bagunjoki_plan_open(plant.plan, len(plant.plan))
        if not self.plan.is_plan:
            raise ValueError("these bytes are no plan's")
        self.widths = zone_widths(plant.plan)

    def bagunjoki_step(self, word, machine, verb, about):
        return self.library.bagunjoki_plan_step(self.plan, word, machine, verb, about)

    def bagunjoki_start(self, digits, length, stamp):
        return self.library.bagunjoki_plan_start(self.plan, digits, length, stamp)

    def bagunjoki_restamp(self, word, stamp):
        return self.library.bagunjoki_plan_restamp(self.plan, word, stamp)

    def bagunjoki_stamp(self, word):
        return self.library.bagunjoki_plan_stamp(self.plan, word)

    def zone_bit(self, zone):
        """The lowest bit of a zone."""
        return sum(self.widths[:zone])

    def place_bit(self, place):
        """The bit of a place; past the last one, the first bit of the stamp."""
        return sum(self.widths) + place

    def bagunjoki_is_full(self, word, place):
        return bool(word >> self.place_bit(place) & 1)

    def bagunjoki_is_stopped(self, word):
        return bool(word >> self.place_bit(self.places) + STAMP_BITS & 1)


class PlanWord(Word):
    """An interlock, whose state is one word. Threads of one program may share it: a lock keeps their calls apart."""

    no_word = NO_WORD

    def __init__(self, plant, places, stamp, library=None, renews=False):
        self.plant = plant
        super().__init__(places, stamp, PlanLibrary(plant, library or load_library()), renews)

    def numbers(self, machine, verb, thing):
        """The three numbers of a call. A verb of the cell is taken by its word: its ADVANCE has another number."""
        verb = name_of(Verb, word_of(verb) if isinstance(verb, bagunjoki.Verb) else verb)
        caller = self.plant.machine(machine)
        if (verb in WITHOUT_OBJECT) != (thing is None):
            raise ValueError(f"{word_of(verb)} takes {'no' if thing else 'an'} object")
        if verb == Verb.SET_POSE:
            about = thing if isinstance(thing, int) else self.plant.pose(machine, thing)
        elif verb == Verb.ADVANCE:
            about = number_in(self.plant.places, thing, "place")
        else:
            about = 0 if thing is None else number_in(self.plant.zones, thing, "zone")
        return caller, verb, about

    def record(self, machine, verb, thing=None):
        """A call as the record of a script: by the same words or numbers as `ask`."""
        (caller, verb, about), plant = self.numbers(machine, verb, thing), self.plant
        words = ["watch" if caller == WATCH else name_in(plant.machines, caller, "machine"), word_of(verb)]
        if verb == Verb.SET_POSE:
            words.append(name_in([it for _, it in plant.poses], about, "pose"))
            if plant.pose(caller, words[-1]) != about:
                raise ValueError(f"pose {about} has no record: {words[-1]} means another one")
        elif verb == Verb.ADVANCE:
            words.append(name_in(plant.places, about, "place"))
        elif verb not in WITHOUT_OBJECT:
            words.append(name_in(plant.zones, about, "zone"))
        return ",".join(words)

    def reply(self, raw, stamp):
        """The reply, with what its answer names and no more."""
        answer, plant = Answer(raw.answer), self.plant
        names = {}
        if answer in (Answer.HELD, Answer.NOT_OWNER, Answer.SHOWN):
            names["owner"] = plant.machine_name(raw.owner)
        if answer in (Answer.SHUT, Answer.SHOWN):
            names["posture"] = Posture(raw.posture)
        if answer == Answer.SHOWN:
            names["plate"] = raw.plate
        if answer == Answer.PLATE_IN_ZONE:
            names["zone"] = plant.zones[raw.zone]
        return PlanReply(answer, stamp, **names)

    def may_run(self, motor):
        """Whether a motor may run, by its name. It stays so until a call of its own machine loses the permission."""
        names = [it.name for it in self.plant.motors]
        _, mask, pattern = self.plant.motors[number_in(names, motor, "motor")]
        return self.library.library.bagunjoki_plan_may_run(self.value, mask, pattern)

    def motors(self):
        """The names of the motors that may run now."""
        return [it.name for it in self.plant.motors if self.may_run(it.name)]

    def is_full(self, place):
        """Whether a plate is at the place."""
        return self.library.bagunjoki_is_full(self.value, number_in(self.plant.places, place, "place"))

    def full_places(self):
        return [it for it in self.plant.places if self.is_full(it)]

    def zone(self, zone):
        return self.ask("watch", "inquire", zone)

    def plates(self):
        return len(self.full_places()) + sum(self.zone(it).plate for it in self.plant.zones)

    def bits(self):
        library = self.library
        stamp = library.place_bit(library.places)
        fields = [("stop", "stopped" * self.is_stopped, stamp + STAMP_BITS, 1), ("stamp", str(self.stamp), stamp, STAMP_BITS)]
        for number, place in reversed([*enumerate(self.plant.places)]):
            fields.append((place, "full" * self.is_full(place), library.place_bit(number), 1))
        for number, zone in reversed([*enumerate(self.plant.zones)]):
            shown = self.zone(zone)
            said = f"{shown.owner} {word_of(shown.posture)}{' plate' * shown.plate}"
            fields.append((zone, said, library.zone_bit(number), library.widths[number]))
        return [(name, said, f"{self.value >> low & (1 << count) - 1:0{count}b}") for name, said, low, count in fields]

    def table(self):
        lines = [f"zone {it} {str(self.zone(it)).partition(' ')[2]}" for it in self.plant.zones]
        return "\n".join(lines + self.rest_of_table("".join(str(int(self.is_full(it))) for it in self.plant.places)))
