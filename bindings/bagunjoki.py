"""The interlock of the production cell, over its library for C.

    from bagunjoki import Word
    cell = Word()
    cell.ask("press", "claim", "z3")        # done
    cell.ask("robot", "claim", "z3")        # held press
    cell.show()

A script, line by line:

    python3 -m bagunjoki [--show] [--answers] [SCRIPT]

--show prints the state after each line, --answers the answers alone, as `cell replay` does. The library is the file
that the variable BAGUNJOKI names, or else libbagunjoki.so beside this file, one folder above, in out/lib of a
checkout, or where the system finds it. Where there is none, Word() raises NoLibrary. The status is 1 for a script that is refused, 2 where nothing
can be played: bad arguments, no script, no library.
"""

import csv
import ctypes
import ctypes.util
import enum
import io
import os
import sys
import threading
from typing import NamedTuple, Optional

__version__ = "1.0.0"


class Machine(enum.IntEnum):
    """Who calls. NOBODY is an owner, and makes no calls."""

    NOBODY = 0
    FEED = 1
    TABLE = 2
    ROBOT = 3
    PRESS = 4
    DEPOSIT = 5
    CRANE = 6
    WATCH = 7


class Zone(enum.IntEnum):
    """The spaces that two machines use."""

    Z1 = 1
    Z2 = 2
    Z3 = 3
    Z4 = 4
    Z5 = 5
    Z6 = 6


class Place(enum.IntEnum):
    """Where plates are: p1 to p10."""

    FEED_ENTRY = 1
    FEED_END = 2
    TABLE = 3
    ARM1 = 4
    PRESS_IN = 5
    PRESS_OUT = 6
    ARM2 = 7
    DEP_ENTRY = 8
    DEP_END = 9
    CRANE = 10


class Posture(enum.IntEnum):
    """Of a zone."""

    CLOSED = 0
    MOVING = 1
    OPEN_IN = 2
    OPEN_OUT = 3


class Pose(enum.IntEnum):
    """Of a machine: it gives the machine's zones their postures."""

    TURNING = 1
    LOADING = 2
    UNLOADING = 3
    TRAVELLING = 4
    MIDDLE = 5
    LOW = 6
    TOP = 7
    RUNNING = 8
    LANDING = 9
    HALTED = 10
    OFFERING = 11
    STANDING = 12


class Verb(enum.IntEnum):
    """What is asked."""

    CLAIM = 1
    GIVE = 2
    YIELD = 3
    TAKE = 4
    RELEASE = 5
    SET_POSE = 6
    ADVANCE = 7
    INQUIRE = 8
    STOP = 9
    RESUME = 10


class Answer(enum.IntEnum):
    """What is answered. Only DONE changes the word; 1 to 16 are refusals."""

    DONE = 0
    NOT_PARTY = 1
    HELD = 2
    ALREADY_MINE = 3
    SHUT = 4
    NOT_OWNER = 5
    PLATE_IN_ZONE = 6
    NO_PLATE = 7
    PLACE_FULL = 8
    WRONG_WAY = 9
    JUMP = 10
    NOT_AT_WORK = 11
    NO_POSE = 12
    WORN = 13
    STOPPED = 14
    NOT_STOPPED = 15
    IN_USE = 16
    SHOWN = 32
    NO_CALL = 64
    NO_STATE = 65


# The word that no state has, and the last stamp.
NO_WORD = 2**64 - 1
LAST_STAMP = 1_048_575
# Words of scripts and answers that aren't the letters of the name.
OTHER_WORDS = {
    "NOBODY": "free",
    "SET_POSE": "pose",
    "ALREADY_MINE": "already",
    "PLATE_IN_ZONE": "platein",
    "SHOWN": "zone",
}
WITHOUT_OBJECT = (Verb.ADVANCE, Verb.STOP, Verb.RESUME)
# What answers without the library.
WITHOUT = {
    "bagunjoki": "; `exercises/play.py FILE --words` needs none",
    "bagunjoki_plan": "; `exercises/plans.py replay PLAN SCRIPT` needs none",
}


def word_of(name):
    """The word of a name in scripts and answers."""
    if isinstance(name, Place):
        return f"p{name.value}"
    return OTHER_WORDS.get(name.name) or name.name.lower().replace("_", "")


def name_of(kind, name):
    """The name of this kind that is meant by a name, a number or a word of scripts."""
    if isinstance(name, str):
        for it in kind:
            if word_of(it) == name and it is not Machine.NOBODY:
                return it
        raise ValueError(f"{name} is no {kind.__name__.lower()}")
    if isinstance(name, enum.Enum) and not isinstance(name, kind):
        raise ValueError(f"{name!r} is no {kind.__name__.lower()}")
    return kind(name)


class RawReply(ctypes.Structure):
    """What the library gives back from a call."""

    _fields_ = [
        ("next", ctypes.c_uint64),
        ("answer", ctypes.c_uint8),
        ("owner", ctypes.c_uint8),
        ("zone", ctypes.c_uint8),
        ("posture", ctypes.c_uint8),
        ("plate", ctypes.c_bool),
    ]


class NoLibrary(OSError):
    """There is no library, or what is there is another one."""


def library_path(name="bagunjoki"):
    """Where the library with this name is."""
    here = os.path.dirname(os.path.realpath(__file__))
    if name.upper() in os.environ:
        return os.path.realpath(os.environ[name.upper()])
    for folder in (here, os.path.dirname(here), f"{here}/out/lib"):
        if os.path.exists(f"{folder}/lib{name}.so"):
            return f"{folder}/lib{name}.so"
    found = ctypes.util.find_library(name)
    if not found:
        raise NoLibrary(f"there is no lib{name}.so: tools/bindings makes it, with the Rattle kit{WITHOUT[name]}")
    return found


WORD, BYTE, STAMP = ctypes.c_uint64, ctypes.c_uint8, ctypes.c_uint32
# The library's functions: what each gives, and its arguments.
FUNCTIONS = {
    "step": (RawReply, [WORD, BYTE, BYTE, BYTE]),
    "start": (WORD, [ctypes.c_char_p, ctypes.c_size_t, STAMP]),
    "restamp": (WORD, [WORD, STAMP]),
    "is_state": (ctypes.c_bool, [WORD]),
    "stamp": (STAMP, [WORD]),
    "is_stopped": (ctypes.c_bool, [WORD]),
    "is_full": (ctypes.c_bool, [WORD, BYTE]),
}


def load_library(path=None, prefix="bagunjoki", functions=None):
    """The library with the functions that have this prefix, with their types."""
    path = path or library_path(prefix)
    try:
        library = ctypes.CDLL(path)
        for name, (result, arguments) in (functions or FUNCTIONS).items():
            function = getattr(library, f"{prefix}_{name}")
            function.restype, function.argtypes = result, arguments
    except (OSError, AttributeError) as why:
        raise NoLibrary(f"this isn't the library of {prefix}: {why}") from None
    return library


class Reply(NamedTuple):
    """An answer, what it names, and the stamp after it. As a text it has the words of `cell replay`."""

    answer: Answer
    stamp: int
    owner: Optional[Machine] = None
    zone: Optional[Zone] = None
    posture: Optional[Posture] = None
    plate: Optional[bool] = None

    def __str__(self):
        words = [word_of(self.answer)]
        if self.owner is not None:
            words.append(word_of(self.owner))
        if self.plate is not None:
            words.append(str(int(self.plate)))
        words += [word_of(it) for it in (self.zone, self.posture) if it is not None]
        return " ".join(words)


def reply_of(raw, stamp):
    """The reply, with what its answer names and no more."""
    answer = Answer(raw.answer)
    names = {
        Answer.HELD: {"owner": Machine(raw.owner)},
        Answer.NOT_OWNER: {"owner": Machine(raw.owner)},
        Answer.SHUT: {"posture": Posture(raw.posture)},
        Answer.SHOWN: {"owner": Machine(raw.owner), "posture": Posture(raw.posture), "plate": raw.plate},
    }.get(answer, {})
    if answer == Answer.PLATE_IN_ZONE:
        names = {"zone": Zone(raw.zone)}
    return Reply(answer, stamp, **names)


class Word:
    """An interlock, whose state is one word. Threads of one program may share it: a lock keeps their calls apart."""

    no_word = NO_WORD

    def __init__(self, places="0000000000", stamp=0, library=None, renews=False):
        """A start: ten digits, 1 where there is a plate, and the first stamp. If it renews, a call after the last stamp
        first gives it the stamp 0; if not, a call that would be done is worn."""
        self.library, self.renews = library or load_library(), renews
        digits = places.encode()
        self.value = self.library.bagunjoki_start(digits, len(digits), stamp) if 0 <= stamp <= LAST_STAMP else self.no_word
        self.lock = threading.Lock()
        if self.value == self.no_word:
            raise ValueError(f"no start has the places {places} and the stamp {stamp}")

    def ask(self, machine, verb, thing=None):
        """Makes a call, by names, numbers or words of scripts, and gives the reply."""
        call = self.numbers(machine, verb, thing)
        with self.lock:
            if self.renews and self.stamp == LAST_STAMP:
                self.value = self.restamped(0)
            raw = self.library.bagunjoki_step(self.value, *call)
            if raw.answer > Answer.SHOWN:
                raise ValueError(f"{word_of(Answer(raw.answer))}: {', '.join(map(str, call))}, {self.value:#x}")
            self.value = raw.next
        return self.reply(raw, self.library.bagunjoki_stamp(raw.next))

    def numbers(self, machine, verb, thing):
        """The three numbers of a call: who calls, the verb and its object."""
        machine, verb = name_of(Machine, machine), name_of(Verb, verb)
        if (verb in WITHOUT_OBJECT) != (thing is None):
            raise ValueError(f"{word_of(verb)} takes {'no' if thing else 'an'} object")
        return machine, verb, 0 if thing is None else name_of(Pose if verb == Verb.SET_POSE else Zone, thing)

    @staticmethod
    def reply(raw, stamp):
        """The reply by what the library gave back, with this stamp."""
        return reply_of(raw, stamp)

    def restamped(self, stamp):
        """The word of the same state with another stamp."""
        value = self.library.bagunjoki_restamp(self.value, stamp) if 0 <= stamp <= LAST_STAMP else self.no_word
        if value == self.no_word:
            raise ValueError(f"no state of {self.value:#x} has the stamp {stamp}")
        return value

    def restamp(self, stamp=0):
        """Gives the word another stamp, and changes nothing else of the state."""
        with self.lock:
            self.value = self.restamped(stamp)

    @property
    def stamp(self):
        """The first stamp, or that of the last renewal, and one more for each call done since."""
        return self.library.bagunjoki_stamp(self.value)

    @property
    def is_stopped(self):
        """Whether the watch has stopped the cell."""
        return self.library.bagunjoki_is_stopped(self.value)

    def is_full(self, place):
        """Whether a plate is at the place."""
        return self.library.bagunjoki_is_full(self.value, name_of(Place, place))

    def full_places(self):
        """The places that are full."""
        return [it for it in Place if self.is_full(it)]

    def zone(self, zone):
        """Owner, plate and posture of a zone."""
        return self.ask(Machine.WATCH, Verb.INQUIRE, zone)

    def plates(self):
        """How many plates there are, in places and in zones."""
        return len(self.full_places()) + sum(self.zone(it).plate for it in Zone)

    def bits(self):
        """The word's fields from the highest bit down: name, value in words, bits."""
        full = " ".join(word_of(it) for it in reversed(self.full_places()))
        fields = [("unused", "", 61, 3), ("mark", "stopped" * self.is_stopped, 60, 1)]
        fields += [("stamp", str(self.stamp), 40, 20), ("p10 to p1", full, 30, 10)]
        for it in reversed(Zone):
            shown = self.zone(it)
            said = f"{word_of(shown.owner)} {word_of(shown.posture)}{' plate' * shown.plate}"
            fields.append((word_of(it), said, 5 * (it - 1), 5))
        cut = lambda low, count: f"{self.value >> low & (1 << count) - 1:0{count}b}"
        return [(name, said, cut(low, count)) for name, said, low, count in fields]

    def table(self):
        """The state as a text: zones, places and stamp as a film has them, and the word's bits."""
        lines = [f"zone {word_of(it)} {str(self.zone(it)).partition(' ')[2]}" for it in Zone]
        return "\n".join(lines + self.rest_of_table("".join(str(int(self.is_full(it))) for it in Place)))

    def rest_of_table(self, places):
        """The lines of the table after those of the zones."""
        lines = [f"places {places}", f"stamp {self.stamp} plates {self.plates()} stopped {int(self.is_stopped)}"]
        lines.append(f"word {self.value:#018x}")
        return lines + [f"  {bits:>20}  {name:<10}{said}".rstrip() for name, said, bits in self.bits()]

    def show(self):
        """Prints the state."""
        print(self.table())


class Fault(Exception):
    """A script that isn't one; its text is the line that `cell replay` writes."""


def start_of(record, versions, start):
    """The word of a script's first record, whose first field is one of these; `start` makes it, of places and a stamp."""
    if not record or record[0] not in versions:
        raise Fault("fault nostart")
    stamp = record[2] if len(record) == 3 else "0"
    is_stamp = stamp.isascii() and stamp.isdigit() and len(stamp) <= 7
    try:
        if not is_stamp or len(record) not in (2, 3):
            raise ValueError
        return start(record[1], int(stamp))
    except ValueError:
        raise Fault("fault badstart") from None


def answers_of(script, library=None):
    """Plays a script: for each record of it the text, the answer as `cell replay` writes it, and the word after it."""
    start = lambda record: start_of(record, ("start", "start2"), lambda places, stamp: Word(places, stamp, library))
    return answers_by(script, start, lambda version, record: version == "start2" or record[1:2] not in (["stop"], ["resume"]))


def answers_by(script, start, is_known):
    """Plays a script, whose first record makes a word, and of which those are calls that are known by the first field."""
    cell = version = None
    records = (it for it in csv.reader(script) if it)
    for number, record in enumerate(records):
        if cell is None:
            cell, version = start(record), record[0]
            said = f"{version} {cell.plates()}"
        else:
            try:
                if not is_known(version, record) or not 2 <= len(record) <= 3:
                    raise ValueError
                said = cell.ask(*record)
            except ValueError:
                raise Fault(f"fault badrow {number}") from None
        yield ",".join(record), f"{number} {cell.stamp} {said}", cell
    if cell is None:
        raise Fault("fault nostart")


def main(words=None, play=answers_of, load=load_library, usage=__doc__):
    """Plays a script over the library that is loaded, and gives the exit status."""
    words = sys.argv[1:] if words is None else words
    flags, files = [it for it in words if it.startswith("--")], [it for it in words if not it.startswith("--")]
    if {*flags} & {"--help"} or "-h" in files:
        print(usage)
        return 0
    if set(flags) - {"--show", "--answers"} or len(files) > 1:
        print(usage, file=sys.stderr)
        return 2
    try:
        library = load()
        source = open(files[0], "rb") if files else sys.stdin.buffer
        with io.TextIOWrapper(source, encoding="utf-8-sig", errors="replace", newline="") as script:
            for record, answer, cell in play(script, library):
                print(answer if "--answers" in flags else f"{record:<22}{answer}", flush=True)
                if "--show" in flags:
                    print(cell.table() + "\n", flush=True)
    except Fault as fault:
        print(fault)
        return 1
    except (OSError, csv.Error) as why:
        print(f"bagunjoki: {why}", file=sys.stderr)
        return 2
    return 0


if __name__ == "__main__":
    sys.exit(main())
