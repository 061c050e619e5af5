"""Callers who take steps on one word: loads and exchanges. What a call is answered is in bench/stress/model.py.

A word is a pair: a state and its stamp. A caller has a Try while its call is pending. The kinds of interlocks are the right one,
four wrong ones, as in the exercises plain_store, word_per_pass, busy_after_one and accept_forgets, and one for each rule of rules.py.
"""

import csv
import os
import sys
from collections import namedtuple

sys.dont_write_bytecode = True
ROOT = os.path.dirname(os.path.dirname(os.path.realpath(__file__)))
sys.path.insert(0, f"{ROOT}/bench/stress")
from model import CALLS, DONE, LAST_STAMP, MACHINES, NOBODY, HOST, POSTURES, WORN, State, refusal, words
from rules import RULES

KINDS = RIGHT, STORE, WORD_PER_PASS, BUSY_AFTER_ONE, ACCEPT_FORGETS = "right", "store", "word-per-pass", "busy-after-one", "accept-forgets"
# What each wrong interlock does, in words, by the name of its exercise.
EXERCISES = {
    "plain-store": (STORE, "A call puts its word there, whatever is there now."),
    "word-per-pass": (WORD_PER_PASS, "Each caller has a word of its own."),
    "busy-after-one": (BUSY_AFTER_ONE, "A call is given up after its first lost exchange."),
    "accept-forgets": (ACCEPT_FORGETS, "A caller answers by the word that it found last, and forgets what others told it."),
    **{name: (name, rule.__doc__) for name, rule in RULES.items()},
}
BUSY, LETTER = -1, -2
PLACES = "FeedEntry FeedEnd Table Arm1 PressIn PressOut Arm2 DepEntry DepEnd Crane".split()

Try = namedtuple("Try", "call old new lost since")
# What a caller was told: the answer's number or BUSY, the stamp, and how many exchanges it lost; if it was BUSY, the stamp of its load.
# A LETTER is what another had seen, as it comes by `tell` or `meet`.
Told = namedtuple("Told", "call answer stamp lost since", defaults=[None])

KEPT = {}


def first_equal(state):
    """The same state, as it was met first. So equal states are one object."""
    return KEPT.setdefault(state.key(), state)


def start_of(fields):
    """The word and the number of tries that the first line of a list of steps says, or None."""
    _, digits, tries = (*fields[:3], *("", "", "1")[len(fields[:3]) :])
    if fields[:1] != ["start"] or len(digits) != 10 or set(digits) - set("01") or tries not in map(str, range(1, 65)):
        return None
    state = State.start([it == "1" for it in digits])
    return state and ((first_equal(state), 0), int(tries))


def call_of(fields):
    """The number of the call that these words say, or None."""
    text = " ".join(fields)
    return CALLS.index(text) if text in CALLS and len(fields) == len(text.split()) else None


def why_no_machine(name):
    """Why no machine has this name."""
    return f'no machine "{name}": {", ".join(MACHINES)}'


def why_no_call(fields):
    """Why these words are no call: the first wrong one, and what may stand there."""
    verb, *names = fields or [""]
    known = {}
    for it in CALLS:
        known.setdefault(it.split()[0], []).extend(it.split()[1:])
    if verb not in known:
        return f'"{verb}" is no call: {", ".join(known)}'
    if not known[verb]:
        return f"{verb} is a call without a name"
    if not names:
        return f"{verb} needs a name: {', '.join(known[verb])}"
    return f'{verb} takes no "{names[0]}": {", ".join(known[verb])}' if names[0] not in known[verb] else f"{verb} takes one name"


def why_no_start(digits):
    """Why no cell starts with these places."""
    if len(digits) != 10 or set(digits) - set("01"):
        return f'"{digits}" isn\'t ten digits, 0 or 1, for the places {" ".join(PLACES)}'
    return f"{digits} is no start: at most six plates, and not both PressIn and PressOut"


def reply_at(word, machine, call, kind=RIGHT):
    """The answer in a word's state, and the word after the call; by the rule of that name, if the kind is one."""
    state, stamp = word
    found = RULES.get(kind, State.answer)(state, machine, call)
    if not isinstance(found, State):
        return found, word
    return (refusal(WORN), word) if stamp == LAST_STAMP else (DONE, (first_equal(found), stamp + 1))


class SystemState:
    """The word, or a word for each caller, and what callers hold. Steps change nothing: they give another state."""

    __slots__ = ("kind", "tries", "words", "held", "found")

    def __init__(self, kind, tries, words_, held=(None,) * 7, found=(None,) * 7):
        self.kind, self.tries, self.words, self.held = kind, tries, words_, held
        # ACCEPT_FORGETS: the word that each caller found last, which may answer its calls.
        self.found = found

    @staticmethod
    def start(kind, word, tries):
        """The state before the first step."""
        return SystemState(kind, tries, (word,) * (7 if kind == WORD_PER_PASS else 1))

    def at(self, machine):
        """Which word is the machine's."""
        return machine if self.kind == WORD_PER_PASS else 0

    def word(self, machine):
        """The word that the machine loads."""
        return self.words[self.at(machine)]

    def with_pending(self, machine, pending):
        """The state in which the machine has this pending call, or none."""
        held = self.held[:machine] + (pending,) + self.held[machine + 1 :]
        return SystemState(self.kind, self.tries, self.words, held, self.found)

    def with_last_found(self, machine, word):
        """The state in which the machine has found this word last."""
        found = self.found[:machine] + (word,) + self.found[machine + 1 :] if self.kind == ACCEPT_FORGETS else self.found
        return SystemState(self.kind, self.tries, self.words, self.held, found)

    def look(self, machine, call):
        """A load. It gives the state, and what the caller is told, if anything."""
        word = self.found[machine] or self.word(machine)
        if reply_at(word, machine, call, self.kind)[0] == DONE:
            word = self.word(machine)
        state = self.with_last_found(machine, word)
        answer, new = reply_at(word, machine, call, self.kind)
        if answer == DONE:
            return state.with_pending(machine, Try(call, word, new, 0, word[1])), None
        return state, Told(call, answer, word[1], 0)

    def attempt(self, machine):
        """An exchange of the machine's pending call. It gives the state, and what the caller is told, if anything."""
        call, old, new, lost, since = self.held[machine]
        at = self.at(machine)
        found = self.words[at]
        free = self.with_pending(machine, None).with_last_found(machine, new if found == old else found)
        if found == old or self.kind == STORE:
            free.words = self.words[:at] + (new,) + self.words[at + 1 :]
        if found == old:
            return free, Told(call, DONE, new[1], lost)
        lost += 1
        answer, new = reply_at(found, machine, call, self.kind)
        if answer != DONE:
            return free, Told(call, answer, found[1], lost)
        if lost == (1 if self.kind == BUSY_AFTER_ONE else self.tries):
            return free, Told(call, BUSY, found[1], lost, since)
        return free.with_pending(machine, Try(call, found, new, lost, since)), None

    def ask(self, machine, call):
        """A whole call, with no other step in it. So it loses no exchange."""
        state, told = self.look(machine, call)
        return (state, told) if told else state.attempt(machine)


def answer_words(told):
    """What a caller is told, in words."""
    return f"{told.stamp} busy {told.lost}" if told.answer == BUSY else f"{told.stamp} {words(told.answer)}"


def fault_of(word, tries, journals):
    """Why no legal history fits the journals, each a machine with what it was told; or None.

    A done call is the change with its stamp. A refusal, an inquiry or a Busy call comes right after the change with its stamp.
    """
    events = []
    for machine, journal in journals:
        seen = word[1]
        for told in journal:
            if told.answer == LETTER:
                seen = max(seen, told.stamp)
                continue
            changed = told.answer == DONE
            if told.stamp < seen + told.lost + changed:
                return f"{sentence(machine, told)}, but it had seen stamp {seen}" + (f" and lost {told.lost}" if told.lost else "")
            if told.answer == BUSY and not tries == told.lost <= told.stamp - told.since:
                return f"{sentence(machine, told)}, but a call may lose {tries} exchanges, and others made {told.stamp - told.since} changes"
            seen = told.stamp
            events.append((told.stamp, not changed, machine, told))
    for stamp, is_told, machine, told in sorted(events):
        if stamp != word[1] + (not is_told):
            return f"{sentence(machine, told)}, but " + (f"nobody made change {word[1] + 1}" if stamp > word[1] else "another made that change")
        answer, after = reply_at(word, machine, told.call)
        if answer != (DONE if told.answer == BUSY else told.answer):
            return f"{sentence(machine, told)}, but by the calls that were done before it is {words(answer)}"
        word = word if is_told else after
    return None


def sentence(machine, told):
    """Who was told what, as a sentence's beginning."""
    return f"{MACHINES[machine]}, {CALLS[told.call]} was told '{answer_words(told)}'"


def bits_of(word):
    """The 64 bits of docs/MODEL.md."""
    state, stamp = word
    bits = stamp << 40 | state.stopped << 60
    for zone in range(6):
        owner = 0 if state.owner[zone] == NOBODY else 1 if state.owner[zone] == HOST[zone] else 2
        bits |= (owner | state.flag[zone] << 2 | state.posture[zone] << 3) << 5 * zone
    return bits | sum(1 << 30 + place for place in range(10) if state.full[place])


def text_of(word):
    """A word for people: its bits, its stamp, and the zones and places that aren't as in an empty start."""
    state, stamp = word
    parts = [f"stamp {stamp}"]
    for zone in range(6):
        owner, posture = state.owner[zone], POSTURES[state.posture[zone]]
        if owner != NOBODY or posture != "closed":
            parts.append(f"z{zone + 1} {'free' if owner == NOBODY else MACHINES[owner]} {posture}" + " plate" * state.flag[zone])
    parts += [PLACES[place] for place in range(10) if state.full[place]] + ["stopped"] * state.stopped
    return f"{bits_of(word):016x}  {', '.join(parts)}"


def named(option, value, known):
    """The name that an option's value says, also with underlines as a folder has them. It lists the names if it is none of them."""
    name = "".join(value).replace("_", "-")
    if name not in known:
        unknown = [f'no {option} "{it}"' for it in value if it]
        sys.exit("\n".join([*unknown, f"--{option} NAME, where NAME is", *(f"  {it:<24} {known[it]}" for it in known)]))
    return name


def kind_of(arguments):
    """The kind of interlock that arguments name, and the other arguments. It lists the rules where --rule has no name."""
    if "--rule" in arguments:
        at = arguments.index("--rule")
        name = named("rule", arguments[at + 1 : at + 2], {it: words_ for it, (_, words_) in EXERCISES.items()})
        kinds, rest = [EXERCISES[name][0]], arguments[:at] + arguments[at + 2 :]
    else:
        kinds, rest = [], arguments
    kinds += [it[2:] for it in rest if it[:2] == "--" and it[2:] in KINDS[1:]]
    rest = [it for it in rest if it[:2] != "--" or it[2:] not in KINDS[1:]]
    return (kinds or [RIGHT])[0] if len(kinds) < 2 else None, rest


def records(path):
    """The records of a file, or of standard input for '-'. A byte order mark before the first one is left out."""
    try:
        with open(0 if path == "-" else path, newline="", encoding="utf-8-sig") as file:
            if file.isatty():
                print("it reads what you type; Ctrl-D ends", file=sys.stderr)
            return [it for it in csv.reader(file) if it]
    except OSError as why:
        sys.exit(f"{path}: {why.strerror}")
    except (UnicodeDecodeError, csv.Error) as why:
        sys.exit(f"{path}: this isn't a text of records: {why}")
