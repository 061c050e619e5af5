#!/usr/bin/env python3
"""Plays steps or a script on the interlock, and says what each caller was told. It needs Python 3.9 alone.

  exercises/play.py FILE [KIND] [--words] [--laws]   a steps.csv, or a script as in examples/; - is standard input
  exercises/play.py --class PLACES TRIES [KIND]      one step a line as you type it: each student is a machine, one sits at the keys

KIND is a wrong interlock: --rule NAME is that of the exercise NAME, and --rule alone lists them. A script is answered by rules of the
interlock; --laws says below its answers which calls broke a law. Four are wrong in steps: --store (plain-store) puts each word there,
whatever is there now; --word-per-pass gives each caller a word of its own; --busy-after-one gives a call up after its first lost
exchange; --accept-forgets answers by the word that a caller found last, if that refuses the call or answers an inquiry, and forgets
what the caller was told by others. --words adds the word after each step, as
docs/MODEL.md has its bits. In a class a line is such as 'press look claim z3', 'press attempt', 'press ask claim z3', 'press tell robot'
or 'press meet robot'. 'seen' shows what each has been told. After each step it looks for one legal history of all answers. What is no
step or no call, and why, is said on standard error.
"""

import sys

import steps
from rules import RULES, broken_law
from steps import CALLS, DONE, LAST_STAMP, LETTER, MACHINES, RIGHT, State, SystemState, Told
from steps import answer_words, call_of, fault_of, first_equal, reply_at, words


# What a line is answered that is none.
NO_STEP = ("no machine", "no step")
STEPS = ("ask", "look", "attempt", "meet", "tell")


class Play:
    """A state of word and callers, and what each caller was told."""

    def __init__(self, kind, word, tries):
        self.word, self.tries = word, tries
        self.state = SystemState.start(kind, word, tries)
        self.journals = [(machine, []) for machine in range(7)]

    def step(self, fields):
        """Takes the step of a line, and answers what it says of it."""
        if not fields or fields[0] not in MACHINES:
            return "no machine"
        machine = MACHINES.index(fields[0])
        step, call = fields[1] if len(fields) > 1 else "", call_of([it for it in fields[2:4] if it])
        pending = self.state.held[machine]
        if step == "ask" and call is not None and not pending:
            return self.after("", machine, *self.state.ask(machine, call))
        if step == "look" and call is not None and not pending:
            return self.after("pending", machine, *self.state.look(machine, call))
        if step == "attempt" and call is None and pending:
            return self.after("lost", machine, *self.state.attempt(machine))
        if step in ("meet", "tell") and call is None and not pending and len(fields) > 2 and fields[2] in MACHINES:
            other = MACHINES.index(fields[2])
            if other != machine and not self.state.held[other]:
                return self.meet(machine, other) if step == "meet" else self.tell(machine, other)
        return "no step"

    def why_no_step(self, fields):
        """Why a line is no step now."""
        name, step, *rest = [*fields, "", ""][: max(len(fields), 2)]
        if name not in MACHINES:
            return steps.why_no_machine(name)
        if step not in STEPS:
            return f'"{step}" is no step: {", ".join(STEPS)}'
        pending = self.state.held[MACHINES.index(name)]
        if pending and step != "attempt":
            return f"{name} has a call pending: {name} attempt"
        if step in ("ask", "look"):
            return steps.why_no_call([it for it in rest if it])
        if step == "attempt":
            return "nothing is pending: look first" if not pending else "an attempt is of the call that is pending, and names none"
        if not rest or rest[0] not in MACHINES:
            return steps.why_no_machine(rest[0] if rest else "")
        if rest[0] == name:
            return f"{name} can't {step} itself"
        return f"{rest[0]} has a call pending: {rest[0]} attempt"

    def tell(self, machine, other):
        """A receipt of the machine goes to the other."""
        self.journals[other][1].append(Told(None, LETTER, self.stamp_seen_by(machine), 0))
        return "told"

    def meet(self, machine, other):
        """Each tells the other, and loads."""
        self.tell(machine, other)
        self.tell(other, machine)
        self.state = self.state.with_last_found(machine, None).with_last_found(other, None)
        return "met"

    def stamp_seen_by(self, machine):
        """The stamp that the machine has seen."""
        return max((it.stamp for it in self.journals[machine][1]), default=self.word[1])

    def after(self, untold, machine, state, told):
        """Goes on in this state, and answers what the caller was told, if anything."""
        self.state = state
        if told is None:
            return untold
        self.journals[machine][1].append(told)
        return answer_words(told)

    def text_of_word(self, fields):
        """The word that the machine of a line has now."""
        return steps.text_of(self.state.word(MACHINES.index(fields[0]))) if fields and fields[0] in MACHINES else ""


def note(notes, number, fields, why):
    """Adds what is wrong with a record to the notes, if there are notes."""
    if notes is not None:
        notes.append(f"record {number}, {','.join(fields)}: {why}")


def play_steps(rows, kind, with_words, notes=None):
    """The lines that steps are answered with, or None if the first row is no start. Why a line is no step goes into `notes`."""
    begun = steps.start_of(rows[0])
    if not begun:
        return None
    play, lines = Play(kind, *begun), []
    for number, fields in enumerate(rows[1:], 1):
        answer = play.step(fields)
        if answer in NO_STEP:
            note(notes, number, fields, play.why_no_step(fields))
        line = f"{number} {answer}"
        lines.append(f"{line:<32} {play.text_of_word(fields)}" if with_words else line)
    return lines


def why_no_record(fields, call):
    """Why a script has no such record."""
    if fields[0] not in MACHINES:
        return steps.why_no_machine(fields[0])
    return steps.why_no_call(fields[1:]) if call is None else f"only a script that begins with start2 has {CALLS[call]}"


def play_script(rows, with_words=False, kind=RIGHT, broken=None, notes=None):
    """The lines that a script is answered with (docs/FORMATS.md), and whether it is accepted.

    The laws that its calls break go into the list `broken`, with the number of the line; why it isn't accepted, into `notes`.
    """
    if not rows or rows[0][0] not in ("start", "start2"):
        note(notes, 0, (rows or [[]])[0], "a script begins with a line such as start,0000000000 (or start2, if it stops the cell)")
        return ["fault nostart"], False
    version, *rest = rows[0]
    digits, first = rest[0] if rest else "", rest[1] if len(rest) == 2 else "0"
    is_start = len(rest) in (1, 2) and len(digits) == 10 and not set(digits) - set("01")
    state = State.start([it == "1" for it in digits]) if is_start else None
    if state is None or not (first.isascii() and first.isdigit()) or len(first) > 7 or int(first) > LAST_STAMP:
        is_stamp = state is not None or len(rest) > 2
        why = f"after the places stands a stamp, from 0 to {LAST_STAMP}, or nothing" if is_stamp else steps.why_no_start(digits)
        note(notes, 0, rows[0], why)
        return ["fault badstart"], False
    word = (first_equal(state), int(first))
    lines = [f"0 {word[1]} {version} {state.plates()}"]
    for number, fields in enumerate(rows[1:], 1):
        call = call_of(fields[1:])
        if fields[0] not in MACHINES or call is None or version == "start" and CALLS[call] in ("stop", "resume"):
            note(notes, number, fields, why_no_record(fields, call))
            return [*lines, f"fault badrow {number}"], False
        machine, before = MACHINES.index(fields[0]), word[0]
        answer, word = reply_at(word, machine, call, kind)
        law = broken_law(before, machine, call, word[0]) if answer == DONE else None
        if law and broken is not None:
            broken.append(f"# line {number}, {','.join(fields)}, breaks {law}")
        line = f"{number} {word[1]} {words(answer)}"
        lines.append(f"{line:<32} {steps.text_of(word)}" if with_words else line)
    return lines, True


def is_steps(rows):
    """Whether these are steps, and not a script's calls."""
    return any(len(it) > 1 and it[1] in ("ask", "look", "attempt", "meet", "tell") for it in rows[1:])


def play_class(play):
    """Plays what is typed, line by line."""
    prompt, number = "> " if sys.stdin.isatty() else "", 0
    if prompt:
        print("press look claim z3, press attempt, ..; seen shows what each was told; Ctrl-D ends", file=sys.stderr)
    while True:
        print(prompt, end="", flush=True)
        line = sys.stdin.readline()
        fields = line.replace(",", " ").lower().split()
        if not line:
            return
        if fields == ["seen"]:
            for machine, journal in play.journals:
                for told in journal:
                    what = f"{'was told of':<16} {told.stamp}" if told.answer == LETTER else f"{CALLS[told.call]:<16} {answer_words(told)}"
                    print(f"    {MACHINES[machine]:<8} {what}")
        elif fields:
            answer = play.step(fields)
            if answer in NO_STEP:
                print(f"    {play.why_no_step(fields)}")
                continue
            number += 1
            print(f"{number} {answer}\n    word {play.text_of_word(fields)}")
            fault = fault_of(play.word, play.tries, play.journals)
            if fault:
                print(f"    no legal history: {fault}")


def main():
    if {"-h", "--help"} & set(sys.argv[1:]):
        return print(__doc__)
    kind, arguments = steps.kind_of(sys.argv[1:])
    rest = [it for it in arguments if it not in ("--words", "--laws", "--class")]
    is_class, with_words, with_laws = (it in arguments for it in ("--class", "--words", "--laws"))
    if kind is None or len(rest) != (2 if is_class else 1) or any(it.startswith("--") for it in rest):
        sys.exit(__doc__)
    if is_class:
        begun = steps.start_of(["start", *rest])
        if not begun:
            sys.exit("PLACES is ten digits, 0 or 1, that make a start, and TRIES from 1 to 64, as in --class 0000000000 2")
        return play_class(Play(kind, *begun))
    rows, accepted, broken, notes = steps.records(rest[0]), True, [], []
    if is_steps(rows) and with_laws:
        sys.exit("--laws is for scripts, and these are steps")
    if is_steps(rows):
        lines = play_steps(rows, kind, with_words, notes)
        if lines is None:
            sys.exit("the first line isn't 'start', ten digits that make a start, and tries from 1 to 64, as in start,0000000000,8")
    elif kind != RIGHT and kind not in RULES:
        sys.exit('a script has no steps, so no word can be wrong in it; exercises/README.md, "Steps", says how one writes steps')
    else:
        lines, accepted = play_script(rows, with_words, kind, broken, notes)
    laws = broken or ["# no law is broken"] * accepted
    print("\n".join(lines + laws * with_laws), flush=True)
    if notes:
        print("\n".join(notes), file=sys.stderr)
    sys.exit(0 if accepted else 1)


if __name__ == "__main__":
    try:
        main()
    except BrokenPipeError:
        sys.stdout = None
        sys.exit(1)
