#!/usr/bin/env python3
"""Judges a log of an interlock that threads have called: looks for one legal history of all that they were told. Python 3.9 alone.

  exercises/judge.py LOG        - is standard input

The log's first line is 'start', ten digits for the places, and how many exchanges a call may lose. Each further line is a machine,
its call, how many exchanges the call lost, and its answer with the stamp, as play.py prints it:

  press,claim,z3,0,1 done
  table,claim,z1,2,4 busy 2

Each machine's lines are in its order; how those of different machines are mixed doesn't matter. The judge is bench/stress/check.py.
"""

import collections
import sys
from types import SimpleNamespace

import steps
from steps import MACHINES, call_of, words

import check
from model import SHUT

# The numbers of answers, by their words.
NUMBERS = {words(steps.DONE): steps.DONE}
for number in [*range(8, 137), *range(192, 256)]:
    if number >> 3 != SHUT or number & 7 < 4:
        NUMBERS.setdefault(words(number), number)


def note_of(call, lost, text):
    """A call and what it was told, as bench/stress/check.py reads it; None if the text is no answer."""
    stamp, _, answer = text.partition(" ")
    number = check.BUSY if answer == f"busy {lost}" else NUMBERS.get(answer)
    if number is None or not stamp.isdigit() or int(stamp) > steps.LAST_STAMP or lost > 64:
        return None
    return lost << 34 | call << 28 | number << 20 | int(stamp)


def judge(rows):
    """How many calls a log has, and what is wrong with it, or None."""
    begun = steps.start_of(rows[0]) if rows else None
    if not begun:
        return 0, "line 1: it isn't 'start', ten digits that make a start, and tries from 1 to 64"
    journals = [[] for _ in range(8)]
    for number, fields in enumerate(rows[1:], 2):
        machine, *call, lost, answer = fields if len(fields) > 3 else ("",) * 4
        call = call_of(call)
        note = note_of(call, int(lost), answer) if call is not None and lost.isdigit() else None
        if machine not in MACHINES or note is None:
            return number - 2, f"line {number}: it isn't a machine, its call, a number of lost exchanges, and an answer with its stamp"
        journals[MACHINES.index(machine)].append(note)
    (state, stamp), tries = begun
    plan = SimpleNamespace(full=state.full, stamp=stamp, tries=tries)
    try:
        check.check(plan, journals, collections.defaultdict(int, answers=collections.Counter()))
    except check.Wrong as wrong:
        return len(rows) - 1, str(wrong)
    return len(rows) - 1, None


def main():
    if {"-h", "--help"} & set(sys.argv[1:]):
        return print(__doc__)
    if len(sys.argv) != 2 or sys.argv[1].startswith("--"):
        sys.exit(__doc__)
    calls, wrong = judge(steps.records(sys.argv[1]))
    print(f"wrong: {wrong}" if wrong else f"{calls} calls: one legal history has them all")
    sys.exit(1 if wrong else 0)


if __name__ == "__main__":
    main()
