#!/usr/bin/env python3
"""Gives plans and their scripts to the proved program `plan` and to its plain twin, plain/plan.py, and compares what they answer.

  bench/fuzz --plans NUMBER [--seed SEED] [--program PROGRAM]

Of NUMBER inputs some six in ten are documents for `plan check`, three are scripts for `plan replay` and one is for `plan explore`. The
seed decides them all: plan_inputs.py makes the plans, half of them with sensors, runs and waits, a third with calls that stop on some
refusals, most with sources and sinks; it spoils half of the documents by a fault of each kind, and changes some bytes.
PROGRAM is crates/plan/out/plan if absent, which ./plan builds.

Compared are the status, what `check` and `replay` print, byte by byte, but for which of two lines says of a plan's rows, and of a
fault its line and all its words. Of a document that is no TOML the fact alone is compared; one that only later versions of TOML accept isn't. Of an exploration
compared are a standstill's fewest turns, the number of situations, and what is said of each machine and of plates. Turns that are
printed are taken by the twin: those to a standstill have to lead to one, and in an order in which a machine starves it has to starve.
Bounds of turns aren't compared.

The last line says how many inputs were tried, and how many are answered in another way. The first of these is kept in
bench/out/fuzz_differs, and the status is then 1. It uses as many processes as PROCESSES says, or else two. It needs Python 3.11.
"""

import argparse
import collections
import multiprocessing
import os
import random
import re
import subprocess
import sys
import tempfile
import time

sys.dont_write_bytecode = True
HERE = os.path.dirname(os.path.realpath(__file__))
sys.path[:0] = [HERE, f"{HERE}/plain"]
import fuzz_end
import plan as twin
import plan_inputs

AT_ONCE = 100
# Of this many inputs, about one is about as long as it may be.
LONG_ONE_OF = 2000
MARKS = (b"\n", b"\r\n", b" ", b",", b"=", b"[", b"]", b"{", b"}", b".", b"#", b"_", b'"', b"'", b"\0", b"\xff", b"\xc3\xa9", b"start,1\n")


def change(r, text):
    """The bytes with a few changes, such as people and bad lines make."""
    text = bytearray(text)
    for _ in range(r.choice((1, 1, 2))):
        at, kind = r.randrange(len(text) + 1), r.randrange(5)
        if kind == 0:
            text[at : at + r.randrange(4)] = b""
        elif kind == 1:
            text[at:at] = r.choice(MARKS)
        elif kind == 2:
            text[at : at + 1] = bytes([r.randrange(256)])
        elif kind == 3:
            begin = r.randrange(len(text) + 1)
            text[at:at] = text[begin : begin + r.randrange(40)]
        else:
            lines = bytes(text).split(b"\n")
            lines[r.randrange(len(lines))] = r.choice(lines)
            text[:] = b"\n".join(lines)
    return bytes(text)


def lengthen(r, document, script):
    """A document or a script about as long as it may be."""
    if r.randrange(2):
        size = twin.DOCUMENT_BYTES + r.randrange(-1, 3)
        return document + b"\n#".ljust(size - len(document), b"x"), script
    first, _, rest = script.partition(b"\n")
    line = r.choice(rest.split(b"\n")) or b"watch,stop"
    return document, b"\n".join([first] + [line] * (twin.RECORDS + r.randrange(-1, 3)))


def make_input(seed, index):
    """What the program is asked, an input, and the lines of what stands in its document, if they are known."""
    r = random.Random(f"{seed} {index}")
    verb = r.choice(("check",) * 6 + ("replay",) * 3 + ("explore",))
    rows = plan_inputs.plan(r, verb == "explore" or verb == "check" and r.randrange(3) == 0)
    if verb == "explore" and (way := r.randrange(4)):
        (plan_inputs.rounds if way > 1 else plan_inputs.hand_over)(r, rows)
    if r.randrange(2):
        plan_inputs.drives(r, rows)
    if r.randrange(3) == 0:
        plan_inputs.faults(r, rows)
    script = b"" if verb == "check" and r.randrange(10) else plan_inputs.script(r, rows)
    for _ in range(r.choice((0, 1, 1, 2) if verb == "check" else (0,) * 20 + (1,))):
        plan_inputs.spoil(r, rows)
    document, lines = plan_inputs.document_text(r, rows)
    document = document.encode() + (b"" if document.endswith("\n") else b"\n")
    if verb == "check" and r.randrange(8) == 0:
        document, lines = change(r, document), None
    elif script and r.randrange(6) == 0:
        script = change(r, script)
        # (what begins in another way is a part of the document)
        lines = lines if script.startswith(b"start,") else None
    if r.randrange(LONG_ONE_OF) == 0 and (script or verb == "check"):
        document, script = lengthen(r, document, script)
    return verb, document + script, lines


def answer_by_twin(verb, text, lines):
    """What the twin answers, in pieces: the status, the fault of the document, the lines, and the chart of an exploration."""
    document, script = twin.split(text)
    if len(text) > twin.INPUT_BYTES:
        return 1, None, ["fault long"], None
    plan, fault = twin.plan_of(document, lines)
    if fault:
        return 1, fault, None, None
    if verb == "check":
        found = twin.checked(plan, script)
        return int(twin.plans.is_unkept(found)), None, found, None
    if verb == "replay":
        found, accepted = twin.replayed(plan, script)
        return 0 if accepted else 1, None, found, None
    chart, found = twin.explored(plan, script)
    return 1 if chart is None or twin.is_warning(found) else 0, None, found, chart


# What `check` says of a plan's rows, after the word's fields. The twin doesn't compile plans, so it can't say which.
OF_ROWS = ("rows: each call that is done has its row", "rows: some calls that are done may have none, and are answered more slowly")


def without_rows(words):
    """A report without its line of rows; as it is, where that line isn't there once, after the fields."""
    places = [at for at, it in enumerate(words) if it in OF_ROWS]
    if len(places) != 1 or not re.fullmatch(r"bit \d+, 1 bit: stop", words[places[0] - 1]):
        return words
    return words[: places[0]] + words[places[0] + 1 :]


def differences(verb, text, lines, wanted, status, said):
    """What differs between the twin's answer and the program's, in words; nothing if they agree."""
    wanted_status, fault, found, chart = wanted
    words = said.decode(errors="replace").splitlines()
    if status != wanted_status:
        return [f"status {status}, not {wanted_status}"]
    if fault:
        told = twin.fault_said(words[0] if words else "", lines)
        return [] if told == fault else [f"{told}, not {fault}"]
    if verb == "check" and found != ["fault long"]:
        words = without_rows(words)
    if verb != "explore" or chart is None:
        differing = [f"{one!r}, not {other!r}" for one, other in zip(words, found) if one != other]
        return [] if words == found else differing[:1] or [f"{len(words)} lines, not {len(found)}"]
    told, wrong = twin.explored_said(chart, words)
    return wrong + ([] if told == found else [f"{told}, not {found}"])


def is_later_toml(wanted, status, said):
    """Whether only the twin, which reads TOML 1.0, takes an input for no TOML."""
    return wanted[1] == ("toml",) and not re.match(rb"fault plan line \d+: this isn't TOML", said)


def kind_of(verb, wanted):
    """What an input was answered."""
    status, fault, found, chart = wanted
    if fault:
        return f"{verb}: fault {twin.kind_of(fault[1])[0] if fault[0] == 'row' else fault[0]}"
    drives = [it for it in found if it.startswith("drives: ") or twin.plans.UNDRIVEN.match(it)] if verb == "check" else []
    if drives:
        return f"check: {'drives' if drives[0].startswith('drives') else 'undriven'}"
    last = found[-1].split()
    if last[0] == "fault":
        return f"{verb}: {' '.join(last[:2])}"
    return f"{verb}: {' '.join(found[0].split()[:2])}" if chart else f"{verb}: answered"


def ask(program, verb, file, text):
    """The program's status and output."""
    os.ftruncate(file, 0)
    os.pwrite(file, text, 0)
    os.lseek(file, 0, os.SEEK_SET)
    ran = subprocess.run([program, verb], stdin=file, stdout=subprocess.PIPE, stderr=subprocess.DEVNULL)
    return ran.returncode, ran.stdout


def try_inputs(job):
    """What some inputs came to: how many of each kind, and those that differ."""
    seed, first, end, program = job
    kinds, differing = collections.Counter(), []
    with tempfile.TemporaryFile(dir="/dev/shm" if os.path.isdir("/dev/shm") else None) as it:
        for index in range(first, end):
            verb, text, lines = make_input(seed, index)
            try:
                wanted = answer_by_twin(verb, text, lines)
            except twin.TooLarge:
                kinds["explore: too many situations for the twin"] += 1
                continue
            status, said = ask(program, verb, it.fileno(), text)
            if is_later_toml(wanted, status, said):
                kinds[f"{verb}: not compared, no TOML 1.0"] += 1
                continue
            kinds[kind_of(verb, wanted)] += 1
            wrong = differences(verb, text, lines, wanted, status, said)
            if wrong:
                differing.append((index, verb, wrong))
    return kinds, differing


def main():
    """Tries all inputs, and says what differs."""
    reader = argparse.ArgumentParser(prog="bench/fuzz", description=__doc__, formatter_class=argparse.RawDescriptionHelpFormatter)
    reader.add_argument("--plans", type=int, required=True, metavar="NUMBER", help=argparse.SUPPRESS)
    reader.add_argument("--seed", default="1", help=argparse.SUPPRESS)
    reader.add_argument("--program", help=argparse.SUPPRESS)
    given = reader.parse_args()
    program = os.path.realpath(given.program or f"{HERE}/../crates/plan/out/plan")
    os.makedirs(fuzz_end.OUT, exist_ok=True)
    if not given.program and subprocess.run([f"{HERE}/../plan", "--help"], stdout=subprocess.DEVNULL).returncode:
        # (it has said why)
        sys.exit(1)
    begun = time.monotonic()
    jobs = [(given.seed, first, min(first + AT_ONCE, given.plans), program) for first in range(0, given.plans, AT_ONCE)]
    results = []
    with multiprocessing.Pool(int(os.environ.get("PROCESSES", "2"))) as pool:
        for result in pool.imap_unordered(try_inputs, jobs):
            results.append(result)
            if len(results) % 50 == 0:
                differing = sum(len(it) for _, it in results)
                print(f"fuzz: {len(results) * AT_ONCE} inputs, {differing} differ", file=sys.stderr, flush=True)
    line_of = lambda index, verb, wrong: f"input {index}, {verb}: {'; '.join(wrong)}"
    fuzz_end.finish(results, given.seed, begun, line_of, lambda index: make_input(given.seed, index)[1])


if __name__ == "__main__":
    main()
