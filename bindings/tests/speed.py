"""Measures calls by bagunjoki.h beside a word in plain C."""

import os
import re
import shutil
import subprocess
import tempfile

# The letters of speed.c: ours, and what stands beside it.
ROWS = [
    ("a call that is done", "o", "p", "plain C"),
    ("a call that is done", "o", "t", "plain C that tests its word"),
    ("a call that is refused", "O", "P", "plain C"),
    ("a call that is refused", "O", "T", "plain C that tests its word"),
]


def output_of(words):
    return subprocess.run(words, stdout=subprocess.PIPE, stderr=subprocess.STDOUT, text=True, check=True).stdout


def instructions(program, letter):
    """How many instructions a call takes, over those of the program's start."""
    if not shutil.which("valgrind"):
        return None
    words = ["valgrind", "--tool=callgrind", "--callgrind-out-file=/dev/null", program]
    counts = [int(re.search(r"Collected : (\d+)", output_of([*words, *more]))[1]) for more in ([letter], [letter, "twice"])]
    return (counts[1] - counts[0]) / 1_000_000


def processor():
    with open("/proc/cpuinfo", encoding="utf-8") as it:
        return re.search(r"model name\s*: (.*)", it.read())[1]


def run(root, prefix):
    """Prints the rows of bench/README.md: what, beside, instructions, time."""
    print(f"{len(os.sched_getaffinity(0))} processors ({processor()}), load {os.getloadavg()[0]:.1f}")
    print("| what | beside | compiler | instructions | time |\n|---|---|---|---|---|")
    with tempfile.TemporaryDirectory() as room:
        for compiler in filter(shutil.which, ("gcc", "clang")):
            program = f"{room}/{compiler}"
            words = [compiler, "-std=c11", "-O2", f"-I{prefix}/include", f"{root}/bindings/tests/speed.c"]
            output_of([*words, f"{prefix}/lib/libbagunjoki.a", "-o", program])
            times = dict(re.findall(r"^(\w) ([\d.]+)", output_of([program]), re.M))
            for what, ours, other, beside in ROWS:
                time = [float(times[it]) for it in (ours, other)]
                cost = [instructions(program, it) for it in (ours, other)]
                counted = "–" if None in cost else f"{cost[0] / cost[1]:.2f}: {cost[0]:.0f} / {cost[1]:.0f}"
                timed = f"{time[0] / time[1]:.2f}: {time[0]:.1f} / {time[1]:.1f} ns"
                print(f"| {what} | {beside} | {compiler} | {counted} | {timed} |", flush=True)
    return 0
