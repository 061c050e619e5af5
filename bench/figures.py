"""What the commands of this folder share: programs, inputs, what a run takes, and rows of the table in README.md."""

import os
import re
import resource
import shutil
import statistics
import subprocess
import sys
import time

HERE = os.path.dirname(os.path.realpath(__file__))
ROOT = os.path.dirname(HERE)
OUT = f"{HERE}/out"
COMMAND = f"bench/{os.path.basename(sys.argv[0])}"
PROCESSORS = sorted(os.sched_getaffinity(0))
HEAD = "| what | beside | instructions | time | memory | machine and load | command |\n" + "|---" * 7 + "|"
NONE = "–"
# Table, press, robot, belts and watch in turn. About half of these calls are Done, most others refused, some inquiries.
CALLS = """
table,claim,z1 table,claim,z2 table,pose,turning table,pose,loading table,release,z1
feed,claim,z1 feed,give,z1 feed,yield,z1 press,claim,z3 press,pose,travelling press,pose,middle press,release,z3
robot,claim,z3 watch,inquire,z3 robot,release,z3 deposit,claim,z4 deposit,pose,landing deposit,release,z4
feed,release,z1 crane,claim,z5 watch,inquire,z1 table,release,z2
""".split()
# How many entries the programs that audit look at in all.
AUDITED = 1_000_000

os.makedirs(OUT, exist_ok=True)


def usage():
    """Ends the command and says how it is called: on standard output and with status 0 for those who ask, else with 2."""
    asked = bool({*sys.argv[1:]} & {"-h", "--help"})
    print(sys.modules["__main__"].__doc__.strip("\n"), file=sys.stdout if asked else sys.stderr)
    sys.exit(0 if asked else 2)


def runs_asked(usual):
    """How many runs the command's one word asks for, or else as many as usual."""
    words = sys.argv[1:] or [str(usual)]
    if len(words) > 1 or not words[0].isdecimal() or not int(words[0]):
        usage()
    return int(words[0])


# Programs


def build(words, **how):
    """Runs this command, and ends where it fails."""
    if not shutil.which(words[0]):
        sys.exit(f"{COMMAND}: {words[0]} isn't on the path")
    status = subprocess.run(words, check=False, **how).returncode
    if status:
        sys.exit(f"{COMMAND}: {' '.join(words)}: status {status}")


def plain(name, *flags):
    """A program of plain/, built by rustc."""
    built = f"{OUT}/{'_'.join(['plain', name, *flags[1:]])}"
    build(["rustc", "--edition", "2024", "-O", *flags, "-o", built, f"{HERE}/plain/{name}.rs"])
    return built


def cell():
    """The program `cell` that PROGRAM names, or else that of the repository, which ./cell builds where it has to."""
    if "PROGRAM" in os.environ:
        return os.path.realpath(os.environ["PROGRAM"])
    build([f"{ROOT}/cell", "--help"], stdout=subprocess.DEVNULL)
    return f"{ROOT}/crates/cell/out/cell"


def link(source, to):
    if os.path.islink(to) and os.readlink(to) != source:
        os.remove(to)
    if not os.path.lexists(to):
        os.symlink(source, to)


def proved_program(name, libraries):
    """The program that the variable of this name in capitals names, or else that of proved/. Since that isn't part of
    the repository, it is proved and built in a copy, whose other crates are links, so that they are built once."""
    if name.upper() in os.environ:
        return os.path.realpath(os.environ[name.upper()])
    copy, crate = f"{OUT}/copy", f"bench_{name}"
    folder = f"{copy}/crates/{crate}"
    for part in ("src", "proofs"):
        shutil.rmtree(f"{folder}/{part}", ignore_errors=True)
    for it in os.listdir(f"{HERE}/proved/{name}"):
        # (the gate accepts sources and proofs only in crates, so these have other names here)
        function, *answers = it[:-4].split(".")
        proof = f"{folder}/proofs/{function}/{'Answers' if answers else 'Invariants'}.antt"
        to = f"{folder}/src/main.rt" if it == "main.txt" else proof
        os.makedirs(os.path.dirname(to), exist_ok=True)
        shutil.copy(f"{HERE}/proved/{name}/{it}", to)
    for it in os.listdir(f"{ROOT}/crates"):
        link(f"{ROOT}/crates/{it}", f"{copy}/crates/{it}")
    os.makedirs(f"{copy}/tools", exist_ok=True)
    for it in ("build", "building.py", "crates.py", "costs.txt"):
        shutil.copy(f"{ROOT}/tools/{it}", f"{copy}/tools/{it}")
    with open(f"{ROOT}/crates.txt", encoding="utf-8") as rows, open(f"{copy}/crates.txt", "w", encoding="utf-8") as to:
        to.write(f"{rows.read()}{crate}: {libraries}\n")
    build([f"{copy}/tools/build", crate])
    return f"{folder}/out/{crate}"


def auditors():
    """The programs that audit AUDITED entries."""
    return [proved_program("audit", "cell_report cell_rules cell_types")], [plain("audits")]


# Inputs


def write_input(name, text):
    """An input, as a file of out/."""
    with open(f"{OUT}/{name}", "w", encoding="ascii") as to:
        to.write(text)
    return to.name


def configuration(name, schedule):
    return write_input(name, f'start = "1010100010"\nschedule = "{schedule}"\n')


def letters(count):
    """A configuration of this many turns of all six machines, in an order that looks random. Four plates go round."""
    seed, schedule = 0, []
    for _ in range(count):
        seed = (seed * 75 + 74) % 65_537
        schedule.append("ftrpdc"[seed % 6])
    return configuration(f"letters_{count}.toml", "".join(schedule))


def records(count):
    """A script with this many records after the first."""
    calls = [CALLS[number % len(CALLS)] for number in range(count)]
    return write_input(f"records_{count}.csv", "\n".join(["start,0100000000", *calls, ""]))


# How the programs that audit do so: not at all, giving the events, or only looking for a fault.
NO_AUDIT, EVENTS, FAULT = range(3)


def entries(exponent, audit):
    """What the programs that audit read: the exponent of the number of entries, and how they audit."""
    return write_input(f"entries_{exponent}_{audit}", f"{exponent}{audit}")


# Runs


def output_of(words, source):
    """What a program writes. It has to succeed."""
    with open(source, "rb") as it:
        ran = subprocess.run(words, stdin=it, stdout=subprocess.PIPE, check=False)
    if ran.returncode:
        sys.exit(f"{COMMAND}: {' '.join(words)} < {source}: status {ran.returncode}")
    return ran.stdout


def numbers(words, source):
    """The numbers that a program writes."""
    return [*map(int, output_of(words, source).split())]


def compare(programs, source):
    """Ends the command where these don't write the same."""
    if len({output_of(words, source) for words in programs}) > 1:
        sys.exit(f"{COMMAND}: {' and '.join(' '.join(words) for words in programs)} differ on {source}")


def time_run(words, source, processors=None):
    """The nanoseconds of a run of the whole program, by the clock and of the processors. It has to succeed."""
    files = (source, os.O_RDONLY), (os.devnull, os.O_WRONLY)
    how = [(os.POSIX_SPAWN_OPEN, number, *file, 0) for number, file in enumerate(files)]
    os.sched_setaffinity(0, processors or PROCESSORS)
    begun = time.perf_counter_ns()
    _, status, used = os.wait4(os.posix_spawn(words[0], words, os.environ, file_actions=how), 0)
    took = time.perf_counter_ns() - begun
    os.sched_setaffinity(0, PROCESSORS)
    if status:
        sys.exit(f"{COMMAND}: {' '.join(words)} < {source}: status {status}")
    return took, (used.ru_utime + used.ru_stime) * 1e9


def in_turn(count, *calls):
    """What each of these functions gives in so many calls. They take turns, so that other work slows all."""
    return [*zip(*([call() for call in calls] for _ in range(count)))]


def times(count, runs, processors=None):
    """What `time_run` gives of each of these runs, in so many turns. A run has a program's words and its input."""
    return in_turn(count, *(lambda run=run: time_run(*run, processors) for run in runs))


def audits(count, programs, source):
    """The nanoseconds of so many runs of each of these programs that audit. They have to accept the same entries."""
    found = in_turn(count, *(lambda words=words: numbers(words, source) for words in programs))
    events = {(events, last) for runs in found for _, events, last in runs}
    if len(events) > 1 or not min(events)[0]:
        sys.exit(f"{COMMAND}: the audits of {source} find {events}")
    return [[took for took, *_ in runs] for runs in found]


def instructions(words, source):
    """The instructions of a run, which other work on the machine doesn't change; None without valgrind."""
    if not shutil.which("valgrind"):
        return None
    with open(source, "rb") as it:
        words = ["valgrind", "--tool=callgrind", "--callgrind-out-file=/dev/null", *words]
        ran = subprocess.run(words, stdin=it, stdout=subprocess.DEVNULL, stderr=subprocess.PIPE, check=True, text=True)
    return int(re.search(r"Collected : (\d+)", ran.stderr)[1])


def instructions_each(words, more, less, count):
    """The instructions of each of so many things that one input asks for and the other, if there is one, doesn't."""
    counts = [instructions(words, source) for source in (more, less) if source]
    return None if None in counts else (counts[0] - sum(counts[1:])) / count


def megabytes(words, source):
    """The peak memory, the median of nine runs; None without the command `time`."""
    if not shutil.which("time"):
        return None
    found, file = [], f"{OUT}/memory"
    for _ in range(9):
        with open(source, "rb") as it:
            subprocess.run(["time", "-o", file, "-f", "%M", *words], stdin=it, stdout=subprocess.DEVNULL, check=True)
        with open(file, encoding="ascii") as it:
            found.append(int(it.read()))
    return statistics.median(found) * 1024 / 1e6


# Rows


class Machine:
    """The machine, and its load from now on: how many processors other work keeps busy."""

    def __init__(self):
        self.begun = self.now()

    @staticmethod
    def now():
        """The clock, the seconds of all processors that were at work, and those of this command."""
        with open("/proc/stat", encoding="ascii") as it:
            user, nice, system, _, _, *interrupts = map(int, it.readline().split()[1:9])
        own = [resource.getrusage(who) for who in (resource.RUSAGE_SELF, resource.RUSAGE_CHILDREN)]
        busy = (user + nice + system + sum(interrupts)) / os.sysconf("SC_CLK_TCK")
        return time.monotonic(), busy, sum(it.ru_utime + it.ru_stime for it in own)

    def __str__(self):
        clock, busy, own = (now - begun for now, begun in zip(self.now(), self.begun))
        with open("/proc/cpuinfo", encoding="utf-8") as it:
            model = re.search(r"model name\s*: (.*)|$", it.read())[1] or "unknown"
        model = re.sub(r"\((R|TM)\)", "", model)
        return f"{len(PROCESSORS)} processors ({model}), load {max(busy - own, 0) / clock:.1f}"


def text_of(figure):
    return f"{figure:,.0f}" if figure >= 100 else f"{figure:.1f}" if figure >= 10 else f"{figure:.2f}"


def ratio(pair, unit):
    """A ratio and the two figures that it is of, which are None where there are none."""
    if None in pair:
        return NONE
    # (instructions are whole numbers)
    one, other = map("{:,.0f}".format if unit.startswith(("a ", "an ", "in ")) else text_of, pair)
    return f"{pair[0] / pair[1]:.2f}: {one} / {other} {unit}"


def row(machine, what, beside, instructions=NONE, time=NONE, memory=NONE):
    """Prints a row of the table."""
    print(f"| {what} | {beside} | {instructions} | {time} | {memory} | {machine} | `{COMMAND}` |", flush=True)
