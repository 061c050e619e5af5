"""Tries the library with the compilers and the versions of Python that are there."""

import glob
import itertools
import os
import re
import shutil
import subprocess
import sys
import tempfile
import time

import plans

STRICT = ["-O2", "-Wall", "-Wextra", "-Werror", "-pedantic"]
C, CPP = ["-std=c11", *STRICT], ["-std=c++11", *STRICT]
STRICT_TSAN = {"TSAN_OPTIONS": "halt_on_error=1 exitcode=66"}
PYTHONS = range(9, 30)
PLANTS = [("PLANTED", "a plain store", []), ("PLANTED_RENEWAL", "a plain renewal", ["renewals"])]
PLANTS += [("PLANTED_LATE", "answers from the word of the call before", [])]
# By hand: 1,048,575 changes until a word is worn, and one of eight of them for each time that a call is busy.
SETTLED = """left alone: answer 0, 0 lost, stamp 1
overtaken by 1000: answer 0, 1000 lost, stamp 1001
overtaken by all: answer 13, 1048575 lost, stamp 1048575
at the last stamp: answer 13, 0 lost, stamp 1048575
renewed: answer 0, 1049575 lost, stamp 1
asked with 8 tries: 131071 times busy, then answer 13, 1048575 lost
"""
INTERIOR = """press claims: answer 0, owner 0, posture 0, stamp 1
robot claims: answer 2, owner 4, posture 0, stamp 1
press releases: answer 0, owner 0, posture 0, stamp 2
robot claims: answer 4, owner 0, posture 0, stamp 2
watch inquires: answer 32, owner 0, posture 0, stamp 2
renewed, press claims: answer 0, owner 0, posture 0, stamp 1
"""
NO_CALLS = ["'press', 'clam', 'z3'", "'free', 'claim', 'z3'", "'press', 'claim'", "'press', 'advance', 'z3'"]
NO_CALLS += ["8, 1, 3", "4, 'claim', 7", "0, 'claim', 3", "4, 'claim', Machine.ROBOT"]
RENEWALS = """from bagunjoki import *
cell, worn = Word(stamp=LAST_STAMP - 1, renews=True), Word(stamp=LAST_STAMP)
print(*(cell.ask('press', it, 'z3') for it in ('claim', 'release', 'claim')), cell.stamp)
print(worn.ask('press', 'claim', 'z3'))
worn.restamp(7)
print(worn.ask('press', 'claim', 'z3'), worn.stamp)
for stamp in (-1, LAST_STAMP + 1):
    try:
        worn.restamp(stamp)
    except ValueError:
        print(worn.stamp)
"""
SHOWN = """zone z1 free 0 closed
zone z2 free 0 closed
zone z3 press 0 closed
zone z4 free 0 closed
zone z5 free 0 closed
zone z6 free 0 closed
places 0000000000
stamp 1 plates 0 stopped 0
word 0x0000010000000400
                   000  unused
                     0  mark
  00000000000000000001  stamp     1
            0000000000  p10 to p1
                 00000  z6        free closed
                 00000  z5        free closed
                 00000  z4        free closed
                 00001  z3        press closed
                 00000  z2        free closed
                 00000  z1        free closed
"""


class Failed(Exception):
    """A trial that shows something wrong."""


class Trials:
    """Runs trials one after another, and counts them."""

    def __init__(self, root, prefix, room):
        self.root, self.prefix, self.room, self.here = root, prefix, room, f"{root}/bindings"
        self.passed, self.failed, self.absent = 0, 0, []
        self.numbers = itertools.count()

    def attempt(self, what, trial, *given):
        """Runs a trial, and says what came of it."""
        begun = time.monotonic()
        try:
            said = trial(*given)
        except Failed as failed:
            self.failed += 1
            print(f"FAILED  {what}: {failed}", flush=True)
        else:
            self.passed += 1
            print(f"passed  {what}, {time.monotonic() - begun:.0f} s{said and ': ' + said}", flush=True)

    def run(self, words, source="", status=0, **environment):
        """What a program writes, if its status is the one that is wanted."""
        how = {"stdout": subprocess.PIPE, "stderr": subprocess.STDOUT, "text": True, "check": False, "input": source}
        ran = subprocess.run(words, env={**os.environ, **environment}, **how)
        if status is not None and ran.returncode != status:
            raise Failed(f"{' '.join(words)}: status {ran.returncode}\n{ran.stdout}")
        return ran.stdout

    def compile(self, compiler, source, *flags, library="bagunjoki"):
        """A program of this source, over the library."""
        to = f"{self.room}/{next(self.numbers)}_{os.path.basename(source).partition('.')[0]}"
        language = CPP if compiler in ("g++", "clang++") else C
        its_own = ["-pthread", *flags, f"-I{self.prefix}/include", f"{self.here}/{source}", "-x", "none"]
        self.run([compiler, *language, *its_own, f"{self.prefix}/lib/lib{library}.a", "-o", to])
        return to

    def fail(self, what):
        """Ends a trial that shows something wrong."""
        raise Failed(what)

    def there(self, *programs):
        """Those of the programs that are there; the others are noted."""
        self.absent += [it for it in programs if not shutil.which(it)]
        return [it for it in programs if shutil.which(it)]


def wants(found, wanted):
    """Compares a text."""
    if found != wanted:
        raise Failed(f"it writes\n{found}and not\n{wanted}")
    return ""


# Examples


def example_in_c(trials, compiler, source):
    return wants(trials.run([trials.compile(compiler, source)]), INTERIOR)


def example_by_pkg_config(trials):
    """As a user compiles it, with the shared library."""
    found = {"PKG_CONFIG_PATH": f"{trials.prefix}/lib/pkgconfig"}
    said = trials.run(["pkg-config", "--cflags", "--libs", "bagunjoki"], **found)
    to = f"{trials.room}/by_pkg_config"
    trials.run(["cc", f"{trials.here}/examples/interior.c", *said.split(), "-o", to])
    return wants(trials.run([to], LD_LIBRARY_PATH=f"{trials.prefix}/lib"), INTERIOR)


def example_in_rust(trials):
    """The crate for cargo, by rustc alone: a machine may have no cargo."""
    shared = {"LD_LIBRARY_PATH": f"{trials.prefix}/lib"}
    wants(trials.run([by_rustc(trials, "examples/interior", "bagunjoki")], **shared), INTERIOR)
    of_plans = {"examples/plan_press": plans.PRESS, "tests/plan_ends": plans.ENDS_IN_RUST}
    for source, wanted in of_plans.items():
        wants(trials.run([by_rustc(trials, source, "bagunjoki", "bagunjoki_plan")], **shared), wanted)
    return ""


def by_rustc(trials, source, *libraries):
    """A program over the crate, which is compiled for these libraries."""
    to, words = f"{trials.room}/{os.path.basename(source)}_in_rust", ["rustc", "-O", "--edition", "2021", "-L", f"{trials.prefix}/lib", "-L", trials.room]
    crate = ["--crate-name", "bagunjoki", "--crate-type", "rlib", f"{trials.here}/rust/src/lib.rs"]
    crate += ["--cfg", 'feature="plan"'] if "bagunjoki_plan" in libraries else []
    trials.run([*words, *crate, "-o", f"{trials.room}/libbagunjoki.rlib"])
    links = [f"-ldylib={it}" for it in libraries]
    trials.run([*words, f"{trials.here}/{source}.rs", "--extern", "bagunjoki", *links, "-o", to])
    return to


def example_by_cargo(trials):
    words = ["cargo", "run", "--quiet", "--offline", "--manifest-path", f"{trials.here}/rust/Cargo.toml", "--example", "interior"]
    where = {"BAGUNJOKI_PREFIX": trials.prefix, "CARGO_TARGET_DIR": f"{trials.room}/cargo", "LD_LIBRARY_PATH": f"{trials.prefix}/lib"}
    wants(trials.run(words, **where), INTERIOR)
    wants(trials.run(words, **where, BAGUNJOKI_STATIC="1"), INTERIOR)
    return wants(trials.run([*words[:-2], "--features", "plan", "--example", "plan_press"], **where), plans.PRESS)


def example_by_wheel(trials):
    """The module from a wheel that carries the library, in an environment that has nothing else."""
    wheels, home = f"{trials.room}/wheels", f"{trials.room}/environment"
    library = {it.upper(): f"{trials.prefix}/lib/lib{it}.so" for it in ("bagunjoki", "bagunjoki_plan")}
    trials.run([sys.executable, "-m", "pip", "wheel", "--quiet", "--no-index", "-w", wheels, trials.here], **library)
    trials.run([sys.executable, "-m", "venv", home])
    trials.run([f"{home}/bin/python", "-m", "pip", "install", "--quiet", "--no-index", *glob.glob(f"{wheels}/*.whl")])
    wants(trials.run([f"{home}/bin/python", f"{trials.here}/examples/interior.py"]), INTERIOR)
    return scripts(trials, [f"{home}/bin/python", "-m", "bagunjoki", "--answers"])


def press_in_c(trials, compiler):
    """The motor of examples/press.c is told the same as that of the crate press_by_hand."""
    crate = f"{trials.root}/crates/press_by_hand"
    program = trials.compile(compiler, "examples/press.c")
    with open(f"{crate}/stdin", encoding="ascii") as lines, open(f"{crate}/stdout", encoding="ascii") as answers:
        found = trials.run([program], lines.read())
        wanted = [it for it in answers.read().split("\n") if not it.endswith("calls")]
    first = lambda lines: "".join(re.match(r"\w*", it)[0] + "\n" for it in lines)
    return wants(first(found.split("\n")), first(wanted))


def settled(trials, compiler, *flags):
    """How many exchanges a call loses until it is answered, while others make all the changes that a word takes."""
    library = "bagunjoki_plan" if flags else "bagunjoki"
    return wants(trials.run([trials.compile(compiler, "tests/settle.c", *flags, library=library)]), SETTLED)


# Scripts


def scripts(trials, words, **environment):
    """Each script of examples/, answered as there."""
    count = 0
    for script in sorted(glob.glob(f"{trials.root}/examples/*.csv")):
        with open(script, encoding="utf-8") as it, open(f"{script[:-4]}.out", encoding="utf-8") as answers:
            wanted = answers.read()
            wants(trials.run(words, it.read(), int("\nfault" in f"\n{wanted}"), **environment), wanted)
        count += 1
    if not count:
        raise Failed("there are no scripts")
    return f"{count} scripts"


def scripts_in_c(trials, compiler):
    return scripts(trials, [trials.compile(compiler, "tests/replay.c")])


def as_in_plain_c(trials, compiler):
    return trials.run([trials.compile(compiler, "tests/speed.c"), "agree"])


def python(trials, version):
    """Example, scripts, the table of a state, renewals, the session of docs/FROM_C.md, what is no call, and no library."""
    module = {"PYTHONPATH": f"{trials.prefix}/lib/python", "PYTHONDONTWRITEBYTECODE": "1", "PYTHONWARNINGS": "error"}
    wants(trials.run([version, f"{trials.here}/examples/interior.py"], **module), INTERIOR)
    shows = "from bagunjoki import Word; cell = Word(); cell.ask('press', 'claim', 'z3'); cell.show()"
    wants(trials.run([version, "-c", shows], **module), SHOWN)
    wants(trials.run([version, "-c", RENEWALS], **module), "done done done 2\nworn\ndone 8\n8\n8\n")
    plans.records_in_python(trials, version, module)
    session = "import doctest, sys; sys.exit(doctest.testfile(sys.argv[1], module_relative=False).failed)"
    trials.run([version, "-c", session, f"{trials.root}/docs/FROM_C.md"], **module)
    for call in NO_CALLS:
        said = trials.run([version, "-c", f"from bagunjoki import *; Word().ask({call})"], status=1, **module)
        if "ValueError" not in said:
            raise Failed(f"ask({call}): {said}")
    for environment in ({"BAGUNJOKI": "/absent"}, {"BAGUNJOKI": f"{trials.here}/bagunjoki.py"}):
        said = trials.run([version, "-m", "bagunjoki"], status=2, **module, **environment)
        if said.count("\n") != 1 or "library" not in said:
            raise Failed(f"without a library: {said}")
    return scripts(trials, [version, "-m", "bagunjoki", "--answers"], **module)


def plans_in_python(trials, version, program):
    """The modules of the example plans answer their scripts as there."""
    module = {"PYTHONPATH": f"{trials.prefix}/lib/python", "PYTHONDONTWRITEBYTECODE": "1", "PYTHONWARNINGS": "error"}
    count = 0
    for plan in sorted(glob.glob(f"{trials.root}/examples/plans/*.toml")):
        with open(plan, encoding="utf-8") as it, open(f"{trials.room}/its_plan.py", "w", encoding="ascii") as to:
            to.write(trials.run([program, "header", "--python"], it.read()))
        with open(f"{plan[:-5]}.csv", encoding="utf-8") as it, open(f"{plan[:-5]}.out", encoding="utf-8") as answers:
            wants(trials.run([version, f"{trials.room}/its_plan.py", "--answers"], it.read(), **module), answers.read())
        count += 1
    return f"{count} plans"


def pythons():
    """Each version of Python from 3.9 on, also those of pyenv."""
    found = {}
    paths = [shutil.which(it) for it in (*(f"python3.{it}" for it in PYTHONS), sys.executable)]
    for path in paths + sorted(glob.glob(os.path.expanduser("~/.pyenv/versions/3.*/bin/python3"))):
        if path:
            words = [path, "-c", "import sys; print(*sys.version_info[:2])"]
            how = {"stdout": subprocess.PIPE, "stderr": subprocess.DEVNULL, "text": True, "check": False}
            version = tuple(map(int, subprocess.run(words, **how).stdout.split()))
            if version >= (3, PYTHONS[0]):
                found.setdefault(version, path)
    return [(f"{major}.{minor}", path) for (major, minor), path in sorted(found.items())]


# Loads


def verdict_of(trials, program, calls, most, ways, status=0, **environment):
    """What check.py says of this number of calls, or renewals.py if the word is renewed."""
    judge = f"{trials.here}/tests/renewals.py" if "renewals" in ways else f"{trials.root}/bench/stress/check.py"
    words = [sys.executable, "-B", judge, "1", str(calls), str(most), program, *ways]
    return trials.run(words, status=status, **environment)


def load(trials, program, calls, ways, **environment):
    """About this number of calls, of which check.py makes one legal history."""
    said = verdict_of(trials, program, calls, min(420_000, calls), ways, **environment).strip().split("\n")
    return "; ".join(said[-2:] if "renewals" in ways else said[-1:])


def find_bug(trials, program, ways):
    """A planted bug has to be found."""
    said = verdict_of(trials, program, 1_000_000, 70_000, ways, status=1)
    if not re.search(r"^wrong, in", said, re.M):
        raise Failed(f"check.py says\n{said}")
    return "it was found"


def wear_often(trials, program, rounds, least, **environment):
    """Stamps begin again several times, and no call is worn."""
    said = trials.run([program, str(rounds)], **environment).strip()
    if int(re.search(r"(\d+) renewals", said)[1]) < least:
        raise Failed(f"there are too few renewals: {said}")
    return said


def under_sanitizer(trials, compiler, which, calls):
    """Scripts and a load under a sanitizer, which sees what is compiled here, and not within the library."""
    flags = ["-g", "-fno-omit-frame-pointer", f"-fsanitize={which}", "-fno-sanitize-recover=all"]
    replay = trials.compile(compiler, "tests/replay.c", *flags)
    stress = trials.compile(compiler, "tests/stress.c", *flags)
    wear = trials.compile(compiler, "tests/wear.c", *flags)
    scripts(trials, [replay])
    wear_often(trials, wear, 100_000, 1, **STRICT_TSAN)
    return load(trials, stress, calls, ["renewals"], **STRICT_TSAN)


def can_sanitize(compiler, which):
    words = [compiler, f"-fsanitize={which}", "-x", "c", "-", "-o", "/dev/null"]
    how = {"input": b"int main(void) { return 0; }", "stderr": subprocess.DEVNULL, "check": False}
    return subprocess.run(words, **how).returncode == 0


# All


def in_all_languages(trials, compilers):
    """Examples and scripts."""
    for compiler in compilers:
        trials.attempt(f"interior.c by {compiler}", example_in_c, trials, compiler, "examples/interior.c")
        trials.attempt(f"press.c by {compiler}", press_in_c, trials, compiler)
        trials.attempt(f"settle.c by {compiler}", settled, trials, compiler)
        trials.attempt(f"scripts by replay.c, {compiler}", scripts_in_c, trials, compiler)
        trials.attempt(f"40,000,000 calls as in plain C, {compiler}", as_in_plain_c, trials, compiler)
    for compiler in trials.there("g++", "clang++"):
        trials.attempt(f"interior.cpp by {compiler}", example_in_c, trials, compiler, "examples/interior.cpp")
    if trials.there("pkg-config", "cc"):
        trials.attempt("interior.c by pkg-config", example_by_pkg_config, trials)
    if trials.there("rustc"):
        trials.attempt("interior.rs", example_in_rust, trials)
    if trials.there("cargo"):
        trials.attempt("interior.rs by cargo", example_by_cargo, trials)
    trials.attempt("interior.py by a wheel", example_by_wheel, trials)
    program = f"{trials.root}/crates/plan/out/plan"
    if os.path.exists(program):
        for header in plans.HEADERS:
            trials.attempt(header, plans.stored_header, trials, program, header)
        for compiler in compilers:
            trials.attempt(f"zones read by a header, {compiler}", plans.readings, trials, compiler, program)
            trials.attempt(f"sides read by a header, {compiler}", plans.sides, trials, compiler, program)
        for compiler in trials.there("g++", "clang++"):
            trials.attempt(f"zones read by a header, {compiler}", plans.readings, trials, compiler, program, "-x", "c++")
            trials.attempt(f"sides read by a header, {compiler}", plans.sides, trials, compiler, program, "-x", "c++")
    else:
        trials.absent.append("./plan")
    for version, path in pythons():
        trials.attempt(f"Python {version}", python, trials, path)
        if os.path.exists(program):
            trials.attempt(f"plans in Python {version}", plans_in_python, trials, path, program)


def under_load(trials, compilers, calls):
    """Threads and processes on one word."""
    for compiler, ways in itertools.product(compilers, ([], ["processes"])):
        share, some = calls if compiler == compilers[0] else max(calls // 10, 7), max(calls // 10, 7)
        name = f"three processes, {compiler}" if ways else f"seven threads, {compiler}"
        right = trials.compile(compiler, "tests/stress.c")
        trials.attempt(name, load, trials, right, share, ways)
        trials.attempt(f"{name}, with renewals", load, trials, right, some, [*ways, "renewals"])
        for flag, what, more in PLANTS:
            wrong = trials.compile(compiler, "tests/stress.c", f"-D{flag}")
            trials.attempt(f"{name}, with {what}", find_bug, trials, wrong, [*ways, *more])
            if flag == "PLANTED_LATE":
                trials.attempt(f"{name}, with these and no clock", load, trials, wrong, some, [*ways, "--no-clock"])
    for compiler in compilers:
        wear = trials.compile(compiler, "tests/wear.c")
        trials.attempt(f"worn several times, {compiler}", wear_often, trials, wear, 1_000_000, 3)
    for compiler, which in itertools.product(compilers, ("address,undefined", "thread")):
        if can_sanitize(compiler, which):
            some = max(calls // 20, 7)
            trials.attempt(f"{which} sanitizer, {compiler}", under_sanitizer, trials, compiler, which, some)
        else:
            trials.absent.append(f"{which} sanitizer of {compiler}")


def at_other_plants(trials, compilers):
    """The library for any plan."""
    for compiler in compilers:
        trials.attempt(f"plan_press.c by {compiler}", plans.press, trials, compiler)
        trials.attempt(f"plan_turns.c by {compiler}", plans.turns, trials, compiler)
        trials.attempt(f"plan_lathe.c by {compiler}", plans.lathe, trials, compiler)
        trials.attempt(f"plan_log.c by {compiler}", plans.log, trials, compiler)
        trials.attempt(f"plant_hall.c by {compiler}", plans.hall, trials, compiler)
        trials.attempt(f"records of a log by {compiler}", plans.records, trials, compiler)
        trials.attempt(f"settle.c at a press by {compiler}", settled, trials, compiler, "-DPLAN")
        trials.attempt(f"calls at a lift as by the rules, {compiler}", plans.walk, trials, compiler)
        trials.attempt(f"plan_faults.c by {compiler}", plans.faults, trials, compiler)
        for which in ("address,undefined", "thread"):
            if can_sanitize(compiler, which):
                flags = ["-g", f"-fsanitize={which}", "-fno-sanitize-recover=all"]
                trials.attempt(f"plan_press.c, {which} sanitizer, {compiler}", plans.press, trials, compiler, *flags)
                trials.attempt(f"plan_lathe.c, {which} sanitizer, {compiler}", plans.lathe, trials, compiler, *flags)
                trials.attempt(f"plan_log.c, {which} sanitizer, {compiler}", plans.log, trials, compiler, *flags)
                trials.attempt(f"plant_hall.c, {which} sanitizer, {compiler}", plans.hall, trials, compiler, *flags)
                trials.attempt(f"records, {which} sanitizer, {compiler}", plans.records, trials, compiler, *flags)
                trials.attempt(f"no memory, {which}, {compiler}", plans.memory, trials, compiler, *flags)
    for compiler in trials.there("g++", "clang++"):
        trials.attempt(f"records of a log, {compiler}", plans.records, trials, compiler, "-x", "c++")
        trials.attempt(f"calls at a lift, {compiler}", plans.walk, trials, compiler, "-x", "c++")
        trials.attempt(f"plan_faults.c by {compiler}", plans.faults, trials, compiler, "-x", "c++")


def run(root, prefix, calls):
    """All trials; the status is 0 only if none has failed."""
    with tempfile.TemporaryDirectory() as room:
        trials = Trials(root, prefix, room)
        compilers = trials.there("gcc", "clang")
        at_other_plants(trials, compilers)
        in_all_languages(trials, compilers)
        under_load(trials, compilers, calls)
    if trials.absent:
        print(f"not tried, since it isn't here: {', '.join(trials.absent)}")
    print(f"{trials.passed} passed, {trials.failed} failed")
    return 1 if trials.failed or not compilers else 0
