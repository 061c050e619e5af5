"""Compares bagunjoki_plan.h with the crates, and tries the library for any plan."""

import os
import re
import subprocess
import sys
import tempfile

import compare
from compare import table, text_of, value

NUMBERS = "crates/plan_c/specs/Numbers.antt"
REPLIES = "crates/plan_c/specs/Replies.antt"
EXAMPLES = "crates/plan_types/specs/ByteExamples.antt"
STAMPS = "crates/plan_rules/specs/State.antt"
WATCH = "crates/plan_types/specs/Table.antt"
LINES = "crates/plan_c/specs/Lines.antt"
NAMES = "crates/plan_text/specs/Names.antt"
WORDS = "crates/plan_text/specs/Calls.antt"
STRUCTS = [f"crates/plan_c/src/{it}.rt" for it in ("reply", "line", "turn")]
EXPORTS = "crates/plan_c/src/exports.rt"
TESTS = "crates/plan_c/src/tests.rt"
HEADER = "bindings/bagunjoki_plan.h"
MODULE = "bindings/bagunjoki_plan.py"
CRATE = "bindings/rust/src/plan.rs"
# Headers beside examples, each with the words and the document by which the program writes it.
HEADERS = {
    "plan_lathe.h": ("header", "examples/plans/lathe.toml"),
    "plant_hall.h": ("header --words", "examples/plants/hall_in_order.toml"),
}
# Where it is said how many bytes an opened plan has, and where how many words of eight bytes stand after the first.
BYTES = {TESTS: r"size_of::<Opened>\(\) == (\d+_\d+)", "crates/plan_c/README.md": r"(\d+,\d+) bytes", "docs/FROM_C.md": r"(\d+,\d+) bytes"}
KEPT = {HEADER: r"uint64_t kept\[(\d+)\]", MODULE: r'"kept", WORD \* (\d+)', CRATE: r"kept: \[u64; (\d+)\]"}
BUSY = 66
# The structs of the header, by those of the crate.
KINDS = {"Reply": "reply", "ProgramLine": "line", "Place": "place", "Turned": "turned"}
TYPES = compare.TYPES | {f"bagunjoki_plan_{name}": kind for kind, name in KINDS.items()}
TYPES |= {"bagunjoki_plan_opened": "Opened", "uint16_t": "u16"}
SLICE = compare.SLICE | {"&Opened": ["*Opened"], "&[ProgramLine]": ["*ProgramLine", "u64"]}
# The plans that programs here carry, by the byte examples of plan_types.
PLANS = [("press", f"bindings/{it}.c") for it in ("examples/plan_press", "examples/plan_turns", "examples/plan_log", "tests/plan_log")]
PLANS += [("lift", f"bindings/tests/plan_{it}.c") for it in ("walk", "memory")]
PLANS += [("press", f"bindings/tests/{it}.c") for it in ("settle", "plan_faults")]
PRESS = """loader: 3000 calls done, its motor run 2000 times, stopped by 0
press: 10000 calls done, its motor run 3000 times, stopped by 0
"""
TURNS = """loader: 2380 rounds, its motor on in 28572 turns, stopped by 0
press: 2381 rounds, its motor on in 21429 turns, stopped by 0
"""
# By hand: 2 is HELD, 64 NO_CALL.
FAULTS = """faults 0: answer 2, line 0, stopped by 0
faults 4: answer 2, line 0, stopped by 2
faults 16400: answer 2, line 0, stopped by 0
faults 16388: answer 2, line 0, stopped by 2
faults 2048: answer 64, line 0, stopped by 0
faults 8192: answer 64, line 0, stopped by 0
faults 4: answer 64, line 0, stopped by 0
a line has 16 bytes
"""
HALL = "north: 5000 calls done, stopped by 0\nsouth: 7000 calls done, stopped by 0\n"
LATHE = "".join(f"{it}: 100 rounds, stopped by 0\n" for it in ("conveyor", "feeder", "lathe", "unloader"))
LATHE += "no two motors of a hazard were on together\n"
SIDES = "11 of 11 words are as by hand\n"
# By hand: the rack is closed or openin, and no plate is in it; at the presses there is all.
READINGS = "rack: 5 0\nleft: f 1\nright: f 1\n"
LATHES = [[], ["processes"], ["cuts"], ["processes", "cuts"]]
# What plan_log.c of the tests writes.
LONGEST = "a2345678901234567890123456789012"
RECORDS = f"""press,claim,interior
loader,give,gate
press,yield,interior
loader,take,interior
loader,release,gate
press,pose,closed
press,pose,travelling
loader,pose,closed
watch,inquire,gate
loader,inquire,interior
watch,stop
press,resume
watch,resume
loader,advance,hand
loader,advance,tray
press,advance,die
{LONGEST},release,{LONGEST}
75 of 75
start,10
start,0,7
start,1111111111111111,1048575
31
15: 5 loader,give,interior
16: 0 press,claim,interior
17: 3 press,claim,interior
17: 2 loader,claim,interior
17: 32 loader,inquire,interior
18: 0 press,pose,travelling
16: 0 loader,advance,tray
17: 7 loader,advance,tray
18: 0 loader,advance,hand
19: 8 loader,advance,hand
19: 1 press,advance,hand
19: 1 press,advance,die
20: 0 watch,stop
21: 14 loader,advance,tray
0 records that aren't there, 0 written wrongly
"""
# The calls through that press, in Rust, and what it is answered once the watch resumes: DONE, and NOT_PARTY of no place.
ENDS_IN_RUST = """16: 0 11 1: 0
17: 0 11 1: 7
18: 0 11 0: 0
19: 0 11 0: 8
19: 1 11 0: 1
19: 1 11 2: 1
20: 30 9 0: 0
21: 0 11 1: 14
0
1
"""
# The same in Python: calls by words and by numbers, and those that no record means. The hand is a source, the tray a sink.
LOGGED = """from bagunjoki import Verb as cell_verbs
from bagunjoki_plan import Plant, Verb
poses = (("loader", "travelling"), ("press", "load"), ("press", "travelling"))
plan = (2, 1, 3, 3, 1, 0, 1, 0, 2, 1, 2, 1, 0, 0, *[0] * 10, 1, 1, 3, *[0] * 9, 1, 0, 2, *[0] * 9, 64, 128, 1)
cell = Plant(("loader", "press"), ("interior",), ("hand", "tray", "die"), poses, (), plan).word("010")
calls = [("press", "claim", "interior"), (1, "pose", "travelling"), ("loader", "pose", 0), ("loader", "pose", "load")]
calls += [("loader", "advance", "tray"), (0, "advance", 1), ("loader", Verb.ADVANCE, "hand"), ("loader", 11, 0)]
calls += [("loader", cell_verbs.ADVANCE, "hand"), ("press", "advance", "die")]
calls += [("watch", "stop"), (30, "inquire", 0), ("loader", "advance", "tray")]
for call in calls:
    reply = cell.ask(*call)
    print(reply.order, cell.record(*call), reply)
print(cell.full_places())
wrong = [("loader", "pose", 2), (2, "claim", 0), ("press", "claim", 1), ("press", "pose", 3), ("loader", "advance", 3)]
for call in (*wrong, ("loader", "advance", "interior"), ("loader", "advance"), ("loader", 7, "hand")):
    try:
        print(cell.record(*call))
    except ValueError as why:
        print(why)
"""
LOGGED_SAID = """2 press,claim,interior done
4 press,pose,travelling done
6 loader,pose,travelling done
7 loader,pose,load nopose
8 loader,advance,tray done
9 loader,advance,tray noplate
10 loader,advance,hand done
11 loader,advance,hand placefull
11 loader,advance,hand placefull
11 press,advance,die notparty
12 watch,stop done
13 watch,inquire,interior zone press 0 moving
13 loader,advance,tray stopped
['hand']
pose 2 has no record: travelling means another one
2 is no machine
1 is no zone
3 is no pose
3 is no place
interior is no place
advance takes an object
7 is not a valid Verb
"""


def of_crates(root):
    """Numbers, limits and fields as the crates have them."""
    numbers, replies = text_of(f"{root}/{NUMBERS}"), text_of(f"{root}/{REPLIES}")
    answers = table(replies, "refusal_number") | table(replies, "answer_number")
    answers |= {it.upper(): value(replies, it) for it in ("no_call", "no_state", "no_plan")}
    found = {it: table(numbers, f"{it}_number") for it in ("posture", "verb")} | {"answer": answers | {"BUSY": BUSY}}
    found["kind"] = table(text_of(f"{root}/{LINES}"), "kind_number")
    limits = {it.upper(): value(replies, it) for it in ("nothing", "no_word", "no_stamp")}
    limits["LAST_STAMP"] = value(text_of(f"{root}/{STAMPS}"), "last_stamp")
    limits["WATCH"] = value(text_of(f"{root}/{WATCH}"), "watch")
    # (two names and a verb with two commas, a line feed and a null)
    longest = int(re.search(r"nat_le \(length text\) (\d+)", text_of(f"{root}/{NAMES}"))[1])
    limits["RECORD"] = 2 * longest + max(map(len, verbs_of_crates(root).values())) + 4
    structs = "".join(text_of(f"{root}/{it}") for it in STRUCTS)
    bodies = {kind: re.search(rf"^pub struct {kind} \{{(.*?)\n\}}", structs, re.M | re.S)[1] for kind in KINDS}
    return found, limits, {kind: re.findall(r"^    pub (\w+): (\w+),$", body, re.M) for kind, body in bodies.items()}


def limit(text):
    """The number that a text in C is."""
    return 2**32 - 1 if text == "UINT32_MAX" else int(re.sub(r"UINT64_C\((\w+)\)", r"\1", text), 0)


def of_header(root):
    """The same as the header has them."""
    text = text_of(f"{root}/{HEADER}")
    found = {}
    for kind, cases in re.findall(r"^enum bagunjoki_plan_(\w+) \{(.*?)\};", text, re.M | re.S):
        found[kind] = {name: int(number) for name, number in re.findall(r"BAGUNJOKI_PLAN_(\w+) = (\d+)", cases)}
    limits = re.findall(r"#define BAGUNJOKI_PLAN_(\w+) (\d+|UINT32_MAX|UINT64_C\(0x\w+\))$", text, re.M)
    body = lambda name: re.search(rf"typedef struct bagunjoki_plan_{name} \{{(.*?)\}}", text, re.S)[1]
    named = {kind: re.findall(r"^    (\w+) (\w+);", body(name), re.M) for kind, name in KINDS.items()}
    fields = {kind: [(name, TYPES.get(it, it)) for it, name in its] for kind, its in named.items()}
    return found, {name: limit(number) for name, number in limits}, fields


def functions_of_crate(root):
    """The exported functions: what each gives, and its arguments."""
    found = {}
    text = text_of(f"{root}/{EXPORTS}")
    for name, arguments, gives in re.findall(r'^pub extern "C" fn (\w+)\((.*?)\) -> (\w+)$', text, re.M | re.S):
        kinds = re.findall(r"\w+: ([^,\s]+)", arguments)
        found[name] = [gives] + [it for kind in kinds for it in SLICE.get(kind, [kind])]
    return found


def functions_of_header(root):
    """The same as the header has them."""
    found = {}
    text = text_of(f"{root}/{HEADER}")
    for gives, name, arguments in re.findall(r"^(\w+) (bagunjoki_plan_\w+)\(([^{}]*?)\);$", text, re.M | re.S):
        kinds = [it.removeprefix("const ").rpartition(" ")[::2] for it in re.split(r",\s+", arguments)]
        kinds = [("*" if name.startswith("*") else "") + TYPES.get(kind, kind) for kind, name in kinds]
        found[name] = [TYPES.get(gives, gives), *kinds]
    return found


def verbs_of_crates(root):
    """The words of verbs in scripts, by their numbers."""
    text = text_of(f"{root}/{WORDS}")
    said = re.findall(r'^verb_word (\w+) = codes "(\w+)"$', text, re.M) + re.findall(r'call\.(\w+) = codes "(\w+)"$', text, re.M)
    words = {"SET_POSE" if name == "Pose" else name.upper(): word for name, word in said}
    return {number: words[name] for name, number in table(text_of(f"{root}/{NUMBERS}"), "verb_number").items()}


def verbs_of_header(root):
    """The same as the header has them."""
    listed = re.search(r"verbs\[\] = \{(.*?)\};", text_of(f"{root}/{HEADER}"), re.S)[1]
    words = [it.strip().strip('"') for it in listed.split(",")]
    return {number: word for number, word in enumerate(words) if word != "0"}


def verbs_elsewhere(root):
    """The numbers of verbs as the Python module and the crate for cargo have them, by their files."""
    module = re.search(r"^class Verb\(.*?\n\n\n", text_of(f"{root}/{MODULE}"), re.M | re.S)[0]
    crate = re.search(r"^pub enum Verb \{(.*?)\n\}", text_of(f"{root}/{CRATE}"), re.M | re.S)[1]
    found = {MODULE: re.findall(r"^    (\w+) = (\d+)$", module, re.M), CRATE: re.findall(r"(\w+) = (\d+),", crate)}
    return {path: {compare.snake(name): int(number) for name, number in verbs} for path, verbs in found.items()}


def no_words(root):
    """What stands for no word in the Python module and the crate for cargo, by their files."""
    said = {MODULE: r"^NO_WORD = (0x\w+)$", CRATE: r"NO_WORD: u64 = (0x\w+);"}
    return {path: int(re.search(it, text_of(f"{root}/{path}"), re.M)[1], 0) for path, it in said.items()}


def sizes(root):
    """How many bytes an opened plan has, by the files that say so."""
    number = lambda path, said: int(re.sub("[,_]", "", re.search(said, text_of(f"{root}/{path}"))[1]))
    found = {path: number(path, said) for path, said in BYTES.items()}
    return found | {path: 8 + 8 * number(path, said) for path, said in KEPT.items()}


def bytes_of(text, begin, end):
    """The numbers that stand between two texts."""
    return [int(it) for it in re.findall(r"\d+", re.search(rf"{begin}(.*?){end}", text, re.S)[1])]


def differences(root):
    """A line for each difference."""
    said = []
    pairs = zip(("numbers", "limits", "fields"), of_crates(root), of_header(root))
    functions = "functions", functions_of_crate(root), functions_of_header(root)
    for what, wanted, found in (*pairs, functions, ("verbs", verbs_of_crates(root), verbs_of_header(root))):
        if found != wanted:
            said.append(f"{what} are {found} in {HEADER}, and {wanted} in the crates")
    for path, verbs in verbs_elsewhere(root).items():
        wanted = table(text_of(f"{root}/{NUMBERS}"), "verb_number")
        if verbs != wanted:
            said.append(f"verbs are {verbs} in {path}, and {wanted} in the crates")
    for path, word in no_words(root).items():
        wanted = value(text_of(f"{root}/{REPLIES}"), "no_word")
        if word != wanted:
            said.append(f"no word is {word:#x} in {path}, and {wanted:#x} in the crates")
    wanted, *others = sizes(root).items()
    said += [f"an opened plan has {size:,} bytes in {path}, and {wanted[1]:,} in {wanted[0]}" for path, size in others if size != wanted[1]]
    for name, path in PLANS:
        wanted = bytes_of(text_of(f"{root}/{EXAMPLES}"), rf"bytes_of {name}_table ≡", r"\[\]")
        if bytes_of(text_of(f"{root}/{path}"), r"PLAN_BYTES\[\] = \{", r"\};") != wanted:
            said.append(f"the plan in {path} has other bytes than in {EXAMPLES}")
    return said


def press(trials, compiler, *flags):
    """Two threads at a press."""
    program = trials.compile(compiler, "examples/plan_press.c", *flags, library="bagunjoki_plan")
    said = trials.run([program])
    return "" if said == PRESS else trials.fail(f"it writes\n{said}and not\n{PRESS}")


def turns(trials, compiler, *flags):
    """The same press by turns."""
    program = trials.compile(compiler, "examples/plan_turns.c", *flags, library="bagunjoki_plan")
    said = trials.run([program])
    return "" if said == TURNS else trials.fail(f"it writes\n{said}and not\n{TURNS}")


def lathe(trials, compiler, *flags):
    """Four machines at work in threads and in processes, also through power cuts."""
    program = trials.compile(compiler, "examples/plan_lathe.c", *flags, library="bagunjoki_plan")
    for words in LATHES:
        said = trials.run([program, *words])
        if said != LATHE:
            trials.fail(f"with {words} it writes\n{said}and not\n{LATHE}")
    return ""


def hall(trials, compiler, *flags):
    """Two cranes whose bays are on two words."""
    program = trials.compile(compiler, "examples/plant_hall.c", *flags, library="bagunjoki_plan")
    said = trials.run([program])
    return "" if said == HALL else trials.fail(f"it writes\n{said}and not\n{HALL}")


def stored_header(trials, program, header):
    """The header beside an example is the one that the program writes."""
    words, plan = HEADERS[header]
    written = trials.run([program, *words.split()], text_of(f"{trials.root}/{plan}"))
    there = written == text_of(f"{trials.root}/bindings/examples/{header}")
    return "" if there else trials.fail(f"it differs: ./plan {words} < {plan} > bindings/examples/{header}")


def header_of(trials, program, plan):
    """Writes the header of an example's plan."""
    with open(f"{trials.room}/{plan}.h", "w", encoding="ascii") as to:
        to.write(trials.run([program, "header"], text_of(f"{trials.root}/examples/plans/{plan}.toml")))


def readings(trials, compiler, program, *flags):
    """What the macros of a header read of zones of three and five bits is what the library shows."""
    header_of(trials, program, "two_presses")
    reader = trials.compile(compiler, "tests/plan_readings.c", f"-I{trials.room}", *flags, library="bagunjoki_plan")
    said = trials.run([reader])
    return "200,000 words" if said == READINGS else trials.fail(f"it writes\n{said}and not\n{READINGS}")


def sides(trials, compiler, program, *flags):
    """Words of a press with two robots are as by hand, and so is what the macros of its header read of its two sides."""
    header_of(trials, program, "press_two_robots")
    reader = trials.compile(compiler, "tests/plan_sides.c", f"-I{trials.room}", *flags, library="bagunjoki_plan")
    said = trials.run([reader])
    return "11 words" if said == SIDES else trials.fail(f"it writes\n{said}and not\n{SIDES}")


def records(trials, compiler, *flags):
    """A log's records, by a plan whose names are made up, and the order of entries."""
    program = trials.compile(compiler, "tests/plan_log.c", *flags, library="bagunjoki_plan")
    said = trials.run([program])
    return "" if said == RECORDS else trials.fail(f"it writes\n{said}and not\n{RECORDS}")


def records_in_python(trials, version, module):
    said = trials.run([version, "-c", LOGGED], **module)
    return "" if said == LOGGED_SAID else trials.fail(f"it writes\n{said}and not\n{LOGGED_SAID}")


def replays(trials):
    """What answers scripts of plans here: the program, if it is there, and plain Python."""
    program, plain = f"{trials.root}/crates/plan/out/plan", f"{trials.root}/exercises/plans.py"
    found = [[program, "replay"]] if os.path.exists(program) else []
    return found + ([[sys.executable, "-B", plain, "replay"]] if sys.version_info >= (3, 11) else [])


def log(trials, compiler, *flags):
    """The logs of two threads come to a script that is answered as they were, and not one log behind the other."""
    program = trials.compile(compiler, "examples/plan_log.c", *flags, library="bagunjoki_plan")
    files = [f"{trials.room}/log.{it}" for it in ("csv", "out")]
    trials.run([program, *files])
    plan, script, wanted = map(text_of, (f"{trials.root}/examples/plans/press.toml", *files))
    start, *rest = script.splitlines(keepends=True)
    unmerged = start + "".join(sorted(rest, key=lambda it: it.split(",")[0]))
    if not replays(trials):
        trials.absent.append("a replay of plan_log.c's script")
    for words in replays(trials):
        said, other = ([it.split()[:3] for it in trials.run(words, plan + it).splitlines()] for it in (script, unmerged))
        if said != [it.split() for it in wanted.splitlines()]:
            trials.fail(f"{' '.join(words)} answers the script otherwise than the threads were answered")
        if other == said:
            trials.fail(f"{' '.join(words)} answers one log behind the other alike")
    return f"{len(rest)} records"


def walk(trials, compiler, *flags):
    """Random calls, answered as by plan_rules: the test of plan_c has the same sum."""
    program = trials.compile(compiler, "tests/plan_walk.c", *flags, library="bagunjoki_plan")
    said, wanted = trials.run([program]).strip(), re.search(r"WALKED: u64 = (0x\w+)", text_of(f"{trials.root}/{TESTS}"))
    wanted = wanted[1].replace("_", "")
    return "100,000 calls" if said == wanted else trials.fail(f"the sum is {said} and not {wanted}")


def faults(trials, compiler, *flags):
    """Refusals that stop a machine, and bits that make a line no step."""
    program = trials.compile(compiler, "tests/plan_faults.c", *flags, library="bagunjoki_plan")
    said = trials.run([program])
    return "" if said == FAULTS else trials.fail(f"it writes\n{said}and not\n{FAULTS}")


def memory(trials, compiler, *flags):
    """No call takes memory: each allocation fails."""
    wrapped = ["-Wl,--wrap=malloc", "-Wl,--wrap=realloc"]
    program = trials.compile(compiler, "tests/plan_memory.c", *wrapped, *flags, library="bagunjoki_plan")
    return trials.run([program]).strip()


def speed(root, prefix):
    """What a call costs at the lift."""
    with tempfile.TemporaryDirectory() as room:
        words = ["cc", "-O2", f"-I{prefix}/include", f"{root}/bindings/tests/plan_walk.c"]
        subprocess.run([*words, f"{prefix}/lib/libbagunjoki_plan.a", "-o", f"{room}/walk"], check=True)
        return subprocess.run([f"{room}/walk", "20"], check=False).returncode
