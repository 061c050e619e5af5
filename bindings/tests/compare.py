"""Compares the numbers, words and functions of bagunjoki.h and bagunjoki.py with those of the crates."""

import importlib.util
import re

NUMBERS = "crates/cell_c/specs/Numbers.antt"
REPLIES = "crates/cell_c/specs/Replies.antt"
REFUSALS = "crates/cell_types/specs/Refusals.antt"
STAMPS = "crates/cell_rules/specs/ModelState.antt"
STRUCT = "crates/cell_c/src/reply.rt"
EXPORTS = "crates/cell_c/src/exports.rt"
WORDS = [f"crates/cell_types/src/{it}.rt" for it in ("machine", "zone", "place", "posture", "pose", "call", "answer")]
# What the header alone has: of the loop, whose answer the library can't give.
OF_THE_LOOP = {"answer": {"BUSY": 66}}
TYPES = {"uint64_t": "u64", "uint32_t": "u32", "uint8_t": "u8", "size_t": "u64", "bagunjoki_reply": "Reply"}
TYPES |= {"c_ulong": "u64", "c_uint": "u32", "c_ubyte": "u8", "c_bool": "bool", "RawReply": "Reply", "c_char_p": "*u8"}
# A slice is handed over as two arguments.
SLICE = {"&[u8]": ["*u8", "u64"]}


def text_of(path):
    with open(path, encoding="utf-8") as it:
        return it.read()


def snake(name):
    """FeedEntry as FEED_ENTRY."""
    return re.sub(r"(?<=[a-z0-9])(?=[A-Z])", "_", name).upper()


def table(text, function):
    """The numbers of a function's cases, by their variants."""
    renamed = dict(map(reversed, re.findall(r"(\w+) as (\w+)", text)))
    cases = re.findall(rf"^{function} \(?(\w+)[ _]*\)? = (\d+)$", text, re.M)
    return {snake(renamed.get(name, name)): int(number) for name, number in cases}


def value(text, name):
    return int(re.search(rf"^{name} = (\d+)$", text, re.M)[1])


def of_crates(root):
    """The numbers of each kind as the crates have them."""
    numbers, replies = text_of(f"{root}/{NUMBERS}"), text_of(f"{root}/{REPLIES}")
    found = {it: table(numbers, f"{it}_number") for it in ("machine", "zone", "place", "posture", "pose", "verb")}
    found["machine"]["NOBODY"] = table(numbers, "owner_number")["NONE"]
    found["answer"] = table(text_of(f"{root}/{REFUSALS}"), "number_of") | table(replies, "answer_number")
    found["answer"] |= {it.upper(): value(replies, it) for it in ("no_call", "no_state")}
    limits = {"NO_WORD": value(replies, "no_word"), "LAST_STAMP": value(text_of(f"{root}/{STAMPS}"), "last_stamp")}
    fields = re.findall(r"^    pub (\w+): (\w+),$", text_of(f"{root}/{STRUCT}"), re.M)
    return found, limits, fields


def of_header(root):
    """The same as the header has them."""
    text = text_of(f"{root}/bindings/bagunjoki.h")
    found = {}
    for kind, cases in re.findall(r"^enum bagunjoki_(\w+) \{(.*?)\};", text, re.M | re.S):
        names = {name: int(number) for name, number in re.findall(r"BAGUNJOKI_(\w+) = (\d+)", cases)}
        of_loop = OF_THE_LOOP.get(kind, {})
        names = {it: number for it, number in names.items() if of_loop.get(it) != number}
        found[kind] = {it.removeprefix("AT_"): number for it, number in names.items()} if kind == "place" else names
    limits = {name: int(number) for name, number in re.findall(r"#define BAGUNJOKI_(\w+) (\d+)$", text, re.M)}
    if re.search(r"#define BAGUNJOKI_NO_WORD UINT64_MAX$", text, re.M):
        limits["NO_WORD"] = 2**64 - 1
    struct = re.search(r"typedef struct bagunjoki_reply \{(.*?)\}", text, re.S)[1]
    return found, limits, [(name, TYPES.get(kind, kind)) for kind, name in re.findall(r"^    (\w+) (\w+);", struct, re.M)]


def module(root):
    """The Python module, without its library."""
    spec = importlib.util.spec_from_file_location("bagunjoki", f"{root}/bindings/bagunjoki.py")
    found = importlib.util.module_from_spec(spec)
    spec.loader.exec_module(found)
    return found


def of_module(root):
    """The same as the module has them."""
    from_file = module(root)
    names = ("Machine", "Zone", "Place", "Posture", "Pose", "Verb", "Answer")
    kinds = [getattr(from_file, it) for it in names]
    found = {kind.__name__.lower(): {it.name: it.value for it in kind} for kind in kinds}
    limits = {"NO_WORD": from_file.NO_WORD, "LAST_STAMP": from_file.LAST_STAMP}
    return found, limits, [(name, TYPES.get(kind.__name__, kind.__name__)) for name, kind in from_file.RawReply._fields_]


def of_rust(root):
    """The same as the crate for cargo has them, but for places and postures, which it hands on as numbers."""
    text = text_of(f"{root}/bindings/rust/src/lib.rs")
    cases = re.findall(r"^pub enum (\w+) \{(.*?)\n\}", text, re.M | re.S)
    found = {kind.lower(): {snake(name): int(number) for name, number in re.findall(r"(\w+) = (\d+)", its)} for kind, its in cases}
    of_loop = OF_THE_LOOP["answer"]
    answers = {name: int(number) for name, number in re.findall(r"pub const (\w+): Answer = Answer\((\d+)\)", text)}
    found["answer"] = {name: number for name, number in answers.items() if of_loop.get(name) != number}
    limits = {"NO_WORD": 2**64 - 1, "LAST_STAMP": int(re.search(r"LAST_STAMP: u32 = ([\d_]+)", text)[1])}
    struct = re.search(r"^pub struct Reply \{(.*?)\n\}", text, re.M | re.S)[1]
    return found, limits, [(name, "u8" if kind == "Answer" else kind) for name, kind in re.findall(r"pub (\w+): (\w+),", struct)]


def functions_of_crate(root):
    """The exported functions: what each gives, and its arguments."""
    found = {}
    text = text_of(f"{root}/{EXPORTS}")
    for name, arguments, gives in re.findall(r'^pub extern "C" fn bagunjoki_(\w+)\((.*?)\) -> (\w+)$', text, re.M | re.S):
        kinds = re.findall(r"\w+: ([^,\s]+)", arguments)
        found[name] = [gives] + [it for kind in kinds for it in SLICE.get(kind, [kind])]
    return found


def functions_of_header(root):
    """The same as the header has them."""
    found = {}
    text = text_of(f"{root}/bindings/bagunjoki.h")
    for gives, name, arguments in re.findall(r"^(\w+) bagunjoki_(\w+)\((.*)\);$", text, re.M):
        kinds = [it.removeprefix("const ").rpartition(" ")[::2] for it in arguments.split(", ")]
        kinds = [("*" if name.startswith("*") else "") + TYPES.get(kind, kind) for kind, name in kinds]
        found[name] = [TYPES.get(gives, gives), *kinds]
    return found


def functions_of_module(root):
    """The same as the module has them."""
    named = lambda kind: TYPES.get(kind.__name__, kind.__name__)
    return {name: [named(it) for it in (gives, *takes)] for name, (gives, takes) in module(root).FUNCTIONS.items()}


def wrong_words(root):
    """Names whose word isn't the one that cell_types has."""
    from_file, said, count = module(root), [], 0
    kinds = {it: getattr(from_file, it) for it in ("Machine", "Zone", "Place", "Posture", "Pose")}
    kinds |= {"Call": from_file.Verb, "Refusal": from_file.Answer}
    for path in WORDS:
        for kind, name, word in re.findall(r'\b(\w+)::(\w+)(?:\(_\))? => "(\w+)"', text_of(f"{root}/{path}")):
            count += 1
            it = kinds[kind][snake(name)]
            if from_file.word_of(it) != word:
                said.append(f"the word of {it!r} is {from_file.word_of(it)} in bagunjoki.py, and {word} in {path}")
    return said if count > 50 else [*said, "the words of cell_types weren't found"]


def differences(root):
    """A line for each difference."""
    numbers, limits, fields = of_crates(root)
    said = wrong_words(root)
    for where, its in (("bagunjoki.h", of_header(root)), ("bagunjoki.py", of_module(root)), ("rust/src/lib.rs", of_rust(root))):
        its_numbers, its_limits, its_fields = its
        absent = {"place", "posture"} if where.startswith("rust") else set()
        for kind in sorted({*numbers, *its_numbers} - absent):
            here, there = numbers.get(kind, {}), its_numbers.get(kind, {})
            for name in sorted({*here, *there}):
                if here.get(name) != there.get(name):
                    said.append(f"{kind} {name} is {there.get(name)} in {where}, and {here.get(name)} in the crates")
        if its_limits != limits:
            said.append(f"the limits are {its_limits} in {where}, and {limits} in the crates")
        if its_fields != fields:
            said.append(f"a reply is {its_fields} in {where}, and {fields} in the crates")
    functions = functions_of_crate(root)
    for where, its in (("bagunjoki.h", functions_of_header(root)), ("bagunjoki.py", functions_of_module(root))):
        for name in sorted({*functions, *its}):
            if functions.get(name) != its.get(name):
                said.append(f"{name} is of {its.get(name)} in {where}, and of {functions.get(name)} in the crates")
    if OF_THE_LOOP["answer"]["BUSY"] in numbers["answer"].values():
        said.append("the library has the number of BUSY")
    return said
