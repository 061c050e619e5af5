"""Edits that the prover must refuse. docs/ATTACKS.md has their form."""

import glob
import os
import re

NAMES = re.compile(r"refused by: (.*)")
# What the prover says of a goal: its place, and in quotes the goal or the lemma.
PLACE = re.compile(r"(?:note: )?(?:\./)?(src|proofs|specs)/(\S+?):(\d+):\d+:")
CLAUSE = re.compile(r"\(`[^`]*-clause-([\w-]+)`")
REQUIRES = re.compile(r"\(`([a-z0-9_]+)[^`]*-requires")
USING = re.compile(r"using\(([^)]*)\).*\]\n(?:\s*#\[.*\]\n)*\s*(?:pub(?:\([^)]*\))? )?fn (\w+)")
FUNCTION = re.compile(r"^\s*(?:pub(?:\([^)]*\))? )?(?:const )?(?:unsafe )?(?:extern \"[^\"]*\" )?fn (\w+)")


def edited_texts(crate, edit):
    """The texts of the files that this edit changes, by their paths in the crate, and why it can't be applied, or None."""
    path, old, texts, pairs = None, None, {}, 0
    with open(edit, encoding="utf-8") as lines:
        for line in lines.read().split("\n"):
            word, _, text = line.partition(":")
            text = text.removeprefix(" ")
            if word == "file":
                path = text.strip()
            elif word == "old":
                old = text
            elif word == "new":
                if not path or not old:
                    return texts, "a 'new:' line has no 'file:' or no 'old:' before it"
                if path not in texts:
                    if not os.path.isfile(f"{crate}/{path}"):
                        return texts, f"there is no file {path}"
                    with open(f"{crate}/{path}", encoding="utf-8") as it:
                        texts[path] = it.read()
                count = texts[path].count(old)
                if count != 1:
                    return texts, f"an 'old:' text is in {path} {count} times, and not once: {old}"
                texts[path], old, pairs = texts[path].replace(old, text), None, pairs + 1
    return texts, None if pairs else "it has no pair of 'old:' and 'new:'"


def begins_with(edit, head):
    """Whether an edit has a line that begins with this head, `refused by` or `accepted`."""
    with open(edit, encoding="utf-8") as lines:
        return any(it.startswith(f"{head}: ") for it in lines)


def refused_by(edit):
    """What an edit says that refuses it: functions and laws, each with its clauses, or with none if that isn't said. None without such a line."""
    with open(edit, encoding="utf-8") as lines:
        found = next(filter(None, map(NAMES.match, lines)), None)
    if not found:
        return None
    parts = (part.partition(": ") for part in found[1].split("; "))
    return [(name.rpartition("::")[2].strip(), {*filter(None, re.split(r",? +", clauses.strip()))}) for name, _, clauses in parts]


def standing_on(crate, module):
    """The functions whose answers, or whose attribute `using`, cite a module of this crate's proofs, also by way of others."""
    texts = {}
    for path in glob.glob(f"{crate}/proofs/**/*.antt", recursive=True):
        with open(path, encoding="utf-8") as it:
            texts[os.path.relpath(path, f"{crate}/proofs").removesuffix(".antt").replace("/", ".")] = it.read()
    reached, left = {module}, [module]
    while left:
        cited = re.compile(rf"\.proofs\.{re.escape(left.pop())}(?:\.\{{| |$)", re.MULTILINE)
        found = [name for name, text in texts.items() if name not in reached and cited.search(text)]
        reached |= {*found}
        left += found
    answered = {it.split(".")[-2] for it in reached if it.count(".") > 0}
    for path in glob.glob(f"{crate}/src/**/*.rt", recursive=True):
        with open(path, encoding="utf-8") as it:
            answered |= {name for cited, name in USING.findall(it.read()) if any(f"::proofs::{at.replace('.', '::')}::" in cited for at in reached)}
    return answered


def goal_of(crate, said, texts):
    """The functions that the prover's first line may speak of, and the clause if it names one. `texts` are those of the files that an
    edit has changed."""
    place, clause = PLACE.search(said), CLAUSE.search(said)
    if not place:
        return set(), None
    kind, path, number = place.groups()
    if kind == "src":
        if f"src/{path}" not in texts:
            with open(f"{crate}/src/{path}", encoding="utf-8") as it:
                texts = {f"src/{path}": it.read()}
        lines = texts[f"src/{path}"].split("\n")
        # the goal of a whole function is at its first line, which may be an attribute, any other inside it
        first = next((i for i, it in enumerate(lines[int(number) - 1 :], int(number)) if not it.lstrip().startswith(("#[", "///"))), int(number))
        above = [*map(FUNCTION.match, lines[:first])]
        called = REQUIRES.search(said)
        return {*(it[1] for it in [next(filter(None, reversed(above)), None), called] if it)}, clause and clause[1]
    return standing_on(crate, path.removesuffix(".antt").replace("/", ".")), clause and clause[1]


def is_named(crate, edit, said):
    """Whether the prover refused an edit by what the edit names. None where the edit names nothing."""
    wanted = refused_by(edit)
    if wanted is None:
        return None
    functions, clause = goal_of(crate, said, edited_texts(crate, edit)[0])
    return any(name in functions and (not clauses or clause is None or clause in clauses) for name, clauses in wanted)
