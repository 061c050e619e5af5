"""Builds crates with rattle alone. Of a library only the statements are kept, and nothing for a later check."""

import contextlib
import fcntl
import hashlib
import os
import shutil
import uuid

import crates
from crates import PROGRAM, ROOT

# The folder of the tools, which also has rattle's libraries, its logic and what links programs.
KIT = os.path.dirname(os.path.dirname(os.path.realpath(shutil.which("rattle") or ".")))
# Where in out/ a crate's library is, with the stamp of what it was made from.
BUILT = "built"
# The most memory that a crate takes with one job, in bytes.
MEMORY = 3_000_000_000


def at_once():
    """How many crates are proved at the same time, if there is memory for them. They are two more than there are processors, so that
    none is idle when one crate ends; those for which most others wait get the processors first."""
    return max(1, min(crates.processors() + 2, crates.memory() // MEMORY))


def text_of(path):
    with contextlib.suppress(FileNotFoundError), open(path, "rb") as it:
        return it.read()
    return b""


@contextlib.contextmanager
def alone(say):
    """Keeps other builds of this repository waiting."""
    out = f"{ROOT}/crates/{PROGRAM}/out"
    os.makedirs(out, exist_ok=True)
    with open(f"{out}/build.lock", "w", encoding="ascii") as held:
        try:
            fcntl.flock(held, fcntl.LOCK_EX | fcntl.LOCK_NB)
        except BlockingIOError:
            say("waiting until another build in this clone has finished")
            fcntl.flock(held, fcntl.LOCK_EX)
        yield


class Building:
    """A crate that rattle proves from nothing and builds over the libraries below it. Of a library it keeps the statements and not their
    proofs, which no crate above has to read, and nothing for a later check: that takes less time than a check that keeps its work."""

    def __init__(self, root, listed, name, folder):
        self.name, self.folder, self.crate = name, folder, f"{root}/crates/{name}"
        self.below, self.home = crates.below(listed, name), f"{root}/crates/{name}/out/{BUILT}"
        self.is_program = crates.is_program(root, name)
        self.made = f"{folder}/{BUILT}/{name}" + (".o" if self.is_program else ".rlib")
        self.libraries = crates.rows(root)[name]
        self.kept = [f"{root}/crates/{it}/out/{BUILT}" for it in self.below]
        self.rlibs = [f"{root}/crates/{it}/out/{BUILT}/{it}.rlib" if it in self.below else f"{KIT}/rlibs/{it}.rlib" for it in self.libraries]

    def sum(self):
        """A sum of all that the crate is made from."""
        found = hashlib.sha256(repr((self.name, self.libraries)).encode() + text_of(f"{KIT}/WHAT"))
        for path in [*crates.sources(self.crate), *(f"{it}/stamp" for it in self.kept)]:
            found.update(repr((os.path.relpath(path, self.crate), text_of(path))).encode())
        return found.hexdigest()

    def is_done(self):
        return text_of(f"{self.home}/stamp").startswith(self.sum().encode())

    def enter(self):
        os.makedirs(os.path.dirname(self.made))
        self.begun = self.sum()
        return True

    def input_words(self):
        """The words by which rattle reads the crate over the libraries below it."""
        words = ["--crate-name", self.name, "src/main.rt" if self.is_program else "src/lib.rt"]
        for it in [f"{KIT}/rlibs/std.rlib", *self.rlibs]:
            words += ["--extern", f"{os.path.basename(it).removesuffix('.rlib')}={it}"]
        for it in [f"{KIT}/rlibs", *self.kept]:
            words += ["-L", f"dependency={it}"]
        words += ["--antt-project", f"{KIT}/rattle/logic/antt-project.json", "--logic-built", f"{KIT}/logic_built"]
        return [*words, "--links", f"{self.name}="]

    def words(self, _side_by_side, idle):
        how = ["--toolchain", f"{KIT}/toolchain"] if self.is_program else ["--statements"]
        return ["rattle", "build", *self.input_words(), *how, "--jobs", str(self.jobs(idle)), "-o", self.made]

    def jobs(self, idle):
        """How many jobs the crate has: a second one if it is long and a processor would be idle else, since it costs some 30 s of
        processor time. A program has one, since its compiler has no more."""
        return 2 if idle and not self.is_program and crates.memory() > 2 * MEMORY else 1

    def leave(self, proved=False):
        if proved:
            with open(f"{self.folder}/{BUILT}/stamp", "w", encoding="ascii") as to:
                # what is built over this fits this build of it alone
                to.write(f"{self.begun} {uuid.uuid4()}\n")
            with crates.whole():
                shutil.rmtree(self.home, ignore_errors=True)
                os.makedirs(os.path.dirname(self.home), exist_ok=True)
                shutil.move(f"{self.folder}/{BUILT}", self.home)
