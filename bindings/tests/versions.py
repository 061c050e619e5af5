"""Compares the version that headers, modules and packages have with that of the programs."""

import re

# Where the version of the programs is written.
PROGRAMS = "crates/program_shell/src/version.rt", r'^pub const VERSION: &str = "(.*)";$'
ELSEWHERE = {
    "CHANGELOG.md": r"^## (\S+) \(",
    "bindings/bagunjoki.h": r'^#define BAGUNJOKI_VERSION "(.*)"$',
    "bindings/bagunjoki_plan.h": r'^#define BAGUNJOKI_PLAN_VERSION "(.*)"$',
    "bindings/bagunjoki.py": r'^__version__ = "(.*)"$',
    "bindings/bagunjoki_plan.py": r'^__version__ = "(.*)"$',
    "bindings/pyproject.toml": r'^version = "(.*)"$',
    "bindings/rust/Cargo.toml": r'^version = "(.*)"$',
}


def written(root, path, pattern):
    """The first version in a file; None if it has none."""
    with open(f"{root}/{path}", encoding="utf-8") as lines:
        found = re.search(pattern, lines.read(), re.M)
    return found and found[1]


def version(root):
    """The version of the programs, which all else has too."""
    return written(root, *PROGRAMS)


def differences(root):
    """A line for each file that has another version."""
    wanted = version(root)
    found = {path: written(root, path, pattern) for path, pattern in ELSEWHERE.items()}
    return [f"{path} has the version {its}, and the programs have {wanted}" for path, its in found.items() if its != wanted]
