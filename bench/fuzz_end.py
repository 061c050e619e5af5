"""What fuzz and fuzz_plans.py say at the end."""

import collections
import os
import sys
import time

OUT = f"{os.path.dirname(os.path.realpath(__file__))}/out"


def finish(results, seed, begun, line_of, input_of):
    """Prints how many inputs there were of each kind, and which differ, keeps the first of these, and ends the command. A result has how
    many inputs were of each kind, and what differs: its number first, and what else `line_of` takes."""
    kinds = sum((it[0] for it in results), collections.Counter())
    differing = sorted(it for _, these in results for it in these)
    for kind, count in sorted(kinds.items()):
        print(f"{count:8} {kind}")
    for it in differing[:10]:
        print(line_of(*it))
    if differing:
        with open(f"{OUT}/fuzz_differs", "wb") as to:
            to.write(input_of(differing[0][0]))
        print(f"input {differing[0][0]} is kept in {OUT}/fuzz_differs")
    print(f"{sum(kinds.values())} inputs with seed {seed}, {time.monotonic() - begun:.0f} s: {len(differing)} differ")
    sys.exit(1 if differing else 0)
