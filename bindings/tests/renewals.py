"""Judges runs of `stress .. renewals` by bench/stress/check.py, whose words it takes.

Each renewal leads into a lower range of stamps. Here the stamps go on instead, and a renewal counts as a change, which
changes nothing: no call may have made it, and a caller whose exchange was lost may have lost it to that.
"""

import bisect
import os
import sys

sys.dont_write_bytecode = True
sys.path.insert(0, f"{os.path.dirname(os.path.realpath(__file__))}/../../bench/stress")
import check

# As in stress.c.
RANGE = 16384
RANGES = 64
STAMP = RANGE * RANGES - 1


class RenewedPlan(check.Plan):
    """A plan whose word begins in the highest range."""

    def line(self):
        self.stamp = RANGE * (RANGES - 1)
        said = super().line()
        self.stamp = 0
        return said


def continue_stamps(journals):
    """The journals with stamps that go on, and the stamps that the renewals have as changes."""
    last = {}
    for note in (note for journal in journals for note in journal):
        ago, stamp = divmod(note & STAMP, RANGE)
        last[ago] = max(last.get(ago, 0), stamp)
    first, renewals = {RANGES - 1: 0}, []
    for ago in range(RANGES - 1, min(last), -1):
        if ago not in last:
            raise check.Wrong(f"no note has a stamp from {ago * RANGE} on")
        first[ago - 1] = first[ago] + last[ago] + 1
        renewals.append(first[ago - 1])
    if max(first[ago] + last[ago] for ago in last) > STAMP:
        raise check.Broken("there are too many changes for the form of notes")
    again = lambda note: note & ~STAMP | first[(note & STAMP) // RANGE] + note % RANGE
    return [list(map(again, journal)) for journal in journals], renewals


def judge(plan, journals, counts, times):
    """Looks for the legal history of a run."""
    journals, renewals = continue_stamps(journals)

    class Renewed(check.History):
        """A history with renewals."""

        def follow(self, events):
            begun = 0
            for renewal in renewals:
                end = bisect.bisect_left(events, renewal << 20)
                super().follow(events[begun:end])
                if self.stamp != renewal - 1:
                    raise check.Wrong(f"no call has made change {self.stamp + 1}")
                self.stamp, begun = renewal, end
            super().follow(events[begun:])

    check.check(plan, journals, counts, times, Renewed)
    judge.renewals += len(renewals)


judge.renewals = 0

if __name__ == "__main__":
    check.main(RenewedPlan, judge)
    print(f"of {judge.renewals} renewals none is wrong")
