#!/usr/bin/env python3
"""What an event of the lease book costs with 100 clients of one pool, and with 10,000 clients of 500 pools, of whom 9,000 wait: in
processor time, and in instructions where valgrind is there. The bounds: with 10,000 clients at most 1.5 times as much by each, and at most
3 us. And what a second costs with 10,000 idle links under 10,000 database rows: at most 5 ms.

Usage: book.py TRIALS [EVENTS]
"""
import pathlib
import shutil
import sys

from timing import judged, seconds

sys.path.insert(0, str(pathlib.Path(__file__).resolve().parent.parent / "tests/lib"))
from counting import FEW, MANY, an_event, instructions
from passes import words

EVENTS, ROUNDS = 500_000, 3
MAX_GROWTH, MAX_MICROSECONDS, MAX_MILLISECONDS = 1.5, 3, 5
ROWS, TICKS = 10_000, 1_000


def taken(*run):
    """The processor time of one run."""
    return seconds([str(it) for it in run], b"", 1)


def main(trials, events=EVENTS):
    events = int(events)
    few, many = (min(an_event(taken, trials, crowd, events) for _ in range(ROUNDS)) * 1e6 for crowd in (FEW, MANY))
    print(f"an event with {FEW[0]} clients of one pool {few:.2f} us, with {MANY[0]} of {MANY[1]} pools {many:.2f} us")
    met = judged("  the one to the other", many / few, MAX_GROWTH)
    met &= judged("  microseconds with many", many, MAX_MICROSECONDS)
    if shutil.which("valgrind"):
        few, many = (an_event(instructions, trials, crowd, events // 50) for crowd in (FEW, MANY))
        print(f"in instructions {few:.0f} and {many:.0f}")
        met &= judged("  the one to the other", many / few, MAX_GROWTH)
    # nor does the coming of the links
    tick = (taken(trials, "ticks", ROWS, ROWS, TICKS + 1) - taken(trials, "ticks", ROWS, ROWS, 1)) / TICKS * 1e3
    met &= judged(f"milliseconds a second with {ROWS} idle links under {ROWS} database rows", tick, MAX_MILLISECONDS)
    return 0 if met else 1


if __name__ == "__main__":
    sys.exit(main(*words(1, further=1)))
