#!/usr/bin/env python3
"""Shows that what an event of the lease book costs hangs neither on how many clients there are nor on how many pools: by the instructions
that `trials book` takes with few of both and with many, counted by valgrind. A walk over all rows in an event would take some hundred times
as many. bench/book.py tells the time.

Usage: book_costs.py TRIALS
"""
import pathlib
import sys

sys.path.insert(0, str(pathlib.Path(__file__).resolve().parents[1] / "lib"))
from cluster import need
from counting import FEW, MANY, an_event, instructions
from passes import Passes, words

EVENTS, MOST = 2_000, 1.5


def main(trials):
    need(["valgrind"], ["valgrind"])
    passes = Passes("book costs")
    few, many = (an_event(instructions, trials, crowd, EVENTS) for crowd in (FEW, MANY))
    passes.holds(f"an event with {FEW[0]} clients of one pool takes {few:.0f} instructions, with {MANY[0]} of {MANY[1]} pools {many:.0f}",
                 many <= MOST * few, f"more than {MOST} times as many")
    passes.end()


if __name__ == "__main__":
    main(*words(1))
