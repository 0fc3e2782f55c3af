#!/usr/bin/env python3
"""10 MB, 100 MB and 1 GB of rows of 12 bytes, and of 1 MB, through a relay between ends in memory: seconds a GB, beside a plain C program
that copies the same bytes through two buffers of the same size; and the relay's instructions a row of 11 bytes, where valgrind is there to
count them.

Usage: relay.py TRIALS
"""
import pathlib
import shutil
import sys
import tempfile

from timing import compiled, judged, seconds

sys.path.insert(0, str(pathlib.Path(__file__).resolve().parent.parent / "tests/lib"))
from counting import instructions
from passes import words

SIZES = [10_000_000, 100_000_000, 1_000_000_000]


def taken(program, row, total, *more):
    """Seconds of processor time for a gigabyte."""
    return seconds([*program, str(row), str(total), *more], b"", 3) * 1e9 / total


def measured(relay, copy):
    """Whether each bound is met."""
    met = True
    for row, name in [(12, "rows of 12 bytes"), (1_048_576, "rows of 1 MB")]:
        times = [taken(relay, row, total) for total in SIZES]
        print(f"{name}: " + ", ".join(f"{t:.2f} s/GB over {s // 1_000_000} MB" for t, s in zip(times, SIZES)))
        copied = taken(copy, row, SIZES[-1])
        headed = taken(copy, row, SIZES[-1], "heads")
        print(f"{name}: C copies 1 GB in {copied:.2f} s, and reading each head in {headed:.2f} s")
        met &= judged(f"{name}: time per byte from 10 MB to 1 GB", times[-1] / times[0], 1.3)
        met &= judged(f"{name}: beside the C program that reads each head", times[-1] / headed, 3)
    if shutil.which("valgrind"):
        # the ends in memory included
        met &= judged("instructions a row of 11 bytes", instructions(*relay, 11, 11_000_000) / 1_000_000, 150)
    return met


def main(trials):
    with tempfile.TemporaryDirectory() as work:
        return 0 if measured([trials, "relay"], [compiled(work, "copy_rows")]) else 1


if __name__ == "__main__":
    sys.exit(main(*words(1)))
