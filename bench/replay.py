#!/usr/bin/env python3
"""Inputs of 1, 2, 4, 8 and 16 MB of short Queries through `pgsess replay`: time per byte, and the speed beside a plain C program that cuts
the same frames and writes the same bytes.

Usage: replay.py PROGRAM
"""
import pathlib
import sys
import tempfile

from timing import answer, compiled, judged, seconds

sys.path.insert(0, str(pathlib.Path(__file__).resolve().parent.parent / "tests/lib"))
from passes import words
from wire import query
from worked import ROWS, START

# what standard input of `replay` may have
LIMIT = 16_777_216
WELCOME = ROWS / "start.out"
MEGABYTE = 1 << 20
TIMES = 3
MAX_GROWTH = 1.3
MAX_SLOWER = 10


def conversation(message, size):
    """The start, and as many of the message as have room in so many bytes."""
    return START + message * ((min(size, LIMIT) - len(START)) // len(message))


def measured(name, message, program, cut_frames, reply_file):
    replay = [program, "replay"]
    reply = answer(replay, START + message)[len(WELCOME.read_bytes()):]
    reply_file.write_bytes(reply)
    plain = [cut_frames, str(WELCOME), str(reply_file)]
    small = conversation(message, MEGABYTE)
    if answer(replay, small) != answer(plain, small):
        raise SystemExit(f"{name}: the two programs answer differently")
    print(f"{name}: messages of {len(message)} bytes, replies of {len(reply)}")
    per_byte = {}
    for megabytes in (1, 2, 4, 8, 16):
        data = conversation(message, megabytes * MEGABYTE)
        taken = seconds(replay, data, TIMES)
        per_byte[megabytes] = taken / len(data)
        print(f"  {megabytes:2} MB: {taken:.3f} s, {1e9 * per_byte[megabytes]:.1f} ns a byte, {len(data) / taken / 1e6:.1f} MB/s")
    in_c = seconds(plain, data, TIMES)
    print(f"  16 MB in plain C: {in_c:.3f} s, {1e9 * in_c / len(data):.1f} ns a byte, {len(data) / in_c / 1e6:.1f} MB/s")
    flat = judged("  time per byte, 16 MB to 1 MB", per_byte[16] / per_byte[1], MAX_GROWTH)
    fast = judged("  pgsess to plain C, 16 MB", taken / in_c, MAX_SLOWER)
    return flat and fast


def main(program):
    with tempfile.TemporaryDirectory() as work:
        cut_frames, reply_file = compiled(work, "cut_frames"), pathlib.Path(work) / "reply"
        met = [measured(name, query(text), program, cut_frames, reply_file)
               for name, text in (("SHOW application_name", "SHOW application_name"), ("empty Queries", ""))]
    return 0 if all(met) else 1


if __name__ == "__main__":
    sys.exit(main(*words(1)))
