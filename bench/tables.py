#!/usr/bin/env python3
"""What a statement costs: 20,000 INSERTs into one temporary table, and 200,000 SHOWs without that table, beside it, and beside 1,000
prepared statements.

Usage: tables.py PROGRAM
"""
import pathlib
import sys

from timing import judged, seconds

sys.path.insert(0, str(pathlib.Path(__file__).resolve().parent.parent / "tests/lib"))
from passes import words
from wire import message, query
from worked import START

STATEMENTS = 20_000
SHOWS = 200_000
PREPARED = 1_000
TIMES = 9
MAX_GROWTH = 2
MAX_BESIDE = 1.2

CREATE = query("CREATE TEMP TABLE t (a text)")
INSERT = query("INSERT INTO t VALUES ('x')")
SHOW = query("SHOW application_name")
SYNC = message(b"S")


def parse(name, text):
    """A Parse that names no types."""
    return message(b"P", name.encode() + b"\0" + text.encode() + b"\0\0\0")


def main(program):
    def taken(data):
        return seconds([program, "replay"], START + data, TIMES)

    quarter = STATEMENTS // 4
    bare, empty = taken(b""), taken(CREATE)
    first, three, whole = (taken(CREATE + INSERT * n) for n in (quarter, 3 * quarter, STATEMENTS))
    print(f"{STATEMENTS} INSERTs into one temporary table, outside a block: {whole - empty:.3f} s")
    print(f"  first quarter: {1e6 * (first - empty) / quarter:.2f} us a statement, last quarter: {1e6 * (whole - three) / quarter:.2f} us")
    grown = judged("  last quarter to first", (whole - three) / (first - empty), MAX_GROWTH)
    alone = taken(SHOW * SHOWS) - bare
    beside = taken(CREATE + INSERT * STATEMENTS + SHOW * SHOWS) - whole
    print(f"{SHOWS} SHOWs: {1e6 * alone / SHOWS:.2f} us each without a table, {1e6 * beside / SHOWS:.2f} us beside that table")
    free = judged("  beside the table to without", beside / alone, MAX_BESIDE)
    prepared = b"".join(parse(f"s{i}", "SHOW TimeZone") for i in range(PREPARED)) + SYNC
    among = taken(prepared + SHOW * SHOWS) - taken(prepared)
    print(f"  {1e6 * among / SHOWS:.2f} us each beside {PREPARED} prepared statements")
    apart = judged("  beside the prepared statements to without", among / alone, MAX_BESIDE)
    return 0 if grown and free and apart else 1


if __name__ == "__main__":
    sys.exit(main(*words(1)))
