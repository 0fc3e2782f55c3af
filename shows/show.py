#!/usr/bin/env python3
"""Shows the product: a pool in front of the stand-in server, and two clients one after the other over one link, of which the second finds
nothing of the first.

Usage: show.py PROGRAM [--keep]

With --keep the pool stays up until a key (Ctrl-C) ends it. The status says
whether all that is shown is right.
"""
import pathlib
import shutil
import signal
import subprocess
import sys

sys.path.insert(0, str(pathlib.Path(__file__).resolve().parents[1] / "tests/lib"))
from cluster import HERE, TOP, Place, Pooler, Stub
from passes import words
from wire import Client, Refused, message, query

ROW = TOP / "tests/rows/set_show_discard"
TABLE, STATEMENT, SETTING = "left_behind", "left_behind", "first client"


def say(words):
    print(words, flush=True)


def error_of(client, kinds, *messages):
    """The SQLSTATE that these messages come to, or nothing."""
    client.send(b"".join(messages))
    try:
        while client.until(*kinds)[0] != kinds[-1]:
            pass
    except Refused as error:
        return error.code
    return ""


def parse(name, text):
    return message(b"P", f"{name}\0{text}\0".encode() + b"\0\0")


def bind(name):
    return message(b"B", f"\0{name}\0".encode() + b"\0\0" * 3)


SYNC = message(b"S")


def first(port):
    client = Client(port, "ann")
    client.ask(f"SET application_name TO '{SETTING}'")
    client.ask(f"CREATE TEMP TABLE {TABLE} (a text)")
    client.ask(f"INSERT INTO {TABLE} VALUES ('secret')")
    error_of(client, (b"1", b"Z"), parse(STATEMENT, "SELECT * FROM city"), SYNC)
    shown = client.ask("SHOW application_name")
    say(f"  it sets application_name to {shown[0][0]!r}, makes a temporary table, prepares a statement, and leaves")
    client.leave()
    return shown == [[SETTING]]


def second(port):
    client = Client(port, "ann")
    shown = client.ask("SHOW application_name")
    table = error_of(client, (b"Z",), query(f"SELECT * FROM {TABLE}"))
    client.until(b"Z")
    statement = error_of(client, (b"2", b"Z"), bind(STATEMENT), SYNC)
    client.until(b"Z")
    say(f"  its application_name is {shown[0][0]!r}, the table is not there ({table}), the statement is not there ({statement})")
    client.leave()
    return (shown, table, statement) == ([[""]], "42P01", "26000")


def replay(program):
    given = subprocess.run([program, "replay"], stdin=open(f"{ROW}.in", "rb"), stdout=subprocess.PIPE, check=True).stdout
    right = given == pathlib.Path(f"{ROW}.out").read_bytes()
    say(f"`pgsess replay` answers the worked conversation by {len(given)} bytes: {'exactly those' if right else 'NOT those'} worked out by "
        f"hand from the manual")
    return right


def totals(port):
    """Links that were started, and how often one was lent again."""
    client = Client(port, "root", "pgbouncer")
    row = client.ask("SHOW TOTALS")[0]
    client.leave()
    return int(row[1]), int(row[2])


def shown(place, program):
    """Shows all of it: the port, and whether it is right."""
    stub = Stub(place, program, (TOP / "examples/catalogue.tsv").read_bytes())
    pooler = Pooler(place, stub, program, size=1)
    say(f"a stand-in PostgreSQL listens at {HERE} {stub.port}, and pgsess before it at {HERE} {pooler.port}, with one link")
    say("the first client:")
    right = first(pooler.port)
    say("the second client:")
    right = second(pooler.port) and right
    started, reused = totals(pooler.port)
    say(f"the console says that {started} link was started and lent again {reused} time: both had the same session")
    right = replay(program) and right and (started, reused) == (1, 1)
    say("all of it is right" if right else "THIS IS NOT RIGHT")
    return pooler.port, right


def keep(port):
    if shutil.which("psql"):
        say(f"now: psql -h {HERE} -p {port} -U ann shop      and: psql -h {HERE} -p {port} -U root pgbouncer -c 'SHOW POOLS'")
    say("the pool stays up until Ctrl-C")
    signal.pause()


def main():
    program, *more = words(1, further=1)
    try:
        with Place("nobody") as place:
            port, right = shown(place, program)
            if more == ["--keep"]:
                keep(port)
    except KeyboardInterrupt:
        return 0
    return 0 if right else 1


if __name__ == "__main__":
    sys.exit(main())
