#!/usr/bin/env python3
"""What clients meet whose server is restarted under them without a word, behind `pgsess serve` and behind PgBouncer: how many fail while it
is away and once it is back, how long those wait that fail, and the slowest that is served. And whether what a client asks for in vain is
its own affair.

Usage: restart.py PROGRAM [ROUNDS]

The server is stopped by `pg_ctl stop -m fast` while four clients connect one after another, each for one query, and is started three
seconds later. The poolers are tried in turn, over a server of their own.
"""
import collections
import pathlib
import statistics
import sys
import threading
import time

sys.path.insert(0, str(pathlib.Path(__file__).resolve().parent.parent / "tests/lib"))
from asking import outcome_at
from cluster import Cluster, Place, Pooler, need, set_up, until
from passes import words

LOOPS, APART = 4, 0.05
BEFORE, AWAY, BEHIND = 3, 3, 16

Visit = collections.namedtuple("Visit", "began ended told")


def visits(port, until_when, found):
    while time.monotonic() < until_when:
        began = time.monotonic()
        what = outcome_at(port)
        found.append(Visit(began, time.monotonic(), what))
        time.sleep(APART)


def restarted(cluster, port):
    """All visits, and when the server was back."""
    found, end = [], time.monotonic() + BEFORE + AWAY + BEHIND
    loops = [threading.Thread(target=visits, args=(port, end, found)) for _ in range(LOOPS)]
    for it in loops:
        it.start()
    time.sleep(BEFORE)
    cluster.stop("fast")
    time.sleep(AWAY)
    cluster.start()
    back = time.monotonic()
    for it in loops:
        it.join()
    return found, back


def behind_another(port):
    """How many of four clients fail that come behind one who asks for replication."""
    outcome_at(port, replication="database")
    return sum(outcome_at(port) != "served" for _ in range(4))


def measured(program, kind):
    with Place() as place:
        cluster = Cluster(place)
        pooler = Pooler(place, cluster, program, kind=kind)
        until(lambda: outcome_at(pooler.port) == "served", 10)
        print(f"{kind}: {behind_another(pooler.port)} of 4 clients fail behind one who asks for replication", flush=True)
        found, back = restarted(cluster, pooler.port)
        failed = [it for it in found if it.told != "served"]
        late = [it for it in failed if it.ended > back]
        wait = statistics.median(it.ended - it.began for it in failed) if failed else 0
        print(f"{kind}: {len(found) - len(failed)} served, the slowest in "
              f"{max(it.ended - it.began for it in found if it.told == 'served'):.1f} s; "
              f"{len(failed)} failed, half of them within {wait:.3f} s; {len(late)} once the server was back"
              + (f", the last {max(it.ended for it in late) - back:.1f} s after that" if late else ""), flush=True)
        pooler.stop()
        cluster.stop()


def main(program, rounds=1):
    set_up()
    need(["pgbouncer"], ["pgbouncer"])
    for _ in range(int(rounds)):
        for kind in ("pgsess", "pgbouncer"):
            measured(program, kind)


if __name__ == "__main__":
    main(*words(1, further=1))
