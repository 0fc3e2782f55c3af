#!/usr/bin/env python3
"""Counts the system's calls that a query and a connection cost the pooler, in front of a PostgreSQL server, by strace.

Usage: calls.py PROGRAM [MOST]

It also sees that what is small isn't held back on a connection. The counts are bounds: no try that comes to nothing belongs to a query, one
at most to a connection, and what both may cost is said below; MOST is another bound for a connection, whose waits depend on what else the
machine does. Where one process may not trace another nothing is counted, and that is said.
"""
import pathlib
import re
import sys
import time

sys.path.insert(0, str(pathlib.Path(__file__).resolve().parents[1] / "lib"))
from cluster import Cluster, Place, Pooler, need, set_up, until
from passes import Passes, words
from tracing import may_trace, traced
from wire import Client

QUERIES, CONNECTIONS = 500, 100
# seconds in which nothing is asked
IDLE = 3
# a read, a write and a wait for each of the two messages
MAX_A_QUERY = 6.2
MAX_VAIN_A_QUERY = 0.02
MAX_A_CONNECTION = 34.0
# a worker may look for the first packet before it has come
MAX_VAIN_A_CONNECTION = 1.1


class Counts:
    """What the pooler called while something was done."""

    def __init__(self, place, pid, work):
        lines, self.seconds = traced(place, pid, ["-c", "-U", "name,calls,errors"], work)
        self.calls, self.errors = {}, {}
        for line in lines:
            row = re.fullmatch(r"(\w+)\s+(\d+)(?:\s+(\d+))?\s*", line)
            if row and row.group(1) != "total":
                self.calls[row.group(1)] = int(row.group(2))
                self.errors[row.group(1)] = int(row.group(3) or 0)

    def all(self, idle=None):
        """How many calls; without those that an idle pooler makes in that time."""
        idle_calls = idle.all() / idle.seconds * self.seconds if idle else 0
        return sum(self.calls.values()) - idle_calls

    def vain(self):
        """Reads and writes that came to nothing."""
        return sum(self.errors.get(it, 0) for it in ["read", "recvfrom", "write", "sendto"])


def connect(port, user="ann"):
    client = Client(port, user)
    client.ask("SELECT 1")
    client.leave()


def queries(passes, place, pooler):
    """What a query costs; and what the pooler calls while nothing is asked."""
    client = Client(pooler.port, "ann")
    client.ask("SELECT 1")
    idle = Counts(place, pooler.process.pid, lambda: time.sleep(IDLE))
    counts = Counts(place, pooler.process.pid, lambda: [client.ask("SELECT 1") for _ in range(QUERIES)])
    client.leave()
    each, vain = counts.all(idle) / QUERIES, counts.vain() / QUERIES
    print(f"a query: {each:.2f} calls, {vain:.3f} of them in vain; {counts.calls}")
    passes.holds(f"a query costs at most {MAX_A_QUERY} calls", each <= MAX_A_QUERY, f"{each:.2f}")
    passes.holds("none of its reads and writes is in vain", vain <= MAX_VAIN_A_QUERY, f"{vain:.3f}")
    return idle


def small(passes, place, pooler):
    """What is small isn't held back. It is of another user, so that a link is started for it."""
    lines, _ = traced(place, pooler.process.pid, ["-e", "trace=setsockopt"], lambda: connect(pooler.port, "bc"))
    at_once = [line.split("TCP_NODELAY, ")[1].split(",")[0] for line in lines if "TCP_NODELAY" in line]
    passes.same("a client's connection and a link's send what is small at once", at_once, ["[1]", "[1]"])


def connections(passes, place, pooler, idle, most):
    """What a connection costs."""
    connect(pooler.port)
    until(lambda: pooler.threads() <= 12, 5)
    counts = Counts(place, pooler.process.pid, lambda: [connect(pooler.port) for _ in range(CONNECTIONS)])
    each, vain = counts.all(idle) / CONNECTIONS, counts.vain() / CONNECTIONS
    print(f"a connection with one query: {each:.2f} calls, {vain:.2f} of them in vain; {counts.calls}")
    passes.holds(f"a connection with one query costs at most {most} calls", each <= most, f"{each:.2f}")
    passes.holds(f"at most {MAX_VAIN_A_CONNECTION} of its reads and writes are in vain", vain <= MAX_VAIN_A_CONNECTION, f"{vain:.2f}")


def main(program, most=MAX_A_CONNECTION):
    set_up()
    need(["strace"], ["strace"])
    if not may_trace():
        print("calls: nothing was counted: one process may not trace another here")
        return
    passes = Passes("calls")
    with Place() as place:
        pooler = Pooler(place, Cluster(place), program)
        idle = queries(passes, place, pooler)
        small(passes, place, pooler)
        connections(passes, place, pooler, idle, float(most))
        pooler.stop()
    passes.end()


if __name__ == "__main__":
    main(*words(1, further=1))
