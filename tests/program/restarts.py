#!/usr/bin/env python3
"""Shows that idle links are watched by `pgsess serve`: whatever ends them, the clients that come behind it are served, in front of a
PostgreSQL server of Debian.

Usage: restarts.py PROGRAM. With POOLER=pgbouncer in the environment PgBouncer is tried, to see what is to be expected.
"""
import collections
import os
import pathlib
import re
import subprocess
import sys
import threading
import time

sys.path.insert(0, str(pathlib.Path(__file__).resolve().parents[1] / "lib"))
from asking import outcome_at
from cluster import Cluster, until
from passes import Show, play
from wire import Client

KIND = os.environ.get("POOLER", "pgsess")
LINKS, ROUNDS = 8, 2
BENCH_CLIENTS, BENCH_SECONDS = 8, 12
# seconds: how long an idle session may last at the server, and how far apart clients come
IDLE, APART, CLIENTS = 2, 3, 20
CLOSED = r"^pgsess: idle link (\d+) closed: (.*)$"


class Restarts(Show):
    def __init__(self, program):
        super().__init__(program, "restarts")
        self.cluster = Cluster(self.place)
        self.begin(kind=KIND, size=LINKS + 2)

    def idle_links(self):
        """Leaves so many links idle."""
        clients = [Client(self.pooler.port, "ann") for _ in range(LINKS)]
        for client in clients:
            client.leave()
        if not until(lambda: len(self.cluster.backends()) == LINKS, 10):
            sys.exit(f"there are {len(self.cluster.backends())} sessions and not {LINKS}")

    def log(self):
        return super().log() if KIND == "pgsess" else ""

    def causes(self, before):
        """Why idle links were closed since then, each link once."""
        found = re.findall(CLOSED, self.log()[before:], re.M)
        return collections.Counter(cause for _, cause in dict(found).items())

    def round(self, what, end, cause, count=LINKS):
        """Ends idle sessions so, and counts what the clients behind it are told."""
        self.idle_links()
        before = len(self.log())
        end()
        outcomes = collections.Counter(outcome_at(self.pooler.port) for _ in range(2 * LINKS))
        self.passes.same(f"{what}: {2 * LINKS} clients", dict(outcomes), {"served": 2 * LINKS})
        if KIND == "pgsess":
            until(lambda: sum(self.causes(before).values()) >= count, 5)
            causes = self.causes(before)
            self.passes.holds(f"{what}: the log names each link and why",
                              sum(causes.values()) == count and all(re.search(cause, it) for it in causes), str(causes))

    def restart(self, mode):
        self.cluster.stop(mode)
        self.cluster.start()

    def kill_one(self):
        """A server whose one process is killed ends all, and recovers."""
        until(self.cluster.crash(self.cluster.backends()[0]))

    def timeouts(self):
        """A server that ends idle sessions of its own accord, and clients farther apart than that."""
        self.cluster.tell(f"ALTER ROLE ann SET idle_session_timeout = '{IDLE}s'", "postgres")
        outcomes = collections.Counter()
        for _ in range(CLIENTS):
            outcomes[outcome_at(self.pooler.port)] += 1
            time.sleep(APART)
        self.passes.same("idle_session_timeout at the server, and clients farther apart", dict(outcomes), {"served": CLIENTS})
        self.cluster.tell("ALTER ROLE ann RESET idle_session_timeout", "postgres")

    def switch_over(self):
        """A server that is taken down in an orderly manner, under clients that come all the time."""
        words = ["pgbench", "-n", "-C", "-c", str(BENCH_CLIENTS), "-j", str(BENCH_CLIENTS), "-T", str(BENCH_SECONDS), "-f", "-", "-h",
                 "127.0.0.1", "-p", str(self.pooler.port), "-U", "ann", "shop"]
        bench = subprocess.Popen(words, stdin=subprocess.PIPE, stdout=subprocess.PIPE, stderr=subprocess.PIPE, text=True)
        bench.stdin.write("SELECT 1;\n")
        bench.stdin.close()
        time.sleep(2)
        for command in ("PAUSE", "RECONNECT", "WAIT_CLOSE"):
            self.console(command)
        self.passes.same("PAUSE, RECONNECT, WAIT_CLOSE: no session is left at the server", self.cluster.backends(), [])
        self.restart("fast")
        self.console("RESUME")
        out, errors = bench.stdout.read(), bench.stderr.read()
        status = bench.wait()
        done = re.search(r"number of transactions actually processed: (\d+)", out)
        failed = re.search(r"number of failed transactions: (\d+)", out)
        self.passes.same("PAUSE, RECONNECT, restart, RESUME under pgbench -C: none fails",
                         (status, failed[1] if failed else "0", errors.count("error")), (0, "0", 0))
        self.passes.holds("and clients were served before it and behind it", done and int(done[1]) > BENCH_CLIENTS * 10, out[-300:])

    def waits_for_close(self):
        """WAIT_CLOSE is answered once the last link that was there at RECONNECT has gone."""
        busy = Client(self.pooler.port, "ann")
        busy.ask("SELECT 1")
        before = self.cluster.backends()
        self.console("RECONNECT")
        answered = []
        waiter = threading.Thread(target=lambda: answered.append(self.console("WAIT_CLOSE shop")))
        waiter.start()
        self.console("WAIT_CLOSE closed")
        time.sleep(1.5)
        self.passes.same("WAIT_CLOSE waits while such a link is lent", answered, [])
        another = outcome_at(self.pooler.port), any(it not in before for it in self.cluster.backends())
        self.passes.same("and another client has a new one", another, ("served", True))
        busy.leave()
        waiter.join(10)
        self.passes.same("it is answered once that has gone", answered, [[]])
        self.passes.holds("and its session has ended", until(lambda: not set(before) & set(self.cluster.backends()), 5))

    def all(self):
        for _ in range(ROUNDS):
            self.round("stop -m fast, and start", lambda: self.restart("fast"), "its server said 57P01 ")
            self.round("stop -m immediate, and start", lambda: self.restart("immediate"),
                       "its server said 57P01 |server connection ended|its server said 57P02 ")
            self.round("SIGKILL of one process", self.kill_one, "its server said 57P02 |server connection ended")
        self.timeouts()
        if KIND == "pgsess":
            self.switch_over()
            self.waits_for_close()
            self.passes.tell("SHUTDOWN", self.pooler.shut())
        self.pooler.stop()
        self.cluster.stop()


if __name__ == "__main__":
    play(Restarts)
