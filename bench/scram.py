#!/usr/bin/env python3
"""What a connect costs by SCRAM on both sides, beside MD5 on both, through pgsess and through PgBouncer with equal settings.

Usage: scram.py PROGRAM [ROUNDS [SECONDS]]: so many rounds (5), each measurement of so many seconds (2). What is printed is the median
of the rounds: connects a second, the pooler's processor time a connect, and of both the ratio of pgsess to PgBouncer.
"""
import pathlib
import random
import re
import statistics
import subprocess
import sys

sys.path.insert(0, str(pathlib.Path(__file__).resolve().parent.parent / "tests/lib"))
from asking import environment
from cluster import USERS, Cluster, Installed, Place, Pooler, need, set_up
from passes import words
from wire import Client

CLIENTS = (1, 8, 32)
LINKS = 40
KINDS = ("pgsess", "pgbouncer")


class Bench:
    def __init__(self, program, clusters, rounds, seconds):
        self.clusters, self.rounds, self.seconds, self.found = clusters, rounds, seconds, {}
        self.poolers = {(auth, kind): Pooler(cluster.place, cluster, program, kind, auth=auth, size=LINKS, clients=1000, wait=0)
                        for auth, cluster in clusters.items() for kind in KINDS}
        for pooler in self.poolers.values():
            Client(pooler.port, "ann", "shop", USERS["ann"][0]).leave()

    def measure(self, auth, kind, clients):
        """Connects a second, and the pooler's microseconds for each."""
        pooler = self.poolers[auth, kind]
        words = ["pgbench", "-n", "-C", "-f", "/dev/stdin", "-c", str(clients), "-j", str(clients), "-T", str(self.seconds)]
        before = pooler.used()
        done = subprocess.run(words, input="SELECT 1;\n", env=environment(pooler.port), capture_output=True, text=True, check=True,
                              timeout=120)
        count = int(re.search(r"actually processed: (\d+)", done.stdout)[1])
        self.found.setdefault((auth, clients, kind), []).append((count / self.seconds, (pooler.used() - before) / count * 1e6))

    def run(self):
        tasks = [(auth, kind, clients) for auth, kind in self.poolers for clients in CLIENTS]
        for number in range(self.rounds):
            for task in random.sample(tasks, len(tasks)):
                self.measure(*task)
            print(f"round {number + 1} of {self.rounds}", file=sys.stderr, flush=True)

    def tell(self):
        print("auth_type      clients  connects a second: pgsess, PgBouncer, ratio   microseconds of the pooler a connect: pgsess, "
              "PgBouncer, ratio")
        for auth in self.clusters:
            for clients in CLIENTS:
                rates, costs = zip(*((statistics.median(it[0] for it in found), statistics.median(it[1] for it in found))
                                     for found in (self.found[auth, clients, kind] for kind in KINDS)))
                print(f"{auth:14} {clients:7}  {rates[0]:24.0f}, {rates[1]:9.0f}, {rates[0] / rates[1]:5.2f}   {costs[0]:44.0f}, "
                      f"{costs[1]:9.0f}, {costs[0] / costs[1]:5.2f}")


def main(program, rounds=5, seconds=2):
    set_up()
    need(["pgbouncer"], ["pgbouncer"])
    with Place() as plain, Place() as installed:
        bench = Bench(program, {"md5": Cluster(plain), "scram-sha-256": Installed(installed)}, int(rounds), int(seconds))
        bench.run()
        bench.tell()


if __name__ == "__main__":
    main(*words(1, further=2))
