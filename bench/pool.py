#!/usr/bin/env python3
"""pgbench through pgsess, through PgBouncer with equal settings, and over PostgreSQL directly, in an order by chance; and at last beside
connections that send nothing.

Usage: pool.py PROGRAM [ROUNDS [SECONDS]]: so many rounds (5), each measurement of so many seconds (2). What is printed is the median
of the rounds, and the least and the greatest; and of pgsess to PgBouncer the ratio of the medians, and of the best rounds, which other
work on the machine touches least.
"""
import pathlib
import random
import re
import resource
import shutil
import statistics
import subprocess
import sys
import time

sys.path.insert(0, str(pathlib.Path(__file__).resolve().parent.parent / "tests/lib"))
from asking import environment
from cluster import Cluster, Place, Pooler, need, set_up, until
from passes import words
from wire import Client, startup

CONNECTS = (1, 8, 32, 100, 400)
QUERIES = (1, 8, 32)
# bytes of a row, rows, COPY's format, and clients at once. In text PostgreSQL looks at each byte of a row; and one client's short rows
# are the work of one server, beside which no pooler's is seen: where each processor has a client, that of all counts.
BULK = ((1_048_576, 500, "binary", 1), (1_048_576, 500, "text", 1), (90, 3_000_000, "text", 1), (1, 10_000_000, "text", 1),
        (1, 3_000_000, "text", 4))
IDLE = (0, 1_000, 4_000)
# clients that each have an application name of their own
NAMES = 64
# connections that send nothing, and the clients that are served beside them
SILENT, SERVED = 10_000, 100
# the files of a connection, and those that the others need
FILES_EACH, FILES_MORE = 2, 1_000
LINKS = 40
MAX_CLIENTS = 10_000
# what a row has more than its value: type and length, and an end of line, or how many fields there are and the field's length
ROW_MORE = {"text": 6, "binary": 11}
GIGABYTE = 1e9


class Bench:
    def __init__(self, program, rounds, seconds):
        self.rounds, self.seconds, self.place = rounds, seconds, Place()
        self.cluster = Cluster(self.place, "shared_buffers = 256MB\n")
        self.poolers = {}
        kinds = ["pgsess"] + (["pgbouncer"] if shutil.which("pgbouncer") else [])
        for kind in kinds:
            self.poolers[kind] = Pooler(self.place, self.cluster, program, kind, auth="md5", size=LINKS, clients=MAX_CLIENTS, wait=0)
        self.ports = {**{kind: it.port for kind, it in self.poolers.items()}, "directly": self.cluster.port}
        self.untracked = Pooler(self.place, self.cluster, program, auth="md5", size=LINKS, clients=MAX_CLIENTS, wait=0,
                                untracked="application_name")
        self.pgbench(self.cluster.port, "-i", "-q", "-s", "10", timed=False)
        self.found = {}

    def pgbench(self, port, *words, timed=True):
        words = ["pgbench", *(["-n", "-S", "-T", str(self.seconds)] if timed else []), *words]
        done = subprocess.run(words, env=environment(port), capture_output=True, text=True)
        found = re.search(r"^tps = ([\d.]+)", done.stdout, re.MULTILINE)
        if done.returncode != 0 or (timed and not found):
            print(f"  {' '.join(words)}: {done.stderr.strip()[-200:]}")
            return None
        return float(found[1]) if timed else None

    def slowest(self, port):
        """The microseconds in which 99 of 100 simple queries of one client are answered."""
        if self.pgbench(port, "-M", "simple", "-c", "1", "-l", f"--log-prefix={self.place.folder / 'queries'}") is None:
            return None
        times = []
        for file in self.place.folder.glob("queries.*"):
            times += [int(line.split()[2]) for line in file.read_text().splitlines()]
            file.unlink()
        return sorted(times)[len(times) * 99 // 100]

    def names(self, port):
        """Connects a second of clients that each have an application name of their own."""
        words = ["pgbench", "-n", "-S", "-C", "-c", "1", "-T", str(self.seconds)]
        running = []
        for name in range(NAMES):
            own = {**environment(port), "PGAPPNAME": f"service {name}"}
            running.append(subprocess.Popen(words, env=own, stdout=subprocess.PIPE, stderr=subprocess.DEVNULL, text=True))
        rates = [re.search(r"^tps = ([\d.]+)", it.communicate()[0], re.MULTILINE) for it in running]
        return sum(float(it[1]) for it in rates) if all(rates) else None

    def bulk(self, port, size, rows, form, clients):
        """Seconds of these rows, which each of so many clients reads."""
        begin = time.monotonic()
        text = f"COPY (SELECT repeat('x', {size}) FROM generate_series(1, {rows})) TO STDOUT (FORMAT {form})"
        words = ["psql", "-X", "-q", "-c", text]
        running = [subprocess.Popen(words, env=environment(port), stdout=subprocess.DEVNULL) for _ in range(clients)]
        if any([it.wait() for it in running]):
            sys.exit(f"{' '.join(words)}: refused at port {port}")
        return time.monotonic() - begin

    def used(self, kind):
        """Seconds of the pooler's processor so far."""
        return self.poolers[kind].used() if kind in self.poolers else None

    def note(self, name, kind, value):
        if value is not None:
            self.found.setdefault(name, {}).setdefault(kind, []).append(value)

    def in_turn(self, ports):
        """Each of them once, in an order by chance: what else the machine does falls on none of them more than on another."""
        return random.sample(list(ports.items()), len(ports))

    def measure(self):
        """One round: each measurement over all of them, one after the other."""
        # A thread of pgbench connects its clients one after the other and reads no answer meanwhile: where a link is lent at the login, one
        # thread's clients would wait for a link that another client of the same thread holds. So each client has a thread of its own.
        for clients in CONNECTS:
            for kind, port in self.in_turn(self.ports):
                before, rate = self.used(kind), self.pgbench(port, "-C", "-c", str(clients), "-j", str(clients))
                self.note(f"connects a second, {clients} clients", kind, rate)
                if before is not None and rate:
                    used = (self.used(kind) - before) * 1e6 / (rate * self.seconds)
                    self.note(f"us of the pooler's processor a connect, {clients} clients", kind, used)
        for kind, port in self.in_turn({**self.ports, "pgsess": self.untracked.port}):
            self.note(f"connects a second, {NAMES} clients of as many application names", kind, self.names(port))
        for manner in ("simple", "prepared"):
            for clients in QUERIES:
                for kind, port in self.in_turn(self.ports):
                    self.note(f"{manner} queries a second, {clients} clients", kind,
                              self.pgbench(port, "-M", manner, "-c", str(clients), "-j", str(min(clients, 4))))
        for kind, port in self.in_turn(self.ports):
            self.note("us of a simple query, 99 of 100, 1 client", kind, self.slowest(port))
        for size, rows, form, clients in BULK:
            # all bytes are counted
            gigabytes = clients * rows * (size + ROW_MORE[form]) / GIGABYTE
            name = f"rows of {size} bytes in {form}" + (f", {clients} clients" if clients > 1 else "")
            for kind, port in self.in_turn(self.ports):
                before = self.used(kind)
                self.note(f"s/GB, {name}", kind, self.bulk(port, size, rows, form, clients) / gigabytes)
                if before is not None:
                    self.note(f"s/GB of the pooler's processor, {name}", kind, (self.used(kind) - before) / gigabytes)

    def idle(self):
        """Memory a client that has sent its StartupMessage and waits."""
        for kind, pooler in self.poolers.items():
            clients, least = [], None
            for count in IDLE:
                while len(clients) < count:
                    client = Client(pooler.port)
                    client.send(startup("ann", "shop"))
                    clients.append(client)
                time.sleep(1)
                kilobytes = pooler.resident()
                least = kilobytes if least is None else least
                each = f", {(kilobytes - least) / count:.1f} kB a client" if count else ""
                print(f"memory of {kind} with {count} clients: {kilobytes} kB{each}")
            for client in clients:
                client.socket.close()
            until(lambda: pooler.files() < 200, 20)

    def silent(self):
        """Connects a second without connections that send nothing, and beside them."""
        words = ["-C", "-c", str(SERVED), "-j", str(SERVED)]
        count = min(SILENT, (resource.getrlimit(resource.RLIMIT_NOFILE)[1] - FILES_MORE) // FILES_EACH)
        for kind, pooler in self.poolers.items():
            alone = self.pgbench(pooler.port, *words)
            clients = [Client(pooler.port) for _ in range(count)]
            time.sleep(1)
            before = pooler.used()
            time.sleep(self.seconds)
            idle = (pooler.used() - before) / self.seconds
            beside = self.pgbench(pooler.port, *words)
            print(f"{count} silent connections at {kind}: {100 * idle:.1f} per cent of a processor; {SERVED} others connect {beside:.0f} "
                  f"times a second, {beside / alone:.2f} times as often as without them")
            for client in clients:
                client.socket.close()
            until(lambda: pooler.files() < 200, 20)

    def tell(self):
        for name, kinds in self.found.items():
            shown = [f"{kind} {number(statistics.median(values))} ({number(min(values))} to {number(max(values))})"
                     for kind, values in sorted(kinds.items(), reverse=True)]
            ours, theirs = kinds.get("pgsess"), kinds.get("pgbouncer")
            best = max if "a second" in name else min
            ratio = ""
            if ours and theirs:
                median = statistics.median(ours) / statistics.median(theirs)
                ratio = f"; pgsess to pgbouncer {median:.2f}, of the best rounds {best(ours) / best(theirs):.2f}"
            print(f"{name}: {', '.join(shown)}{ratio}")

    def all(self):
        self.idle()
        for count in range(self.rounds):
            print(f"round {count + 1} of {self.rounds}", flush=True)
            self.measure()
        self.tell()
        self.silent()
        for pooler in [*self.poolers.values(), self.untracked]:
            pooler.stop()
        self.cluster.stop()


def number(value):
    return f"{value:.0f}" if value >= 100 else f"{value:.2f}"


def main(program, rounds=5, seconds=2):
    set_up()
    need(["pgbouncer"], ["pgbouncer"])
    hard = resource.getrlimit(resource.RLIMIT_NOFILE)[1]
    resource.setrlimit(resource.RLIMIT_NOFILE, (hard, hard))
    bench = Bench(program, int(rounds), int(seconds))
    with bench.place:
        bench.all()


if __name__ == "__main__":
    main(*words(1, further=2))
