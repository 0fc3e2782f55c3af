#!/usr/bin/env python3
"""Thousands of connections that send nothing, half a packet, garbage, or are reset in mid frame: others are served meanwhile,
and no file, thread or link is lost.

Usage: abuse.py PROGRAM [full]      without `full` there are as many as fit a minute
"""
import os
import pathlib
import random
import resource
import sys
import time

sys.path.insert(0, str(pathlib.Path(__file__).resolve().parents[1] / "lib"))
from cluster import USERS, Cluster, until
from passes import Show, play
from wire import Client, Cut, Refused, message, query, startup

KIND = os.environ.get("POOLER", "pgsess")
# connections that send nothing, half a first packet, garbage; and that are reset in mid frame
COUNTS = {"short": (2_000, 500, 500, 100), "full": (10_000, 1_000, 2_000, 1_000)}
LINKS = 4
# a connection has a socket and what waits for it, and the pooler some files of its own
FILES_EACH, FILES_MORE = 2, 100
# so many threads that wait for a connection are kept
MAX_WAITING = 8
SLOWEST = 5.0
SEED = 20261123


class Abuse(Show):
    def __init__(self, program, size="short"):
        if size not in COUNTS:
            sys.exit(__doc__)
        hard = resource.getrlimit(resource.RLIMIT_NOFILE)[1]
        resource.setrlimit(resource.RLIMIT_NOFILE, (hard, hard))
        super().__init__(program, "abuse")
        self.silent, self.halves, self.garbage, self.resets = COUNTS[size]
        self.random = random.Random(SEED)

    def client(self):
        return Client(self.pooler.port, "ann", "shop", USERS["ann"][0])

    def serves(self, name, times=20):
        """Others are served, each soon."""
        slowest = 0.0
        try:
            for number in range(times):
                begin = time.monotonic()
                client = self.client()
                rows = client.ask(f"SELECT {number}")
                client.leave()
                slowest = max(slowest, time.monotonic() - begin)
                if rows != [[str(number)]]:
                    self.passes.tell(f"{name}: others are served", f"{rows} for {number}")
                    return
        except (Cut, Refused, OSError) as error:
            self.passes.tell(f"{name}: others are served", repr(error))
            return
        self.passes.holds(f"{name}: others are served, each within {slowest:.2f} s", slowest < SLOWEST, f"{slowest:.2f} s")

    def open(self, count, first=b""):
        """Connections that send this first."""
        made = []
        for _ in range(count):
            client = Client(self.pooler.port)
            if first:
                client.send(first)
            made.append(client)
        return made

    def close(self, clients, cut=False):
        for client in clients:
            if cut:
                client.cut()
            else:
                client.socket.close()

    def idles(self):
        room = resource.getrlimit(resource.RLIMIT_NOFILE)[1] - FILES_MORE
        count = min(self.silent, room // FILES_EACH)
        begin = time.monotonic()
        clients = self.open(count)
        self.serves(f"{count} connections that send nothing")
        print(f"       {time.monotonic() - begin:.1f} s, {self.pooler.resident() // 1024} MB, {self.pooler.files()} files")
        self.close(clients)

    def half(self):
        whole = startup("ann", "shop", application_name="half")
        clients = self.open(self.halves // 2, whole[:len(whole) // 2]) + self.open(self.halves - self.halves // 2, whole[:3])
        self.serves(f"{self.halves} halves of a first packet")
        self.close(clients, cut=True)

    def rubbish(self):
        """First packets of random bytes, and lawful ones with wrong lengths and codes, are closed or wait; a refusal is whole."""
        wrong = []
        for number in range(self.garbage):
            client = Client(self.pooler.port, seconds=2)
            data = self.random.randbytes(self.random.randrange(8, 200))
            if number % 3 == 1:
                data = (8).to_bytes(4, "big") + data[:4]
            if number % 3 == 2:
                data = len(data).to_bytes(4, "big") + (196608 + number % 2).to_bytes(4, "big") + data[8:]
            try:
                client.send(data)
                kind, _ = client.next()
                if kind != b"E":
                    wrong.append((data[:8], kind))
            except (Cut, OSError):
                pass
            client.socket.close()
        self.passes.same(f"{self.garbage} first packets of garbage are refused or closed", wrong[:3], [])
        self.serves("after the garbage")

    def cut(self):
        """Logged in, and reset in mid frame, in mid answer, or after half a frame's head."""
        parts = [query("SELECT 1" + " " * 300)[:100], query("SELECT repeat('x', 1000000)"), message(b"Q", b"x" * 10)[:3], b""]
        lost = 0
        for number in range(self.resets):
            try:
                client = self.client()
                client.send(parts[number % len(parts)])
                client.cut()
            except (Cut, Refused, OSError):
                lost += 1
        self.passes.same(f"{self.resets} clients that are reset in mid frame: each was let in", lost, 0)
        self.serves("after the resets")

    def all(self):
        self.cluster = Cluster(self.place)
        self.begin(kind=KIND, auth="md5", size=LINKS, clients=100 if KIND == "pgsess" else 20_000)
        threads = self.pooler.threads()
        self.serves("at first")
        more = self.pooler.threads() - threads
        self.passes.holds("clients one after another: a thread that is done serves the next", more <= MAX_WAITING, f"{more} threads more")
        files, threads = self.pooler.files(), self.pooler.threads()
        for step in (self.idles, self.half, self.rubbish, self.cut):
            step()
            # a link stays in the pool, and may be another one now
            # threads beyond those that wait for a connection end after ten seconds
            back = until(lambda: self.pooler.files() <= files + LINKS and self.pooler.has_its_polls() and self.pooler.threads() <= threads
                         + MAX_WAITING, 30)
            self.passes.holds(f"{step.__name__}: no file and no thread is lost", back,
                              f"{self.pooler.files()} files for {files}, {self.pooler.threads()} threads for {threads}")
            links = until(lambda: len(self.cluster.backends()) <= LINKS, 10)
            self.passes.holds(f"{step.__name__}: no more than {LINKS} sessions of the server", links, f"{len(self.cluster.backends())}")
        self.passes.holds("the pooler still runs", self.pooler.runs())
        self.pooler.stop()
        self.cluster.stop()
        self.passes.same("no process is left", self.place.left(), [])


if __name__ == "__main__":
    play(Abuse, further=1)
