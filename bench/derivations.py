#!/usr/bin/env python3
"""How often `pgsess serve` derives keys of its users' passwords, counted by callgrind: for servers that ask for SCRAM once for each of a
user's salts, however many links are started; for clients once for each user behind the start, and not again behind RELOAD; and not at all
where the user file has the servers' verifiers. And that a login that fails costs the same, whoever it names.

Usage: derivations.py PROGRAM
"""
import os
import pathlib
import re
import sys

sys.path.insert(0, str(pathlib.Path(__file__).resolve().parent.parent / "tests/lib"))
from asking import outcome, run
from cluster import USERS, Installed, Pooler, need, until
from passes import play
from scram_reader import prepared
from scram_talk import BEFORE, HONEST, PEOPLE, Server, Told
from wire import Client

# what each round of a derivation calls once, in the program's symbols; all else together calls it some ten times a login
ROUND = re.compile(r"scram::hmac_key::HmacKey::of\b")
ROUNDS = 4096
CLIENTS, EACH = 8, 5
SALTS = [bytes([it]) * 16 for it in range(4)]


class Count(Told):
    def __init__(self, program):
        need(["valgrind"], ["valgrind"])
        super().__init__(program, "derivations", PEOPLE)
        self.program = self.counted(program)
        self.cluster = Installed(self.place)

    def counted(self, program):
        """A program that is that one under callgrind."""
        path = self.place.write("pgsess", f'#!/bin/sh\nexec valgrind --quiet --tool=callgrind '
                                          f'--callgrind-out-file={self.place.folder}/calls.%p "{program}" "$@"\n')
        os.chmod(path, 0o755)
        return path

    def derived(self, pooler):
        """How many keys were derived since it was asked last."""
        return self.hmacs(pooler) // ROUNDS

    def hmacs(self, pooler):
        """How many HMACs were made since it was asked last."""
        pid = pooler.process.pid
        known = set(self.place.folder.glob("calls.*"))
        self.place.run("callgrind_control", "-d", str(pid))
        until(lambda: set(self.place.folder.glob("calls.*")) - known, 20)
        return sum(calls_in(file.read_text()) for file in set(self.place.folder.glob("calls.*")) - known)

    def poolers(self, **more):
        return Pooler(self.place, self.cluster, self.program, size=CLIENTS, clients=4 * CLIENTS, wait=60, **more)

    def installed(self):
        """In front of a PostgreSQL as it is installed."""
        pooler = self.poolers(auth="md5")
        for user in ("ann", "ute", "soft"):
            Client(pooler.port, user, "shop", USERS[user][0], seconds=120).leave()
        self.passes.same("three users log in", self.derived(pooler), 3)
        words = ["pgbench", "-n", "-S", "-C", "-c", str(CLIENTS), "-j", str(CLIENTS), "-t", str(EACH)]
        run(["pgbench", "-i", "-q"], self.cluster.port, "ann")
        status, _, errors = run(words, pooler.port, "ann")
        self.passes.same(f"pgbench -C with {CLIENTS} clients", (status, self.derived(pooler)), (0, 0))
        holder = Client(pooler.port, "mo", "shop", BEFORE, seconds=120)
        self.passes.same("a fourth user", self.derived(pooler), 1)
        self.cluster.tell(f"ALTER ROLE mo PASSWORD '{BEFORE}'")
        for _ in range(3):
            Client(pooler.port, "mo", "shop", BEFORE, seconds=120, application_name=os.urandom(4).hex()).leave()
        self.passes.same("whose role got its password anew, three links", self.derived(pooler), 1)
        holder.leave()
        pooler.stop()

    def by_scram(self):
        """Clients that are asked for SCRAM, in front of such a server."""
        pooler = self.poolers(auth="scram-sha-256")
        plain = [name for name, (_, secret) in PEOPLE.items() if not secret.startswith(("md5", "SCRAM"))]
        made = []
        until(lambda: made.append(self.hmacs(pooler)) or sum(made) >= len(plain) * ROUNDS, 120)
        self.passes.same(f"behind the start, {len(plain)} passwords", sum(made) // ROUNDS, len(plain))
        for user in ("ann", "ute", "soft"):
            Client(pooler.port, user, "shop", prepared(USERS[user][0].encode()).decode(), seconds=120).leave()
        self.passes.same("three users log in by SCRAM: once each, for the server", self.derived(pooler), 3)
        words = ["pgbench", "-n", "-S", "-C", "-c", str(CLIENTS), "-j", str(CLIENTS), "-t", str(EACH)]
        status, _, errors = run(words, pooler.port, "ann")
        self.passes.same(f"pgbench -C with {CLIENTS} clients, by SCRAM on both sides", (status, self.derived(pooler)), (0, 0))
        console = Client(pooler.port, "root", "pgbouncer", USERS["root"][0], seconds=120)
        console.ask("RELOAD")
        console.leave()
        self.hmacs(pooler)
        costs = {}
        for who in ("ann", "bc", "vera", "nobody"):
            told = outcome(lambda: Client(pooler.port, who, "shop", "a wrong password", seconds=120))
            costs[who] = (told[:5], self.hmacs(pooler))
        self.passes.same(f"a wrong proof of a password's user, a digest's, a verifier's and nobody: {costs}", len(set(costs.values())), 1)
        pooler.stop()

    def salted(self):
        """Servers of four salts behind one user, each dialled three times."""
        servers = {f"salt{it}": Server(HONEST["honest"]._replace(rounds=ROUNDS, salt=salt)) for it, salt in enumerate(SALTS)}
        pooler = self.poolers(auth="trust", more={name: server.port for name, server in servers.items()})
        for round in range(3):
            for name in servers:
                Client(pooler.port, "ann", name, seconds=120, application_name=f"round{round}").leave()
        self.passes.same(f"four servers of four salts, {3 * len(servers)} starts", self.derived(pooler), len(SALTS))
        pooler.stop()

    def verified(self):
        """Nothing but the server's own verifiers: what a client reveals starts its link."""
        for name, verifier in self.cluster.tell("SELECT rolname, rolpassword FROM pg_authid WHERE rolpassword LIKE 'SCRAM-SHA-256$%'"):
            USERS[name] = (USERS[name][0], verifier)
        pooler = self.poolers(auth="scram-sha-256")
        for user in ("ann", "ute", "soft"):
            Client(pooler.port, user, "shop", prepared(USERS[user][0].encode()).decode(), seconds=120).leave()
        words = ["pgbench", "-n", "-S", "-C", "-c", str(CLIENTS), "-j", str(CLIENTS), "-t", str(EACH)]
        status, _, errors = run(words, pooler.port, "ann")
        self.passes.same("verifiers alone: three users, and pgbench -C, by SCRAM on both sides", (status, self.derived(pooler)), (0, 0))
        pooler.stop()

    def all(self):
        self.installed()
        self.by_scram()
        self.salted()
        self.verified()
        self.cluster.stop()


def calls_in(text):
    """The rounds, in a file of callgrind: each name stands once, and its number behind that."""
    names, called, count = {}, "", 0
    for line in text.splitlines():
        if named := re.match(r"c?fn=\((\d+)\)(?: (.*))?$", line):
            names.setdefault(named[1], named[2] or "")
            if line.startswith("c"):
                called = names[named[1]]
        elif line.startswith("calls=") and ROUND.search(called):
            count += int(line[6:].split()[0])
    return count


if __name__ == "__main__":
    play(Count)
