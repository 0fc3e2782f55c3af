#!/usr/bin/env python3
"""Puts `pgsess serve` in front of a PostgreSQL server of Debian, and shows what psql, pgbench and plain clients see of it.

Usage: postgres.py PROGRAM

With POOLER=pgbouncer in the environment PgBouncer stands in its place, to try the script itself: its
refusals have other texts, so only that it refuses is then looked at.
"""
import hashlib
import os
import pathlib
import re
import subprocess
import sys
import time

sys.path.insert(0, str(pathlib.Path(__file__).resolve().parents[1] / "lib"))
from asking import environment, failures, run
from cluster import USERS, Cluster, Pooler, free_port, until
from passes import Show, play
from wire import Client, Cut, Refused, message, query

KIND = os.environ.get("POOLER", "pgsess")
MEGABYTE = 1 << 20
# what a client may be told that lost its link
LOST = {"08006"} if KIND == "pgsess" else {"08P01", "57P01", "58000", "08006"}
# a server that goes tells its clients so itself
GOES = {"57P01", "57P02", "57P03"}
PROBES = {
    "settings": "SELECT name, setting, source FROM pg_settings WHERE name NOT LIKE 'transaction%' ORDER BY name",
    "tables": "SELECT relname FROM pg_class WHERE pg_table_is_visible(oid) AND relpersistence = 't'",
    "schemas": "SELECT pg_my_temp_schema() = 0 OR NOT EXISTS (SELECT FROM pg_class WHERE relnamespace = pg_my_temp_schema())",
    "statements": "SELECT name FROM pg_prepared_statements",
    "cursors": "SELECT name FROM pg_cursors",
    "locks": "SELECT locktype, objid, mode FROM pg_locks WHERE pid = pg_backend_pid() AND locktype = 'advisory'",
    "channels": "SELECT pg_listening_channels()",
    "roles": "SELECT current_user, session_user, current_setting('role')",
    "transaction": "SELECT txid_current_if_assigned()",
    "sequence": "SELECT lastval()",
}
# what a client does to its session before it leaves; the last are sent as they stand, and followed by a cut
DEEDS = {
    "SET": ["SET work_mem = '7MB'", "SET application_name TO 'left behind'"],
    "SET LOCAL in an open block": ["BEGIN", "SET LOCAL work_mem = '7MB'"],
    "CREATE TEMP TABLE": ["CREATE TEMP TABLE left_behind (a int)"],
    "PREPARE": ["PREPARE left_behind AS SELECT 1"],
    "DECLARE .. WITH HOLD": ["BEGIN", "DECLARE left_behind CURSOR WITH HOLD FOR SELECT 1", "COMMIT"],
    "LISTEN": ["LISTEN left_behind"],
    "pg_advisory_lock": ["SELECT pg_advisory_lock(17)"],
    "SET ROLE": ["SET ROLE clerk"],
    "nextval": ["SELECT nextval('numbers')"],
    "a failed block": ["BEGIN", "SET work_mem = '7MB'", "SELECT 1/0"],
    "a half-sent message": [query("SELECT 1" + " " * 100)[:50]],
    "a cut in mid COPY": [query("COPY cities FROM STDIN") + message(b"d", b"Thun\t4\n") + message(b"d", b"Biel\t5\n")[:8]],
    "a cut in mid answer": [query("SELECT repeat('x', 50000000)")],
}


def psql(port, user, text, *more, **rest):
    return run(["psql", "-X", "-q", "-v", "ON_ERROR_STOP=0", *more], port, user, given=text.encode(), **rest)


class Postgres(Show):
    """What is shown over one server."""

    def __init__(self, program):
        super().__init__(program, "postgres")

    def pooler(self, **settings):
        return Pooler(self.place, self.cluster, self.program, KIND, **settings)

    def client(self, pooler, user="ann", **more):
        return Client(pooler.port, user, "shop", USERS[user][0], **more)

    def probes(self, client):
        """What a client sees of its session, by the server's own views."""
        found = {}
        for name, text in PROBES.items():
            try:
                found[name] = client.ask(text)
            except Refused as error:
                found[name] = error.code
        return found

    # ---- a. the same as without a pooler

    def same(self, pooler, name, user, text, *more):
        """psql says the same over the pooler and without it. A notification tells the server's process, which differs."""
        through, direct = (psql(port, user, text, *more) for port in (pooler.port, self.cluster.port))
        number = re.compile(rb"PID \d+")
        through, direct = ((status, number.sub(b"PID", out), re.sub(r"port \d+", "port", errors)) for status, out,
                           errors in (through, direct))
        self.passes.same(f"{name}: as without the pooler", through, direct)

    def session(self, auth, user):
        """What one session does."""
        pooler = self.pooler(auth=auth)
        name = f"auth_type {auth}, {user}"
        self.same(pooler, f"{name}: SELECT 1", user, "SELECT 1;")
        self.same(pooler, f"{name}: \\d", user, "\\d\n\\d cities")
        self.same(pooler, f"{name}: an error in mid transaction", user, "BEGIN; SELECT 1/0; SELECT 2;\nSELECT 3;\nROLLBACK;\nSELECT 4;")
        self.same(pooler, f"{name}: LISTEN, NOTIFY", user, "LISTEN news;\nNOTIFY news, 'told';\nSELECT 1;\nUNLISTEN news;")
        self.same(pooler, f"{name}: PREPARE, cursors, settings", user,
                  "SET datestyle TO german;\nPREPARE p AS SELECT date '2026-11-23';\nEXECUTE p;\n"
                  "BEGIN;\nDECLARE k CURSOR FOR SELECT * FROM cities ORDER BY 1;\nFETCH 2 FROM k;\nCOMMIT;\nSHOW datestyle;")
        pooler.stop()

    def bulk(self):
        """100 MB each way, and a value of 64 MB."""
        pooler = self.pooler(auth="md5", size=40)
        rows = "COPY (SELECT i, repeat(md5(i::text), 3) FROM generate_series(1, 960000) i) TO STDOUT"
        through, direct = (run(["psql", "-X", "-q", "-c", rows], port, "ann") for port in (pooler.port, self.cluster.port))
        self.passes.holds(f"COPY out of {len(direct[1]) // 1_000_000} MB: as without the pooler",
                          through == direct and len(direct[1]) > 95_000_000)
        status, _, errors = run(["psql", "-X", "-q", "-c", "COPY bulk FROM STDIN"], pooler.port, "ann", given=direct[1])
        count = self.cluster.tell("SELECT count(*), sum(hashtext(b)) FROM bulk")
        wanted = self.cluster.tell("SELECT count(*), sum(hashtext(repeat(md5(i::text), 3))) FROM generate_series(1, 960000) i")
        self.passes.same("COPY in of as many", (status, errors, count), (0, "", wanted))
        text = "SELECT repeat('0123456789abcdef', 4194304)"
        through, direct = (run(["psql", "-X", "-q", "-A", "-t", "-c", text], port, "ann") for port in (pooler.port, self.cluster.port))
        self.passes.holds("a value of 64 MB out: as without the pooler", through == direct and len(direct[1]) == 64 * MEGABYTE + 1)
        value = "0123456789abcdef" * 4194304
        status, out, errors = psql(pooler.port, "ann", f"SELECT length(v), md5(v) FROM (SELECT '{value}'::text v) t;", "-A", "-t")
        self.passes.same("a value of 64 MB in", (status, out.decode().strip(), errors),
                         (0, f"{len(value)}|{hashlib.md5(value.encode()).hexdigest()}", ""))
        status, out, errors = run(["pgbench", "-n", "-S", "-M", "prepared", "-c", "32", "-j", "4", "-T", "5"], pooler.port, "ann")
        self.passes.same("pgbench, 32 prepared clients for 5 s: no error", (status, failures(out, errors)), (0, []))
        print(f"       {rate(out)} transactions a second")
        pooler.stop()

    # ---- b. isolation

    def isolation(self):
        """With one link in the pool, the client after each deed sees what a fresh session sees."""
        pooler = self.pooler(auth="md5", size=1)
        direct = Client(self.cluster.port, "ann", "shop", USERS["ann"][0])
        wanted = self.probes(direct)
        direct.leave()
        for name, deed in DEEDS.items():
            self.after(pooler, name, deed, wanted)
        self.passes.holds("isolation: one session is left at most", until(lambda: len(self.cluster.backends()) <= 1, 10))
        pooler.stop()

    def after(self, pooler, name, deed, wanted):
        complaints = self.cluster.complaints()
        first = self.client(pooler)
        for step in deed:
            if isinstance(step, bytes):
                first.send(step)
            else:
                try:
                    first.ask(step)
                except Refused:
                    pass
        if isinstance(deed[-1], bytes):
            time.sleep(0.05)
            first.cut()
        else:
            first.leave()
        second = self.client(pooler)
        found = self.probes(second)
        second.leave()
        wrong = {probe: (found[probe], wanted[probe]) for probe in PROBES if found[probe] != wanted[probe]}
        self.passes.same(f"after {name} the next client sees nothing of it", wrong, {})
        if KIND == "pgsess" and not isinstance(deed[-1], bytes):
            self.passes.same(f"after {name} the server doesn't complain of its end", self.cluster.complaints() - complaints, 0)

    # ---- c. few links

    def few_links(self):
        pooler = self.pooler(auth="md5", size=4)
        before = self.cluster.logins()
        # a thread of pgbench waits for each login, which comes with its link, and would leave its other clients on their links
        status, out, errors = run(["pgbench", "-n", "-S", "-C", "-c", "32", "-j", "32", "-T", "5"], pooler.port, "ann")
        self.passes.same("pgbench -C, 32 clients on 4 links for 5 s: no error", (status, failures(out, errors)), (0, []))
        print(f"       {rate(out)} connections a second")
        opened = self.cluster.logins() - before
        self.passes.holds("no more than 4 sessions were opened", 1 <= opened <= 4, f"{opened} were")
        pooler.stop()

    def names(self):
        """Clients that differ in their application_name alone, one after another over one link: each has it and a session of its own; where
        it isn't followed they share a session, which has the server's default of it."""
        for untracked, wanted in (("", (2, ["one", "two"])), ("application_name", (1, ["", ""]))):
            pooler = self.pooler(size=1, untracked=untracked)
            seen = []
            for name in ("one", "two"):
                client = self.client(pooler, application_name=name)
                seen += client.ask("SELECT pg_backend_pid(), current_setting('application_name')")
                client.leave()
            told = len({process for process, _ in seen}), [name for _, name in seen]
            self.passes.same(f"clients of different names, untracked: {untracked or 'nothing'}", told, wanted)
            pooler.stop()

    # ---- d. servers that go

    def serves_again(self, pooler, name):
        """Clients that come later are refused by name at most, and then served."""
        told = []

        def served():
            try:
                client = self.client(pooler)
                client.ask("SELECT 1")
                client.leave()
                return True
            except Refused as error:
                told.append(error.code)
            except (Cut, OSError):
                told.append("cut")
            time.sleep(0.05)
            return False

        good = until(served, 20)
        allowed = LOST | GOES | {"08001", "cut"} | ({"08P01", "08006"} if KIND != "pgsess" else set())
        self.passes.holds(f"{name}: the pooler serves again", good and set(told) <= allowed and pooler.runs(), f"{sorted(set(told))}")

    def loses(self, client, name, text=None):
        """A client whose link goes is told so by name, or cut."""
        try:
            if text:
                client.ask(text)
            else:
                kind, body = client.until(b"E")
                raise Refused(body)
            told = "answered"
        except Refused as error:
            told = error.code
            if told in GOES:
                try:
                    kind, body = client.next()
                    told = Refused(body).code if kind == b"E" else f"a message {kind!r} after {told}"
                except (Cut, OSError):
                    pass
        except (Cut, OSError):
            told = "cut"
        self.passes.holds(f"{name}: its client is told by name, or cut", told in LOST | GOES | {"cut"}, f"{told}")
        client.socket.close()

    def killed(self):
        pooler = self.pooler(auth="md5", size=1)
        self.client(pooler).leave()
        until(lambda: len(self.cluster.backends()) == 1)
        until(self.cluster.crash(self.cluster.backends()[0]))
        self.serves_again(pooler, "an idle backend is killed")
        busy = self.client(pooler)
        busy.send(query("SELECT pg_sleep(30)"))
        until(lambda: self.cluster.tell("SELECT count(*) FROM pg_stat_activity WHERE query LIKE 'SELECT pg_sleep%' AND state = "
                                        "'active'") == [["1"]])
        has_recovered = self.cluster.crash(self.cluster.backends()[0])
        self.loses(busy, "a busy backend is killed")
        until(has_recovered)
        self.serves_again(pooler, "a busy backend is killed")
        waiting = self.client(pooler)
        self.cluster.stop()
        self.loses(waiting, "the server is stopped", "SELECT 1")
        self.unreached(pooler)
        self.cluster.start()
        self.serves_again(pooler, "the server is started again")
        pooler.stop()

    def unreached(self, pooler):
        if KIND != "pgsess":
            return
        told = ""
        for _ in range(3):
            try:
                self.client(pooler).leave()
                told = "served"
            except Refused as error:
                told = f"{error.code} {error.text}"
            except (Cut, OSError):
                told = "cut"
        self.passes.same("while the server is stopped", told, "08001 server could not be reached")

    # ---- e. refusals

    def refused(self, name, told, text, **how):
        """psql ends with status 2, and tells this text."""
        status, _, errors = told
        lines = [line for line in errors.splitlines() if line.strip()]
        if KIND == "pgsess":
            fault = "" if status == 2 and len(lines) == 1 and lines[0].endswith(f"FATAL:  {text}") else f"status {status}, {lines}"
        else:
            fault = "" if status == 2 and lines else f"status {status}, {lines}"
        self.passes.tell(f"{name}: psql tells `{text}`", fault)

    def refusals(self):
        ask = "SELECT 1;"
        pooler = self.pooler(auth="md5", size=1, clients=2, wait=1, closed=free_port())
        failed = "password authentication failed"
        self.refused("wrong password", psql(pooler.port, "ann", ask, password="other"), failed)
        USERS.setdefault("zed", ("x", "x"))
        self.refused("unknown user", psql(pooler.port, "zed", ask), failed)
        del USERS["zed"]
        self.refused("unknown database", psql(pooler.port, "ann", ask, database="nowhere"), "database does not exist")
        if KIND == "pgsess":
            self.refused("a port where nothing listens", psql(pooler.port, "ann", ask, database="closed"), "server could not be reached")
        one = self.client(pooler)
        one.ask("SELECT 1")
        self.refused("a full pool for query_wait_timeout", psql(pooler.port, "ann", ask), "query_wait_timeout")
        waiting = Client(pooler.port)
        self.refused("max_client_conn", self.third(pooler, ask), "too many client connections")
        waiting.socket.close()
        one.leave()
        pooler.stop()
        self.waits_and_is_served()

    def third(self, pooler, ask):
        """psql, while two clients have arrived: one has the link, and the other waits for it."""
        other = subprocess.Popen(["psql", "-X", "-q", "-c", ask], stdout=subprocess.DEVNULL, stderr=subprocess.DEVNULL,
                                 env=environment(pooler.port))
        time.sleep(0.3)
        told = psql(pooler.port, "ann", ask)
        other.wait()
        return told

    def waits_and_is_served(self):
        pooler = self.pooler(auth="md5", size=1)
        one = self.client(pooler)
        one.ask("SELECT 1")
        other = subprocess.Popen(["psql", "-X", "-q", "-A", "-t", "-c", "SELECT 7"], stdout=subprocess.PIPE,
                                 env=environment(pooler.port))
        time.sleep(0.3)
        waited = other.poll() is None
        one.leave()
        out = other.communicate(timeout=20)[0]
        self.passes.same("a full pool: a client waits, and is served once the link comes back", (waited, out), (True, b"7\n"))
        pooler.stop()

    # ---- all

    def all(self):
        self.cluster = Cluster(self.place)
        self.cluster.tell("CREATE TABLE cities (name text, places int); INSERT INTO cities VALUES ('Bern', 1), ('Oslo', 2), ('Nuuk', "
                          "NULL); "
                          "CREATE TABLE bulk (a int, b text); CREATE SEQUENCE numbers; "
                          + "".join(f"GRANT ALL ON cities, bulk, numbers TO {user}; " for user in USERS))
        run(["pgbench", "-i", "-q", "-s", "1"], self.cluster.port, "ann")
        for auth, user in (("trust", "ann"), ("plain", "ann"), ("plain", "bc"), ("md5", "ann"), ("md5", "bc")):
            self.session("md5" if KIND == "pgbouncer" else auth, user)
        self.bulk()
        self.isolation()
        self.few_links()
        if KIND == "pgsess":
            self.names()
        self.killed()
        self.refusals()
        self.cluster.stop()
        self.passes.same("no process is left", self.place.left(), [])


def rate(out):
    found = re.search(r"tps = ([\d.]+)", out.decode())
    return round(float(found[1])) if found else "no"


if __name__ == "__main__":
    play(Postgres)
