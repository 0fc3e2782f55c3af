#!/usr/bin/env python3
"""Shows the admin console of `pgsess serve` and its log, in front of a PostgreSQL server of Debian.

Usage: console.py PROGRAM
"""
import os
import pathlib
import re
import socket
import subprocess
import sys
import threading
import time

sys.path.insert(0, str(pathlib.Path(__file__).resolve().parents[1] / "lib"))
from asking import Worker, console, environment, figures, table
from cluster import HERE, USERS, Cluster, Place, Pooler, free_port, is_open, until
from passes import Show, play
from scram_reader import kept
from wire import Client, Cut, Refused

COLUMNS = {
    "POOLS": ["database", "user", "cl_active", "cl_waiting", "sv_active", "sv_idle"],
    "CLIENTS": ["number", "state"],
    "SERVERS": ["number", "database", "user", "state"],
    "CONFIG": ["key", "value"],
    "VERSION": ["version"],
    "TOTALS": ["decisions", "starts", "reuses", "evictions", "losses"],
}
REFUSALS = 1000


def value(port, name):
    """A setting, as the console shows it."""
    return {row["key"]: row["value"] for row in table(port, "CONFIG")}[name]


class Waiting(threading.Thread):
    """A client that logs in, which waits where all links are lent: what comes of it."""

    def __init__(self, port):
        super().__init__(daemon=True)
        self.port, self.told = port, None
        self.start()

    def run(self):
        try:
            client = Client(self.port, "ann", "shop", USERS["ann"][0], seconds=60)
            client.ask("SELECT 1")
            client.leave()
            self.told = "served"
        except Refused as error:
            self.told = f"{error.code} {error.text}"
        except (Cut, OSError):
            self.told = "cut"


class Logged(Pooler):
    """A pooler whose log is a file, and tells of clients that come and go where it is asked to."""

    def __init__(self, place, cluster, program, tells_all=False, **settings):
        super().__init__(place, cluster, program, auth="md5", **settings)
        if tells_all:
            self.edit("^(log_.*connections) = 0", r"\g<1> = 1")
            status, _, errors = console(self.port, "RELOAD")
            if status:
                sys.exit(f"the first RELOAD: {errors}")

    def read(self, name):
        return (self.place.folder / name).read_text()

    def write(self, name, text):
        self.place.write(name, text)

    def log(self):
        self.errors.flush()
        return self.read("pgsess.err")

    def edit(self, old, new):
        text, count = re.subn(old, new, self.read("pgsess.ini"), flags=re.M)
        if not count:
            raise RuntimeError(f"{old!r} isn't in the settings")
        self.write("pgsess.ini", text)


class Console(Show):
    def __init__(self, program):
        super().__init__(program, "console")

    def pooler(self, **settings):
        (self.place.folder / "pgsess.err").unlink(missing_ok=True)
        return Logged(self.place, self.cluster, self.program, **settings)

    # ---- a. the tables

    def tables(self):
        pooler = self.pooler(size=2)
        for name, columns in COLUMNS.items():
            status, out, errors = console(pooler.port, f"SHOW {name};", "-A", "-F", "\t", "-P", "footer=off")
            self.passes.same(f"SHOW {name}: its columns", (status, out.split("\n")[0].split("\t"), errors), (0, columns, ""))
            status, out, errors = console(pooler.port, f"show {name.lower()}", "-x", "-A")
            names = [line.split("|")[0] for line in out.split("\n\n")[0].splitlines()]
            self.passes.holds(f"show {name.lower()} under psql -x", status == 0
                              and (names == columns or not out.strip() or "No rows" in out or "(0 rows)" in out), f"{out!r} {errors}")
        self.passes.same("SHOW VERSION", table(pooler.port, "VERSION"), [{"version": "pgsess 1"}])
        self.passes.same("SHOW CONFIG: default_pool_size", value(pooler.port, "default_pool_size"), "2")
        status, _, errors = console(pooler.port, "SELECT 1")
        self.passes.same("what is no command", (status, errors.strip()), (1, "ERROR:  syntax error"))
        status, _, errors = console(pooler.port, "SHOW POOLS", user="ann")
        self.passes.holds("who is no administrator isn't let in", status == 2 and "FATAL" in errors, f"{status} {errors}")
        pooler.stop()

    def counted(self):
        """The figures while 8 clients work and 2 wait."""
        pooler = self.pooler(size=8)
        workers = [Worker(pooler.port) for _ in range(8)]
        waiting = [Waiting(pooler.port) for _ in range(2)]
        self.passes.holds("8 clients work and 2 wait: SHOW POOLS", until(lambda: figures(pooler.port) == [8, 2, 8, 0], 10),
                          f"{figures(pooler.port)}")
        states = sorted(row["state"] for row in table(pooler.port, "CLIENTS"))
        # the console's own client is one of those that are there
        self.passes.same("SHOW CLIENTS", states, ["active"] * 8 + ["login"] + ["waiting"] * 2)
        servers = table(pooler.port, "SERVERS")
        self.passes.same("SHOW SERVERS", [(row["database"], row["user"], row["state"]) for row in servers], [("shop", "ann", "active")] * 8)
        numbers = [int(row["number"]) for row in servers]
        self.passes.same("SHOW SERVERS: by number", numbers, sorted(set(numbers)))
        self.passes.same("the workers' errors", [worker.end() for worker in workers], [None] * 8)
        for one in waiting:
            one.join(30)
        self.passes.same("those that waited are served", [one.told for one in waiting], ["served"] * 2)
        self.passes.holds("all links are idle afterwards", until(lambda: figures(pooler.port) == [0, 0, 0, 8], 10),
                          f"{figures(pooler.port)}")
        totals = table(pooler.port, "TOTALS")[0]
        self.passes.same("SHOW TOTALS: starts, reuses", (totals["starts"], totals["reuses"]), ("8", "2"))
        pooler.stop()

    # ---- b. PAUSE and RESUME

    def paused(self):
        pooler = self.pooler(size=8)
        bench = subprocess.Popen(["pgbench", "-n", "-S", "-C", "-c", "8", "-j", "8", "-T", "12"], stdout=subprocess.PIPE,
                                 stderr=subprocess.PIPE,
                                 env=environment(pooler.port, "ann", "shop"))
        until(lambda: sum((figures(pooler.port) or [0] * 4)[2:]) > 0, 20)
        self.passes.same("PAUSE", console(pooler.port, "PAUSE")[:2], (0, "PAUSE\n"))
        stands = until(lambda: (figures(pooler.port) or [0] * 4)[:3] == [0, 8, 0], 20)
        time.sleep(3)
        self.passes.holds("while it is paused no link is lent, and clients wait", stands and figures(pooler.port)[:3] == [0, 8, 0],
                          f"{figures(pooler.port)}")
        self.passes.same("RESUME", console(pooler.port, "RESUME")[:2], (0, "RESUME\n"))
        out, errors = bench.communicate(timeout=60)
        failed = [line for line in errors.decode().splitlines() if "error" in line or "FATAL" in line or "aborted" in line]
        self.passes.same("pgbench -C of 8 clients over PAUSE and RESUME: no error", (bench.returncode, failed), (0, []))
        for name, words in (("PAUSE", "paused"), ("RESUME", "resumed")):
            self.told(pooler, name, rf"^pgsess: client \d+ root@pgbouncer from 127\.0\.0\.1:\d+ {words} the pool$")
        pooler.stop()

    def told(self, pooler, name, pattern):
        """A line of the log."""
        found = until(lambda: re.search(pattern, pooler.log(), re.I | re.M), 5)
        self.passes.holds(f"the log tells: {name}", found, f"{pooler.log()[-400:]!r}")

    # ---- c. RELOAD

    def reloaded(self):
        pooler = self.pooler(size=4)
        workers = [Worker(pooler.port) for _ in range(3)]
        idle = Worker(pooler.port)
        self.passes.same("a fourth client leaves its link", idle.end(), None)
        before, elsewhere = len(self.cluster.backends()), self.other.logins()
        pooler.edit(r"^(shop = .*)port=\d+", rf"\g<1>port={self.other.port}")
        self.passes.same("RELOAD", console(pooler.port, "RELOAD")[:2], (0, "RELOAD\n"))
        self.passes.same("4 sessions were open at the old server", before, 4)
        self.passes.holds("after the next tick the idle one is closed there", until(lambda: len(self.cluster.backends()) == 3, 10),
                          f"{len(self.cluster.backends())}")
        client = Client(pooler.port, "ann", "shop", USERS["ann"][0])
        asked = client.ask("SELECT inet_server_port()")
        client.leave()
        self.passes.same("a client that comes later reaches the new server", (asked, self.other.logins() - elsewhere),
                         ([[str(self.other.port)]], 1))
        counts = [worker.asked for worker in workers]
        go_on = lambda: all(worker.asked > count for worker, count in zip(workers, counts))
        self.passes.holds("the clients that worked go on", until(go_on, 10))
        self.passes.same("no client failed", [worker.end() for worker in workers], [None] * 3)
        self.passes.holds("their links are closed once they come back", until(lambda: self.cluster.backends() == [], 5),
                          f"{self.cluster.backends()}")
        self.faulty(pooler)
        pooler.stop()

    def faulty(self, pooler):
        """A file with a fault changes nothing, and the log names it."""
        for name, spoilt, code, line in (("pgsess.ini", "no line\n", "C7", 1), ("users.txt", "no user\n", "U1", 1)):
            kept = pooler.read(name)
            pooler.write(name, spoilt + kept.replace("default_pool_size = 4", "default_pool_size = 5"))
            status, _, errors = console(pooler.port, "RELOAD", "-v", "VERBOSITY=sqlstate")
            self.passes.same(f"RELOAD with a fault in {name}", (status, errors), (1, "ERROR:  22023\n"))
            self.told(pooler, f"a fault in {name}", rf"^pgsess: not reloaded: {code} line {line} of /.*/{name}$")
            pooler.write(name, kept)
            self.passes.same("nothing is changed", (value(pooler.port, "default_pool_size"), table(pooler.port, "VERSION")),
                             ("4", [{"version": "pgsess 1"}]))
        (self.place.folder / "users.txt").rename(self.place.folder / "away.txt")
        self.passes.same("RELOAD without the user file", console(pooler.port, "RELOAD")[0], 1)
        self.told(pooler, "a file that can't be read", r"^pgsess: not reloaded: file /.*/users\.txt$")
        (self.place.folder / "away.txt").rename(self.place.folder / "users.txt")
        self.passes.same("RELOAD once it is there again", console(pooler.port, "RELOAD")[0], 0)
        self.told(pooler, "RELOAD", r"^pgsess: reloaded$")

    # ---- d. SHUTDOWN

    def shut(self):
        """Working, waiting and silent clients and the console's own, each ends as it should."""
        pooler = self.pooler(size=2)
        workers = [Worker(pooler.port) for _ in range(2)]
        waiting = [Waiting(pooler.port) for _ in range(2)]
        until(lambda: figures(pooler.port) == [2, 2, 2, 0], 10)
        silent = socket.create_connection((HERE, pooler.port))
        asking = Client(pooler.port, "root", "pgbouncer", USERS["root"][0])
        until(lambda: len(table(pooler.port, "CLIENTS")) >= 6, 5)
        self.passes.same("SHUTDOWN", console(pooler.port, "SHUTDOWN")[:2], (0, "SHUTDOWN\n"))
        for one in waiting:
            one.join(10)
        self.passes.same("waiting clients are refused", [one.told for one in waiting], ["57P01 pooler is shutting down"] * 2)
        self.passes.holds("nobody listens any more", until(lambda: not is_open(pooler.port), 10))
        self.passes.same("a connection that was silent is closed without a byte", received(silent), b"")
        counts = [worker.asked for worker in workers]
        self.passes.holds("those that work go on", until(lambda: all(worker.asked > count for worker, count in zip(workers, counts)), 10)
                          and pooler.runs())
        self.passes.same("and end their sessions", [worker.end() for worker in workers], [None] * 2)
        self.passes.holds("all links are closed or idle", until(lambda: pools_of(asking) in ([], [0, 0]), 5), f"{pools_of(asking)}")
        self.passes.holds("a console that is open keeps the pooler", pooler.runs())
        totals = asking.ask("SHOW TOTALS")[0]
        asking.leave()
        self.passes.holds("then it ends", until(lambda: not pooler.runs(), 10))
        self.passes.same("with status 0", pooler.process.returncode, 0)
        self.passes.same("SHOW TOTALS at the end: starts, reuses, losses", [totals[1], totals[2], totals[4]], ["2", "0", "0"])
        self.told(pooler, "SHUTDOWN", r"^pgsess: client \d+ root@pgbouncer from 127\.0\.0\.1:\d+ shuts the pool down$")
        # two worked and two waited; one console asked, and psql's for SHUTDOWN and before that for tables, whose number varies
        self.told(pooler, "the totals", r"^pgsess: shut down: \d+ decisions, 2 starts; \d+ arrived, 2 granted, 2 given back, 0 lost, \d+ "
                                        r"left, \d+ others$")
        told = re.search(r"shut down: (\d+) decisions, .* (\d+) arrived, .* (\d+) left", pooler.log())
        self.passes.holds("the totals: who arrived left, and no decision is missing",
                          told and told[2] == told[3] and int(told[1]) >= int(totals[0]), f"{told} {totals}")
        pooler.stop()

    # ---- e. the log

    def lines(self):
        """Each kind of line once, of a client that is there or that comes."""
        closed = free_port()
        pooler = self.pooler(tells_all=True, size=1, wait=1, clients=3, closed=closed)
        ann, shop = r"client \d+ ann@shop from 127\.0\.0\.1:\d+", rf"127\.0\.0\.1:{self.cluster.port}"
        self.told(pooler, "where it listens", rf"^pgsess: listening 127\.0\.0\.1 {pooler.port}$")
        one = self.client(pooler)
        self.told(pooler, "a client that is let in", rf"^pgsess: {ann} in$")
        self.refused(pooler, "query_wait_timeout", "57P03", "ann")
        self.told(pooler, "a client that has waited too long", rf"^pgsess: {ann} refused after \d+\.\d s: query_wait_timeout \(P5\)$")
        self.login_failures(pooler)
        self.refused(pooler, "an unknown database", "3D000", "ann", database="nowhere")
        self.told(pooler, "an unknown database", r"failed after \d+\.\d s: database does not exist \(3D000\)$")
        self.refused(pooler, "a parameter", "0A000", "ann", search_path="x")
        self.told(pooler, "a parameter that isn't served", r'refused after \d+\.\d s: unsupported startup parameter "search_path" \(P4\)$')
        self.refused(pooler, "a server that isn't reached", "08001", "ann", database="closed")
        not_reached = rf"server 127\.0\.0\.1:{closed} could not be reached \(P7\)$"
        self.told(pooler, "a server that isn't reached", rf"refused after \d+\.\d s: {not_reached}")
        others = [Waiting(pooler.port) for _ in range(3)]
        for other in others:
            other.join(20)
        self.told(pooler, "too many clients", r"refused after \d+\.\d s: too many client connections \(P1\)$")
        one.ask("BEGIN")
        one.leave()
        self.told(pooler, "a link that is closed within a block", rf"^pgsess: {ann} link \d+ closed: left within a transaction block$")
        self.told(pooler, "a client that goes", rf"^pgsess: {ann} out after \d+\.\d s$")
        self.asks_for_more(pooler, shop)
        pooler.stop()

    def login_failures(self, pooler):
        """Why a login failed, which its client isn't told."""
        users, verifier = self.place.folder / "users.txt", kept("pencil")
        whole = users.read_text()
        users.write_text(whole + f'"vera" "{verifier}"\n"spoilt" "{verifier[:-1]}"\n"empty" ""\n')
        console(pooler.port, "RELOAD")
        useless = r"^pgsess: 2 secrets of the user file accept no password, the first that of spoilt$"
        self.told(pooler, "secrets that accept no password", useless)
        is_none = "its secret is empty, or a spoiled SCRAM verifier"
        for user, database, password, why in [
            ("ann", "shop", "other", "wrong password"),
            ("zed", "shop", "other", "no such user"),
            ("ann", "pgbouncer", USERS["ann"][0], "not of admin_users or stats_users"),
            ("vera", "shop", verifier, "wrong password"),
            ("spoilt", "shop", verifier[:-1], is_none),
            ("empty", "shop", "", is_none),
        ]:
            self.refused(pooler, why, "28P01", user, database, password)
            failed = r"failed after \d+\.\d s: password authentication failed \(28P01\)"
            self.told(pooler, why, rf"^pgsess: client \d+ {user}@{database} from .* {failed}: {why}$")
        users.write_text(whole)
        console(pooler.port, "RELOAD")

    def asks_for_more(self, pooler, shop):
        """A server that refuses a user, and one that asks for SCRAM."""
        self.cluster.tell("ALTER ROLE ann NOLOGIN", "postgres")
        self.refused(pooler, "a user without LOGIN", "28000", "ann")
        self.told(pooler, "a server's refusal", rf"refused after \d+\.\d s: server {shop} refused the start: 28000 ")
        self.cluster.tell("SET password_encryption = 'scram-sha-256'; ALTER ROLE ann LOGIN PASSWORD 'secret'; ALTER ROLE bc PASSWORD 'a'",
                          "postgres")
        self.refused(pooler, "a server that asks for SCRAM, and a password", "let in", "ann")
        self.refused(pooler, "a server that asks for SCRAM, and a digest", "08001", "bc")
        why = r"which can't be answered: the user file has no password, or SCRAM-SHA-256 isn't offered \(P7\)$"
        self.told(pooler, "a server that asks for SCRAM", rf"server {shop} asks for SCRAM \(authentication method 10\), {why}")
        self.cluster.tell("ALTER ROLE ann PASSWORD 'secret'; ALTER ROLE bc PASSWORD 'a'", "postgres")

    def client(self, pooler):
        return Client(pooler.port, "ann", "shop", USERS["ann"][0])

    def refused(self, pooler, name, wanted, user, database="shop", password=None, **parameters):
        try:
            Client(pooler.port, user, database, USERS[user][0] if password is None else password, **parameters).leave()
            told = "let in"
        except Refused as error:
            told = error.code
        except (Cut, OSError):
            told = "cut"
        self.passes.same(f"refused: {name}", told, wanted)

    def unread(self):
        """Nobody reads the log: a thousand clients are refused at full speed."""
        pooler = self.pooler(size=1)
        quick = self.refusals(pooler)
        pooler.stop()
        reader, writer = os.pipe()
        folder = self.place.folder
        process = self.place.start(self.program, "serve", "--ini", folder / "pgsess.ini", "--users", folder / "users.txt",
                                   stdout=subprocess.PIPE, stderr=writer)
        os.close(writer)
        process.stdout.readline()
        pooler.process, pooler.errors = process, open(os.devnull, "ab")
        for _ in range(3):
            slow = self.refusals(pooler)
        self.passes.holds(f"{REFUSALS} refusals, whose log nobody reads: about as quick as with a reader", slow < 5 * quick + 10,
                          f"{slow:.1f} s for {quick:.1f} s")
        status, _, errors = console(pooler.port, "SHUTDOWN")
        self.passes.same("SHUTDOWN, while nobody reads", status, 0)
        self.passes.holds("it ends all the same", until(lambda: process.poll() is not None, 20))
        self.passes.same("with status 0", process.returncode, 0)
        os.close(reader)
        process.stdout.close()

    def refusals(self, pooler):
        """How long a thousand take: each is of a database that isn't there."""
        begin = time.monotonic()
        for _ in range(REFUSALS):
            try:
                Client(pooler.port, "ann", "nowhere", USERS["ann"][0])
            except Refused:
                pass
        return time.monotonic() - begin

    # ---- all

    def all(self):
        self.cluster = Cluster(self.place)
        with Place() as second:
            self.other = Cluster(second)
            subprocess.run(["pgbench", "-i", "-q", "-s", "1"], env=environment(self.cluster.port, "ann", "shop"), stderr=subprocess.DEVNULL,
                           check=True)
            self.tables()
            self.counted()
            self.paused()
            self.reloaded()
            self.shut()
            self.lines()
            self.unread()
            self.other.stop()
        self.cluster.stop()
        self.passes.same("no process is left", self.place.left(), [])


def pools_of(client):
    """cl_active and cl_waiting of the first pool."""
    rows = client.ask("SHOW POOLS")
    return [int(cell) for cell in rows[0][2:4]] if rows else []


def received(stream):
    """All that still comes over a connection."""
    stream.settimeout(20)
    got = b""
    try:
        while piece := stream.recv(65536):
            got += piece
    except OSError:
        pass
    stream.close()
    return got


if __name__ == "__main__":
    play(Console)
