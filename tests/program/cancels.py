#!/usr/bin/env python3
"""Shows cancel requests through `pgsess serve`, in front of a PostgreSQL server of Debian.

Usage: cancels.py PROGRAM. With POOLER=none in the environment clients reach the server itself, to try the script: then nothing is asked of
a console or a log, and each client has a session of its own.
"""
import os
import pathlib
import queue
import random
import re
import signal
import socket
import subprocess
import sys
import threading
import time

sys.path.insert(0, str(pathlib.Path(__file__).resolve().parents[1] / "lib"))
from asking import Worker, environment, figures, table
from cluster import HERE, USERS, Cluster, Pooler, until
from listening import Listener
from passes import Show, play
from wire import CANCEL_REQUEST, Client, Cut, Refused, cancel_request, message, query, startup

KIND = os.environ.get("POOLER", "pgsess")
SECONDS = 20
SEED = 20261126
CANCELLED = "57014"
LONG = "SELECT pg_sleep(30)"
BUSY = "SELECT count(*) FROM pg_stat_activity WHERE query LIKE '%pg_sleep(30)%' AND state = 'active' AND pid <> pg_backend_pid()"
ASKS_TLS = (8).to_bytes(4, "big") + (80877103).to_bytes(4, "big")
# in the best of some tries, of which there are more where the machine is busy; and in any
SOON, LATEST, TRIES, MAX_TRIES = 0.2, 5.0, 5, 40
# each of so many threads sends so many cancels, and then one in so many seconds until it is told to end
WORKERS, WRONG, FLOODS, FLOOD, PAUSE = 8, 1_000, 8, 250, 0.02
# so many late cancels, in pools of one link each, of these users; each comes at a moment of a span, in whose midst its statement ends
ROUNDS, SPAN, LANES = 2_000, 0.012, ("ann", "bc")
# the span grows where fewer than a quarter are struck, as on a busy machine
LONGER, SHORTER = 1.01, 1.03
HELD = 1.0
# a cancel that its server never takes is given up after 5 s, and its connection may have taken as long before
GIVEN_UP = (4.5, 10.5)
FOUND = r"^pgsess: client from 127\.0\.0\.1:\d+ cancels link (\d+)'s statement$"
NOBODY = r"^pgsess: client from 127\.0\.0\.1:\d+ requests a cancel by a key that nobody has$"
CLOSED = r"^pgsess: client \d+ \w+@shop from 127\.0\.0\.1:\d+ link (\d+) closed: cancel requested$"


def cancel(port, key, first=b"", cut=16):
    """Asks for a cancel over a connection of its own, in two parts where it is cut: all that comes before the other side closes it."""
    packet, got = cancel_request(key), b""
    with socket.create_connection((HERE, port), SECONDS) as it:
        it.setsockopt(socket.IPPROTO_TCP, socket.TCP_NODELAY, 1)
        if first:
            it.sendall(first)
            got += it.recv(1)
        it.sendall(packet[:cut])
        if packet[cut:]:
            time.sleep(0.01)
            it.sendall(packet[cut:])
        while piece := it.recv(64):
            got += piece
    return got


def ask_and_go(port, key):
    """The same, by a client that closes at once."""
    with socket.create_connection((HERE, port), SECONDS) as it:
        it.sendall(cancel_request(key))
    return b""


def outcome(client):
    """How a Query ended: the error's code, or the rows."""
    rows, code = [], None
    while True:
        kind, body = client.next()
        if kind == b"D":
            rows.append(body)
        if kind == b"E":
            code = Refused(body).code
        if kind == b"Z":
            return code or rows


# what kinds of clients ask for a cancel, and what comes back
WAYS = {
    "as libpq and psycopg send it": (cancel, b""),
    "as libpq 17 sends it, after TLS was refused": (lambda port, key: cancel(port, key, first=ASKS_TLS), b"N"),
    "in two parts": (lambda port, key: cancel(port, key, cut=7), b""),
    "whose client closes at once": (ask_and_go, b""),
}
SIMPLE = query(LONG)
# Parse, Bind, Execute, Sync, as JDBC asks
EXTENDED = (message(b"P", b"\0" + LONG.encode() + b"\0\0\0") + message(b"B", b"\0\0\0\0\0\0\0\0") + message(b"E", b"\0\0\0\0\0")
            + message(b"S"))


class Slow(Listener):
    """Stands before a server, and holds each connection that begins by a CancelRequest for some seconds, or until it is told to let it
    go."""

    def __init__(self, server):
        self.server, self.seconds, self.held, self.passed = server, 60, 0, 0
        self.goes = threading.Event()
        super().__init__()

    def serve(self, near):
        first = near.recv(8, socket.MSG_WAITALL)
        if first[4:] == CANCEL_REQUEST.to_bytes(4, "big"):
            self.held += 1
            self.goes.wait(self.seconds)
            self.passed += 1
        with near, socket.create_connection((HERE, self.server)) as far:
            far.sendall(first)
            threading.Thread(target=hand_on, args=(far, near), daemon=True).start()
            hand_on(near, far)

    def end(self):
        self.listener.close()


def hand_on(source, sink):
    """All bytes, and the end."""
    try:
        while piece := source.recv(65536):
            sink.sendall(piece)
        sink.shutdown(socket.SHUT_WR)
    except OSError:
        pass


class Canceller(threading.Thread):
    """Sends cancels, each at its time, and keeps what comes back."""

    def __init__(self, port):
        super().__init__(daemon=True)
        self.port, self.asked, self.answers = port, queue.Queue(), []
        self.is_done = threading.Event()
        self.start()

    def run(self):
        while (job := self.asked.get()) is not None:
            key, moment = job
            time.sleep(max(0.0, moment - time.monotonic()))
            self.answers.append(told(self.port, key))
            self.is_done.set()

    def at(self, key, moment):
        self.is_done.clear()
        self.asked.put((key, moment))

    def end(self):
        self.asked.put(None)
        self.join(SECONDS)


def told(port, key):
    """What comes back of a cancel, or the fault."""
    try:
        return cancel(port, key)
    except OSError as error:
        return repr(error)


def flooded(port, keys, backs, is_over):
    """A cancel by each of these keys, and by the last one until it is over."""
    for key in keys:
        backs.append(told(port, key))
    while not is_over.wait(PAUSE):
        backs.append(told(port, keys[-1]))


class Lane(threading.Thread):
    """Rounds of a race, one after the other: what came of the first clients, and which of the second ones were struck."""

    def __init__(self, show, pooler, user, rounds):
        super().__init__(daemon=True)
        self.show, self.pooler, self.user, self.rounds = show, pooler, user if KIND == "pgsess" else "postgres", rounds
        self.random = random.Random(f"{SEED} {user}")
        self.told, self.struck, self.backs, self.fault = [], [], [], None
        self.start()

    def run(self):
        canceller, span = Canceller(self.pooler.port), SPAN
        try:
            for _ in range(self.rounds):
                first, struck = self.show.round(self.pooler, self.user, canceller, self.random.uniform(0, span), span / 2)
                self.told.append(first)
                self.struck += struck
                span = max(SPAN, span / SHORTER if first[0] == CANCELLED else span * LONGER)
        except (Cut, Refused, OSError) as error:
            self.fault = repr(error)
        canceller.end()
        self.backs = canceller.answers


class Direct:
    """No pooler: the server itself, as one."""

    def __init__(self, server):
        self.port = server.port

    def log(self):
        return ""

    def stop(self):
        pass


class Cancels(Show):
    def __init__(self, program):
        super().__init__(program, "cancels")
        self.random = random.Random(SEED)

    def pooler(self, server=None, **settings):
        if KIND == "none":
            return Direct(server or self.cluster)
        (self.place.folder / "pgsess.err").unlink(missing_ok=True)
        return Pooler(self.place, server or self.cluster, self.program, **settings)

    def client(self, pooler, user="ann"):
        """A client, once there is a place for it: who leaves keeps its own until its link is back."""
        end = time.monotonic() + SECONDS
        while True:
            try:
                return Client(pooler.port, user, "shop", USERS.get(user, ("",))[0])
            except Refused as error:
                if error.code != "53300" or time.monotonic() > end:
                    raise
            time.sleep(0.01)

    def session(self, pooler):
        """The server's process behind the link that a new client has."""
        client = self.client(pooler)
        pid, = client.ask("SELECT pg_backend_pid()")[0]
        client.leave()
        return pid

    def lines(self, pattern):
        """What the log says so."""
        return re.findall(pattern, (self.place.folder / "pgsess.err").read_text(), re.M) if KIND == "pgsess" else []

    def works(self):
        """A statement of 30 s is under way."""
        return until(lambda: self.cluster.tell(BUSY) == [["1"]], 10)

    def same_in_the_log(self, what, patterns, wanted):
        """How many lines the log has of each kind: they come a while after what they tell of."""
        if KIND == "pgsess":
            counts = lambda: [len(self.lines(pattern)) for pattern in patterns]
            until(lambda: counts() == wanted, LATEST)
            self.passes.same(f"the log: {what}", counts(), wanted)

    def nothing_lent(self, pooler, name):
        """Once all have left no link is lent, and no cancel's connection is open."""
        if KIND == "pgsess":
            back = until(lambda: (figures(pooler.port) or [0] * 4)[:3] == [0, 0, 0], 10)
            states = {row["state"] for row in table(pooler.port, "SERVERS")}
            self.passes.holds(f"{name}: no link is left lent", back and states <= {"idle"}, f"{figures(pooler.port)} {states}")
            clients = [row["state"] for row in table(pooler.port, "CLIENTS")]
            self.passes.same(f"{name}: nobody is there but who asks", clients, ["login"])

    def both_told(self, count):
        """The log tells of so many cancels that found a link, and that each of these was closed."""
        if KIND == "pgsess":
            until(lambda: len(self.lines(CLOSED)) >= count, 5)
            found, closed = (sorted(map(int, self.lines(pattern))) for pattern in (FOUND, CLOSED))
            self.passes.same("the log tells of each cancel, and of the link that is closed after it", (len(found), closed), (count, found))

    # ---- a. a statement ends

    def struck(self, pooler, name, packet, way, back):
        """Clients whose statements are cancelled, one after the other, and what each sees of it; how many."""
        times, ends, backs, after = [], [], [], []
        while self.goes_on(times):
            client = self.client(pooler)
            client.send(packet)
            self.works()
            begin = time.monotonic()
            backs.append(way(pooler.port, client.key))
            ends.append(outcome(client))
            times.append(time.monotonic() - begin)
            after.append(client.ask("SELECT 7"))
            client.leave()
        count = len(times)
        self.passes.same(f"{name}: ends with {CANCELLED}, and the next statement doesn't", (ends, after),
                         ([CANCELLED] * count, [[["7"]]] * count))
        self.passes.same(f"{name}: its connection is closed with {back or 'no byte'}", backs, [back] * count)
        self.in_time(name, times)
        return count

    def goes_on(self, times):
        """Whether there is one more try."""
        return len(times) < TRIES or (min(times) >= SOON and len(times) < MAX_TRIES)

    def in_time(self, name, times):
        shown = ", ".join(f"{1000 * seconds:.0f}" for seconds in times)
        self.passes.holds(f"{name}: within {SOON} s ({shown} ms)", min(times) < SOON and max(times) < LATEST, shown)

    def ends(self):
        """With one link, and with as many clients as may be: a cancel takes no place."""
        pooler = self.pooler(size=1, clients=1)
        sessions, count = [self.session(pooler)], 0
        for name, (way, back) in WAYS.items():
            count += self.struck(pooler, f"a cancel {name}", SIMPLE, way, back)
            sessions.append(self.session(pooler))
        count += self.struck(pooler, "a cancel of a statement in the extended protocol, as JDBC sends it", EXTENDED, cancel, b"")
        sessions.append(self.session(pooler))
        self.passes.same("after a cancel the next client has another session", len(set(sessions)), len(sessions))
        self.both_told(count + self.interrupted(pooler))
        pooler.stop()

    def interrupted(self, pooler):
        """psql, which is interrupted from its terminal; how often."""
        times, told = [], []
        while self.goes_on(times):
            psql = subprocess.Popen(["psql", "-X", "-c", LONG], stdout=subprocess.PIPE, stderr=subprocess.PIPE,
                                    env=environment(pooler.port, "ann", "shop"))
            self.works()
            begin = time.monotonic()
            psql.send_signal(signal.SIGINT)
            _, errors = psql.communicate(timeout=60)
            times.append(time.monotonic() - begin)
            told.append((psql.returncode, errors.decode()))
        wanted = (1, "Cancel request sent\nERROR:  canceling statement due to user request\n")
        self.passes.same("psql's Ctrl-C", told, [wanted] * len(times))
        self.in_time("psql's Ctrl-C", times)
        return len(times)

    # ---- b. wrong keys

    def wrong(self):
        """While 8 clients work, and at last as many are there as may be: keys whose secret or pid is another, keys of nobody, and those of
        clients that have gone."""
        pooler = self.pooler(size=WORKERS + 1, clients=WORKERS + 1)
        gone = []
        for _ in range(100):
            client = self.client(pooler)
            gone.append(client.key)
            client.leave()
        workers = [Worker(pooler.port) for _ in range(WORKERS)]
        keys = [self.key_of_nobody(number, workers, gone) for number in range(WRONG)]
        self.meanwhile(f"{WRONG} cancels with wrong keys", workers, lambda: [told(pooler.port, key) for key in keys])
        sleeper = self.client(pooler)
        backs = self.meanwhile(f"{FLOODS} times {FLOOD} and more at once", workers, lambda: self.flood(pooler, keys, sleeper))
        self.passes.same("no worker was struck", [worker.end() for worker in workers], [None] * WORKERS)
        sleeper.leave()
        self.same_in_the_log("each of them, and the one with a right key", (NOBODY, FOUND, CLOSED), [WRONG + len(backs) - 1, 1, 1])
        self.nothing_lent(pooler, "after wrong keys")
        pooler.stop()

    def key_of_nobody(self, number, workers, gone):
        key = workers[number % WORKERS].client.key
        pid, secret = key[:4], key[4:]
        other = bytes([secret[0] ^ 1 << self.random.randrange(8)]) + secret[1:]
        return [pid + other, other + secret, self.random.randbytes(8), gone[number % len(gone)]][number // WORKERS % 4]

    def meanwhile(self, name, workers, act):
        """What comes back is nothing; and all workers go on. All that came back."""
        counts, begin = [worker.asked for worker in workers], time.monotonic()
        backs = act()
        seconds = time.monotonic() - begin
        # which of this script's threads has had its turn by now hangs on the machine; that none is kept waiting doesn't
        until(lambda: all(worker.asked > count for worker, count in zip(workers, counts)), 20)
        asked = [worker.asked - count for worker, count in zip(workers, counts)]
        self.passes.same(f"{name}: each connection is closed with no byte", [back for back in backs if back != b""][:3], [])
        self.passes.holds(f"{name}: each of {WORKERS} workers goes on being served",
                          min(asked) > 0 and not any(worker.error for worker in workers), f"{asked} {[worker.error for worker in workers]}")
        print(f"       {len(backs) / seconds:.0f} cancels and {sum(asked) / seconds:.0f} statements a second")
        return backs

    def flood(self, pooler, keys, sleeper):
        """From several threads at once; in their midst one has the right key, and ends a statement. They go on until that is over."""
        backs, is_over = [], threading.Event()
        threads = [threading.Thread(target=flooded, args=(pooler.port, keys[-FLOOD:], backs, is_over)) for _ in range(FLOODS)]
        for thread in threads:
            thread.start()
        sleeper.send(SIMPLE)
        self.works()
        before, begin = len(backs), time.monotonic()
        own = told(pooler.port, sleeper.key)
        code, seconds = outcome(sleeper), time.monotonic() - begin
        floods = before > 0 and until(lambda: len(backs) > before, LATEST)
        is_over.set()
        for thread in threads:
            thread.join(60)
        self.passes.holds(f"in the midst of the flood a right key ends a statement ({1000 * seconds:.0f} ms)",
                          floods and code == CANCELLED and seconds < LATEST, f"{floods} {code} {seconds}")
        return backs + [own]

    # ---- c. late cancels

    def race(self):
        """Over one link a client runs a short statement and leaves, and another comes; the first one's cancel comes at any moment."""
        pooler = self.pooler(size=1)
        begin = time.monotonic()
        lanes = [Lane(self, pooler, user, ROUNDS // len(LANES)) for user in LANES]
        for lane in lanes:
            lane.join()
        seconds = time.monotonic() - begin
        told, struck, backs = ([one for lane in lanes for one in getattr(lane, name)] for name in ("told", "struck", "backs"))
        self.passes.same(f"{ROUNDS} late cancels: no client that comes after is struck",
                         (len(struck), struck[:3], [lane.fault for lane in lanes]), (0, [], [None] * len(lanes)))
        self.passes.same("each client before it is struck or served",
                         (len(told), [code for code, _ in told if code not in (None, CANCELLED)][:3]), (ROUNDS, []))
        self.passes.same("each cancel's connection is closed with no byte", (len(backs), [back for back in backs if back != b""][:3]),
                         (ROUNDS, []))
        count, found = sum(code == CANCELLED for code, _ in told), sum(is_other for _, is_other in told)
        print(f"       {seconds:.0f} s: {count} struck, {found} found their client's link, {ROUNDS - found} came too late")
        self.passes.holds("there were both, early and late ones", min(count, ROUNDS - count) > ROUNDS // 100)
        if KIND == "pgsess":
            self.passes.holds("where a cancel found its link the next client has another", 0 < found < ROUNDS)
        self.both_told(found)
        self.same_in_the_log("all others found nobody", (NOBODY,), [ROUNDS - found])
        self.nothing_lent(pooler, "after the race")
        pooler.stop()

    def round(self, pooler, user, canceller, moment, length):
        """How the first client's statement ended, whether the second has another session, and what came of the second's statements:
        it asks on until the cancel is through."""
        first = self.client(pooler, user)
        session = self.asked(first, "SELECT pg_backend_pid()")[1]
        canceller.at(first.key, time.monotonic() + moment)
        first.send(query(f"SELECT pg_sleep({length:.4f})"))
        second = Client(pooler.port)
        second.send(startup(user, "shop"))
        code = outcome(first)
        first.leave()
        second.until(b"Z")
        ends = [self.asked(second, "SELECT pg_backend_pid()")]
        while not canceller.is_done.is_set():
            ends.append(self.asked(second, f"SELECT pg_sleep({length:.4f})"))
        ends.append(self.asked(second, "SELECT 7"))
        second.leave()
        return (code if isinstance(code, str) else None, session != ends[0][1]), [code for code, _ in ends if code]

    def asked(self, client, text):
        """The code of a statement's error, or its first value."""
        try:
            return None, client.ask(text)[0][0]
        except Refused as error:
            return error.code, None

    # ---- d. slow servers

    def slow(self):
        """A server that takes a cancel only once it is told to: meanwhile its client leaves, and the next one has another session."""
        proxy = Slow(self.cluster.port)
        pooler = self.pooler(server=proxy, size=1)
        first = self.client(pooler)
        session = self.asked(first, "SELECT pg_backend_pid()")[1]
        first.send(query("SELECT pg_sleep(0.3)"))
        backs = []
        asking = threading.Thread(target=lambda: backs.append(told(pooler.port, first.key)))
        asking.start()
        self.passes.holds("a cancel is held before its server", until(lambda: proxy.held == 1, LATEST))
        self.passes.same("meanwhile its client is served", isinstance(outcome(first), list), True)
        first.leave()
        second = self.client(pooler)
        other = self.asked(second, "SELECT pg_backend_pid()")
        self.passes.holds("the next client has another session, before the cancel is there",
                          other[1] not in (None, session) and proxy.passed == 0 and not backs, f"{other} {session} {backs}")
        second.send(query(f"SELECT pg_sleep({HELD})"))
        proxy.goes.set()
        self.passes.same("nor is it struck once it is", (isinstance(outcome(second), list), proxy.passed), (True, 1))
        second.leave()
        asking.join(SECONDS)
        self.passes.same("its connection is closed with no byte once the server has closed", backs, [b""])
        self.struck_late(pooler, proxy)
        self.nothing_lent(pooler, "after slow cancels")
        pooler.stop()
        proxy.end()

    def struck_late(self, pooler, proxy):
        """Who stays is struck once the cancel is there; and one that the server never takes is given up."""
        client = self.client(pooler)
        client.send(SIMPLE)
        self.works()
        proxy.goes.clear()
        proxy.seconds, begin = HELD, time.monotonic()
        back = told(pooler.port, client.key)
        code, seconds = outcome(client), time.monotonic() - begin
        self.passes.holds(f"who stays is struck ({seconds:.1f} s)", (code, back) == (CANCELLED, b"") and HELD <= seconds < HELD + LATEST,
                          f"{code} {back}")
        if KIND == "pgsess":
            proxy.seconds, begin = 60, time.monotonic()
            back = told(pooler.port, client.key)
            seconds = time.monotonic() - begin
            self.passes.holds(f"a cancel that its server never takes is given up ({seconds:.1f} s)",
                              back == b"" and GIVEN_UP[0] <= seconds <= GIVEN_UP[1], f"{back} {seconds}")
        client.leave()

    # ---- all

    def all(self):
        self.cluster = Cluster(self.place)
        for step in (self.ends, self.wrong, self.race, self.slow):
            begin = time.monotonic()
            step()
            print(f"       {step.__name__}: {time.monotonic() - begin:.0f} s", flush=True)
        self.cluster.stop()
        self.passes.same("no process is left", self.place.left(), [])


if __name__ == "__main__":
    play(Cancels)
