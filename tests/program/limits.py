#!/usr/bin/env python3
"""Shows the limits of `pgsess serve` by the clock: of a login, and of the start of a server's session; that silent connections cost nobody
else a place, also where files are few; that the console is let in beyond max_client_conn; that clients whose server has no place for
their links are served one after another; and that who waits is woken at once. In front of a PostgreSQL server of Debian.

Usage: limits.py PROGRAM
"""
import pathlib
import re
import resource
import select
import socket
import sys
import threading
import time

sys.path.insert(0, str(pathlib.Path(__file__).resolve().parents[1] / "lib"))
from asking import outcome_at
from cluster import HERE, USERS, Cluster, until
from listening import Listener
from passes import Show, play
from wire import Client, message, startup

LOGIN, START = 3, 2
# as long as a connection may take where server_connect_timeout sets no time
CONNECT = 15
MANY, FEW_FILES, SILENT, BEHIND = 1000, 1024, 510, 100
SECONDS = 10
# so many seconds more a busy machine may take
SLACK = 8
CONSOLE, LOCAL, CONSOLE_SECONDS = 64, 80, 10
PLACES, CLIENTS, WAIT = 3, 6, 3
UNREACHED, TOO_MANY = "08001", "53300"
# so many bells there are; who isn't woken looks again within a second. Most of the turns count, since the machine may be busy
BELLS, TOGETHER, TURNS, AT_ONCE = 1024, 50, 3, 0.5


def visit(port, user="ann", seconds=SECONDS, **more):
    """What a client is told, and the seconds that it took."""
    begin = time.monotonic()
    return outcome_at(port, user, seconds=seconds, **more), time.monotonic() - begin


def visits(port, count, asks):
    """The same of so many clients that come at once."""
    outcomes = [None] * count

    def serve(place):
        outcomes[place] = visit(port, asks=asks, seconds=4 * SECONDS)

    threads = [threading.Thread(target=serve, args=(place,)) for place in range(count)]
    for it in threads:
        it.start()
    for it in threads:
        it.join()
    return outcomes


def opened(port, first=b"", count=1):
    """So many connections that send this and nothing more."""
    made = []
    for _ in range(count):
        it = socket.create_connection((HERE, port), SECONDS)
        if first:
            it.sendall(first)
        made.append(it)
    return made


def ends(connections, seconds):
    """How many of them were closed in time, and what bytes they were given."""
    left, given, end = {it.fileno(): it for it in connections}, b"", time.monotonic() + seconds
    poll = select.poll()
    for it in connections:
        poll.register(it, select.POLLIN)
    while left and time.monotonic() < end:
        for number, _ in poll.poll(100):
            try:
                piece = left[number].recv(4096)
            except ConnectionResetError:
                piece = b""
            given += piece
            if not piece:
                poll.unregister(number)
                del left[number]
    return len(connections) - len(left), given


def close(connections):
    for it in connections:
        it.close()


def come_and_go(port, count):
    """So many clients that go once they are asked for their passwords."""
    for first in range(0, count, TOGETHER):
        group = opened(port, startup("ann", "shop"), min(TOGETHER, count - first))
        for it in group:
            it.recv(1)
        close(group)


class Full:
    """A place where nobody takes a connection, and where no more can wait for it."""

    def __init__(self):
        self.listener, self.waiting = socket.socket(), []
        self.listener.bind((HERE, 0))
        self.listener.listen(0)
        self.port = self.listener.getsockname()[1]
        while self.has_room():
            pass

    def has_room(self):
        it = socket.socket()
        it.settimeout(0.5)
        self.waiting.append(it)
        try:
            it.connect((HERE, self.port))
        except TimeoutError:
            return False
        return True

    def close(self):
        close([*self.waiting, self.listener])


class Dripping(Listener):
    """A server that says AuthenticationOk and then reports, a byte each 50 ms."""

    def __init__(self):
        self.open = 0
        super().__init__()

    def serve(self, connection):
        self.open += 1
        text = message(b"R", (0).to_bytes(4, "big")) + message(b"S", b"server_version\0" + b"15" * 4000 + b"\0")
        try:
            connection.recv(4096)
            for byte in text:
                connection.sendall(bytes([byte]))
                time.sleep(0.05)
        except OSError:
            pass
        self.open -= 1
        connection.close()


class Limits(Show):
    def __init__(self, program):
        most = resource.getrlimit(resource.RLIMIT_NOFILE)[1]
        resource.setrlimit(resource.RLIMIT_NOFILE, (min(most, 16384), most))
        super().__init__(program, "limits")
        self.cluster = Cluster(self.place)

    def begin(self, **settings):
        super().begin(auth="md5", **settings)

    def console(self, command):
        return super().console(command, seconds=SECONDS)

    def logins(self):
        """Connections that say nothing, half a StartupMessage, or no password."""
        self.begin(lines=f"client_login_timeout = {LOGIN}\n")
        before = len(self.log())
        half = startup("ann", "shop")[:20]
        silent, halves = opened(self.pooler.port, count=MANY), opened(self.pooler.port, half, MANY)
        begin = time.monotonic()
        outcomes = [visit(self.pooler.port)[0] for _ in range(10)]
        self.passes.same(f"{MANY} silent connections and {MANY} with half a StartupMessage: clients are served", outcomes, ["served"] * 10)
        count, given = ends(silent + halves, LOGIN + SECONDS)
        self.passes.same("all are closed without a byte", (count, given), (2 * MANY, b""))
        self.passes.holds("in client_login_timeout", time.monotonic() - begin < LOGIN + SECONDS, f"{time.monotonic() - begin:.1f} s")
        close(silent + halves)
        counted = lambda: sum(map(int, re.findall(r"^pgsess: (\d+) connections? .*client_login_timeout", self.log()[before:], re.M)))
        until(lambda: counted() >= 2 * MANY, 5)
        self.passes.same("the log has their number", counted(), 2 * MANY)
        asked = opened(self.pooler.port, startup("ann", "shop"))
        count, given = ends(asked, LOGIN + SECONDS)
        self.passes.same("one that gives no password is closed behind the question", (count, given[:1]), (1, b"R"))
        self.passes.holds("the log names it", until(lambda: re.search(r"ann@shop.*client_login_timeout", self.log()[before:]), 5),
                          self.log()[-300:])
        close(asked)
        asked = opened(self.pooler.port, startup("ann", "shop"))[0]
        for byte in message(b"p", b"x" * 3000)[:200]:
            try:
                asked.sendall(bytes([byte]))
            except OSError:
                break
            time.sleep(0.1)
        self.passes.same("one that drips its password too", ends([asked], SECONDS)[0], 1)
        asked.close()
        self.passes.same("no place is taken", self.console("SHOW CLIENTS")[1:], [])

    def files(self):
        """Few files, and silent connections that have them all."""
        self.begin(lines="client_login_timeout = 0\n", files=FEW_FILES)
        silent = opened(self.pooler.port, count=SILENT)
        time.sleep(1)
        client, console = ("ann", "shop", "SELECT 1"), ("root", "pgbouncer", "SHOW VERSION")
        for what, (user, database, asks) in (("a client", client), ("the console", console), ("another client", client)):
            outcome, took = visit(self.pooler.port, user, database=database, asks=asks, seconds=2 * SECONDS)
            self.passes.same(f"{SILENT} silent connections under {FEW_FILES} files: {what} is served", (outcome, took < SECONDS),
                             ("served", True))
        close(silent)

    def shutdown(self):
        """SHUTDOWN doesn't wait for who hasn't said who it is."""
        self.begin(lines="client_login_timeout = 0\n")
        silent = opened(self.pooler.port, count=BEHIND)
        begin = time.monotonic()
        self.passes.tell(f"SHUTDOWN with {BEHIND} silent connections", self.pooler.shut())
        self.passes.holds("at once", time.monotonic() - begin < SECONDS, f"{time.monotonic() - begin:.1f} s")
        self.passes.same("they are closed", ends(silent, SECONDS)[0], BEHIND)
        close(silent)

    def starts(self):
        """A server that takes no connection, and one that drips its welcome."""
        server, full = Dripping(), Full()
        row = f"full = host={HERE} port={full.port} dbname=shop"
        self.begin(closed=server.port, size=1, lines=f"server_connect_timeout = {START}\n", more_rows=row)
        outcome, took = visit(self.pooler.port, database="full")
        in_time = START - 0.5 < took < START + SLACK
        self.passes.same(f"a server that takes no connection: told in server_connect_timeout ({took:.1f} s)", (outcome, in_time),
                         (UNREACHED, True))
        full.close()
        for turn in ("a server that drips its welcome", "the next client"):
            outcome, took = visit(self.pooler.port, database="closed")
            self.passes.same(f"{turn}: told in server_connect_timeout", (outcome, START <= took < START + SLACK), (UNREACHED, True))
        self.passes.holds("its connection is closed", until(lambda: server.open == 0, 5))
        self.passes.same("its place is free", self.console("SHOW SERVERS"), [])
        self.passes.same("and others are served", visit(self.pooler.port)[0], "served")

    def unlimited_starts(self):
        """A server that takes no connection, where no time is set for it."""
        full = Full()
        row = f"full = host={HERE} port={full.port} dbname=shop"
        self.begin(lines="server_connect_timeout = 0\n", more_rows=row)
        outcome, took = visit(self.pooler.port, database="full", seconds=CONNECT + SECONDS)
        in_time = CONNECT - 0.5 < took < CONNECT + SLACK
        self.passes.same(f"server_connect_timeout = 0: told in {CONNECT} s all the same ({took:.1f} s)", (outcome, in_time),
                         (UNREACHED, True))
        full.close()

    def console_beyond(self):
        """The console where no client has a place."""
        folder = self.place.folder
        self.begin(clients=3, lines=f"unix_socket_dir = {folder}\n")
        clients = [Client(self.pooler.port, "ann", "shop", USERS["ann"][0]) for _ in range(3)]
        self.passes.same("a client beyond max_client_conn", visit(self.pooler.port)[0], TOO_MANY)
        self.passes.same("a client of the console's database that isn't its user", visit(self.pooler.port, database="pgbouncer")[0],
                         TOO_MANY)
        self.passes.same("SHOW beyond it", len(self.console("SHOW CLIENTS")), 4)
        silent = opened(self.pooler.port, startup("root", "pgbouncer"), CONSOLE)
        for it in silent:
            it.recv(1)
        asking = {"user": "root", "database": "pgbouncer", "asks": "SHOW VERSION"}
        self.passes.same(f"{CONSOLE} that give no password have the console's places", visit(self.pooler.port, **asking)[0], TOO_MANY)
        self.passes.same("and not those of the Unix socket", visit(self.pooler.port, host=str(folder), **asking)[0], "served")
        self.passes.same(f"they have {CONSOLE_SECONDS} s", ends(silent, CONSOLE_SECONDS + 5)[0], CONSOLE)
        close(silent)
        ini = (folder / "pgsess.ini").read_text()
        self.place.write("pgsess.ini", ini.replace("max_client_conn = 3", "max_client_conn = 10"))
        self.console("RELOAD")
        self.passes.same("RELOAD with a higher limit", visit(self.pooler.port)[0], "served")
        for client in clients:
            client.leave()
        self.passes.tell("SHUTDOWN", self.pooler.shut())

    def places(self):
        """A server that has fewer places for a user than the user's pool."""
        self.cluster.tell(f"ALTER ROLE ann CONNECTION LIMIT {PLACES}", "postgres")
        self.begin(size=CLIENTS)
        before = len(self.log())
        outcomes = visits(self.pooler.port, CLIENTS, "SELECT pg_sleep(1)")
        self.passes.same(f"{CLIENTS} clients of a second, a pool of {CLIENTS}, {PLACES} places at the server", [it for it, _ in outcomes],
                         ["served"] * CLIENTS)
        self.passes.holds("each waited for its turn alone", max(took for _, took in outcomes) < 8 + SLACK, str(outcomes))
        refused = self.log()[before:].count(f"refused the start: {TOO_MANY}")
        self.passes.holds("the log names the starts that were refused", CLIENTS - PLACES <= refused <= 2 * CLIENTS, str(refused))
        outcomes = visits(self.pooler.port, 4 * CLIENTS, "SELECT 1")
        self.passes.same("many more clients, each for a moment", [it for it, _ in outcomes], ["served"] * (4 * CLIENTS))
        self.begin(size=CLIENTS, wait=WAIT)
        held = [Client(self.pooler.port, "ann", "shop", USERS["ann"][0]) for _ in range(PLACES)]
        outcome, took = visit(self.pooler.port)
        self.passes.same("no link comes back: what the server said is told in query_wait_timeout",
                         (outcome, WAIT - 1 <= took < WAIT + SLACK), (TOO_MANY, True))
        for client in held:
            client.leave()
        self.begin(size=CLIENTS)
        other = [Client(self.cluster.port, "ann", "shop", USERS["ann"][0]) for _ in range(PLACES)]
        outcome, took = visit(self.pooler.port)
        self.passes.same("no link of the pool is lent: it is told at once", (outcome, took < 5), (TOO_MANY, True))
        for client in other:
            client.leave()
        self.cluster.tell("ALTER ROLE ann CONNECTION LIMIT -1", "postgres")

    def woken(self):
        """The seconds after which a client is served whose link comes back, while one at the same bell waits for another link."""
        port = self.pooler.port
        console = Client(port, "root", "pgbouncer", USERS["root"][0])
        waiting = lambda: sum(int(row[3]) for row in console.ask("SHOW POOLS"))
        holders = {user: Client(port, user, "shop", USERS[user][0]) for user in ("ann", "bc")}
        other, one = (threading.Thread(target=outcome_at, args=(port, user), kwargs={"seconds": 6 * SECONDS}) for user in ("ann", "bc"))
        other.start()
        until(lambda: waiting() == 1)
        come_and_go(port, BELLS - 1)
        one.start()
        until(lambda: waiting() == 2)
        begin = time.monotonic()
        holders["bc"].leave()
        one.join()
        took = time.monotonic() - begin
        holders["ann"].leave()
        other.join()
        console.leave()
        return took

    def bells(self):
        """Clients that come so many apart wait at one bell, and none of them for the next second."""
        self.begin(size=1, clients=2 * BELLS)
        times = [self.woken() for _ in range(TURNS)]
        shown = " ".join(f"{it:.2f}" for it in times)
        self.passes.holds(f"a client is woken as its link comes back, though another waits at its bell ({shown} s)",
                          sorted(times)[TURNS // 2] < AT_ONCE, shown)

    def all(self):
        for part in (self.logins, self.files, self.shutdown, self.starts, self.unlimited_starts, self.console_beyond, self.places,
                     self.bells):
            part()
        self.pooler.stop()
        self.cluster.stop()


if __name__ == "__main__":
    play(Limits)
