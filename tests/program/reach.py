#!/usr/bin/env python3
"""Shows how `pgsess serve` reaches servers and is reached itself: names, IPv6, Unix sockets, lists of hosts, several listeners, the row
`*`, cancels through all of these, `peer_id` and keepalives, in front of PostgreSQL servers of Debian.

Usage: reach.py PROGRAM
"""
import grp
import os
import pathlib
import re
import shutil
import signal
import socket
import stat
import subprocess
import sys
import threading
import time

sys.path.insert(0, str(pathlib.Path(__file__).resolve().parents[1] / "lib"))
from asking import UNREACHED, outcome
from cluster import HERE, USERS, Cluster, Place, free_port, need, until
from passes import Show, play
from tracing import may_trace, traced
from wire import Client, Cut, cancel_request, connected, query

SECONDS = 20
# the flags of a listening socket in /proc/net/unix
LISTENING = "00010000"
LONG_SECONDS = 30
LONG = f"SELECT pg_sleep({LONG_SECONDS})"
# an address of this machine at which the first server listens too, one where the second does, and one where nobody does
TOO, SECOND, NOBODY = "127.0.0.2", "127.0.0.5", "127.0.0.3"
SETTINGS = """[databases]
{rows}
[pgbouncer]
listen_port = {port}
auth_type = trust
admin_users = root
default_pool_size = 20
ignore_startup_parameters = options
{more}
"""


def has_ipv6():
    """Whether this machine has the address ::1."""
    try:
        with socket.socket(socket.AF_INET6) as probe:
            probe.bind(("::1", 0))
    except OSError:
        return False
    return True


class Pool:
    """A pool of these rows and further settings, once it listens at so many places."""

    def __init__(self, place, program, rows, more="", listens=1, port=None):
        self.place, self.port = place, port or free_port()
        self.log = place.folder / f"pool{self.port}.err"
        self.ini = place.folder / f"pool{self.port}.ini"
        self.settle(rows, more)
        users = place.write("users.txt", "".join(f'"{name}" "{secret}"\n' for name, (_, secret) in USERS.items()))
        self.errors = open(self.log, "ab")
        self.process = place.start(program, "serve", "--ini", self.ini, "--users", users, "--key-seed", place.write("seed", os.urandom(32)),
                                   stdout=subprocess.PIPE, stderr=self.errors)
        self.lines = []
        for _ in range(listens):
            line = self.process.stdout.readline().decode().strip()
            if not line:
                break
            self.lines.append(line)

    def settle(self, rows, more=""):
        lines = "\n".join(f"{name} = {value}" for name, value in rows.items())
        self.place.write(self.ini.name, SETTINGS.format(rows=lines, port=self.port, more=more))

    def said(self):
        return self.log.read_text()

    def ask(self, command, host=HERE):
        console = Client(self.port, "root", "pgbouncer", host=host)
        try:
            return console.ask(command)
        finally:
            console.leave()

    def unix_listener(self):
        """The descriptor of its Unix socket."""
        rows = pathlib.Path("/proc/net/unix").read_text().splitlines()[1:]
        listening = {f"socket:[{row.split()[6]}]" for row in rows if row.split()[3] == LISTENING}
        folder = pathlib.Path(f"/proc/{self.process.pid}/fd")
        return next(it.name for it in folder.iterdir() if os.readlink(it) in listening)

    def shut(self):
        """Ends it by its console; its status."""
        self.ask("SHUTDOWN")
        try:
            return self.process.wait(SECONDS)
        finally:
            self.close()

    def stop(self, way=signal.SIGTERM):
        if self.process.poll() is None:
            self.process.send_signal(way)
            self.process.wait(SECONDS)
        self.close()

    def close(self):
        self.process.stdout.close()
        self.errors.close()


class Reach(Show):
    def __init__(self, program):
        super().__init__(program, "reach")
        self.folder = self.place.folder
        self.is_ipv6 = has_ipv6()
        addresses = [HERE, TOO, *(["::1"] if self.is_ipv6 else [])]
        self.cluster = Cluster(self.place, f"listen_addresses = '{','.join(addresses)}'\n")
        self.let_in(self.cluster)
        self.cluster.tell("CREATE TABLE own (name text); INSERT INTO own VALUES ('first'); GRANT SELECT ON own TO PUBLIC")
        self.cluster.tell("CREATE DATABASE other OWNER ann", "postgres")
        # where servers are, at the cluster's port
        self.servers = [HERE]

    @staticmethod
    def let_in(cluster):
        """Its users from all addresses of this machine, and over its Unix socket."""
        with open(cluster.data / "pg_hba.conf", "a") as file:
            file.write("host all all 127.0.0.0/8 md5\nhost all all ::1/128 md5\n")
        cluster.stop()
        cluster.start()

    def pool(self, rows, more="", listens=1, **how):
        if not isinstance(rows, dict):
            rows = {"shop": f"host={rows} port={self.cluster.port}"}
        return Pool(self.place, self.program, rows, more, listens, **how)

    def says(self, what, pool, line):
        """Whether its log has such a line, or has it soon."""
        self.passes.holds(what, until(lambda: re.search(line, pool.said(), re.M), 5), pool.said())

    def serves(self, what, pool, host=HERE, database="shop", wanted=[["1"]]):
        self.passes.same(what, outcome(lambda: Client(pool.port, "ann", database, host=host)), wanted)

    def is_under_way(self, host):
        """Whether a long statement of this user is, at the server there."""
        client = Client(self.cluster.port, "ann", "shop", USERS["ann"][0], host=host)
        try:
            return client.ask(f"SELECT count(*) FROM pg_stat_activity WHERE query = '{LONG}' AND state = 'active'") == [["1"]]
        finally:
            client.leave()

    def cancels(self, what, pool, host=HERE, times=1):
        """A client's long statement is ended by a cancel that comes the same way."""
        codes = []
        for _ in range(times):
            client = Client(pool.port, "ann", host=host)
            client.send(query(LONG))
            until(lambda: any(map(self.is_under_way, self.servers)), 10)
            began = time.monotonic()
            with connected(host, pool.port, SECONDS) as it:
                it.sendall(cancel_request(client.key))
                it.recv(64)
            client.socket.settimeout(2 * LONG_SECONDS)
            try:
                while client.next()[0] != b"Z":
                    pass
            except Cut:
                pass
            codes.append(time.monotonic() - began < LONG_SECONDS / 2)
            client.leave()
        self.passes.same(what, codes, [True] * times)

    # ---- where servers are

    def hosts(self):
        port = self.cluster.port
        # `localhost` in a list is a name like any other, which the system's resolver knows
        ways = {"a name": "localhost,localhost", "a folder": self.folder, "an address besides 127.0.0.1": TOO}
        if self.is_ipv6:
            ways["IPv6"] = "::1"
        for what, host in ways.items():
            pool = self.pool(host)
            self.serves(f"a server behind {what}", pool)
            self.cancels(f"a cancel to a server behind {what}", pool)
            pool.stop()
        pool = self.pool("nowhere.invalid")
        self.serves("a name that nobody knows", pool, wanted=UNREACHED)
        self.says("the log says why", pool, rf"^pgsess: server nowhere\.invalid:{port} not reached: \S")
        pool.stop()

    @staticmethod
    def in_turn(pool, text, times):
        """What so many clients are told by a new link each."""
        found = []
        for _ in range(times):
            client = Client(pool.port, "ann")
            found.append(client.ask(text)[0][0])
            client.leave()
            time.sleep(0.05)
        return found

    def lists(self):
        """Each new link begins at the next place, and goes on where one is down."""
        pool = self.pool(f"{HERE},{TOO},{self.folder}", "server_lifetime = 0")
        places = self.in_turn(pool, "SELECT coalesce(host(inet_server_addr()), 'unix')", 6)
        self.passes.same("a list is gone through in turn", (sorted(places[:3]), places[3:]), (sorted([HERE, TOO, "unix"]), places[:3]))
        pool.stop()
        pool = self.pool(f"{NOBODY},{HERE}", "server_lifetime = 0")
        for number in range(4):
            self.serves(f"one place of a list is down, client {number + 1}", pool)
        self.cancels("a cancel where one place of a list is down", pool, times=2)
        pool.stop()
        pool = self.pool(NOBODY)
        self.serves("all places are down", pool, wanted=UNREACHED)
        self.says("the log says which", pool, f"^pgsess: server {NOBODY}:{self.cluster.port} not reached: \\S")
        pool.stop()

    def two_clusters(self):
        """Two servers that know nothing of each other behind one host text: each cancel goes where its link went."""
        with Place() as place:
            second = Cluster(place)
            second.tell("CREATE TABLE own (name text); INSERT INTO own VALUES ('second'); GRANT SELECT ON own TO PUBLIC")
            second.stop()
            with open(second.data / "postgresql.conf", "a") as file:
                file.write(f"listen_addresses = '{SECOND}'\nport = {self.cluster.port}\n")
            with open(second.data / "pg_hba.conf", "a") as file:
                file.write("host all all 127.0.0.0/8 md5\n")
            second.start()
            pool = self.pool(f"{HERE},{SECOND}", "server_lifetime = 0")
            names = self.in_turn(pool, "SELECT name FROM own", 4)
            self.passes.same("two servers behind one host, in turn", sorted(names), ["first", "first", "second", "second"])
            self.servers.append(SECOND)
            self.cancels("each cancel goes where its link went", pool, times=8)
            self.servers.remove(SECOND)
            pool.stop()
            wrong = [it for it in (self.cluster, second) if "wrong key in cancel request" in it.log.read_text(errors="replace")
                     or "did not match any process" in it.log.read_text(errors="replace")]
            self.passes.holds("neither server was asked to cancel by a key that it hadn't told", not wrong)

    # ---- where it listens

    def listeners(self):
        hosts = [HERE, TOO, *(["::1"] if self.is_ipv6 else [])]
        pool = self.pool(HERE, f"listen_addr = {', '.join(hosts)}\nunix_socket_dir = {self.folder}", len(hosts) + 1)
        self.passes.same("a line for each place", pool.lines, [f"listening {host} {pool.port}" for host in [*hosts, self.folder]])
        for host in [*hosts, str(self.folder)]:
            self.serves(f"a client at {'the Unix socket' if host.startswith('/') else host}", pool, host=host)
        self.cancels("a cancel over the Unix socket", pool, host=str(self.folder))
        self.says("the log shows a Unix socket's client", pool, rf"from unix:{pool.port} ")
        self.no_place_starves(pool, hosts)
        self.passes.same("no place else", outcome(lambda: Client(pool.port, "ann", host=SECOND))[:22], "ConnectionRefusedError")
        pool.stop()
        if self.is_ipv6 and pathlib.Path("/proc/sys/net/ipv6/bindv6only").read_text().strip() == "0":
            pool = self.pool(HERE, "listen_addr = *, ::", 1)
            for host in (HERE, "::1"):
                self.serves(f"`::` beside `*`, a client at {host}", pool, host=host)
            pool.stop()

    def no_place_starves(self, pool, hosts):
        """While many knock at one place, each other one is served."""
        is_over, failed = threading.Event(), []

        def knock():
            while not is_over.is_set():
                try:
                    connected(hosts[0], pool.port, SECONDS).close()
                except OSError:
                    time.sleep(0.01)

        knocking = [threading.Thread(target=knock) for _ in range(4)]
        for it in knocking:
            it.start()
        try:
            for host in [*hosts[1:], str(self.folder)]:
                for _ in range(5):
                    told = outcome(lambda: Client(pool.port, "ann", host=host))
                    failed += [] if told == [["1"]] else [(host, told)]
        finally:
            is_over.set()
            for it in knocking:
                it.join()
        self.passes.same("no place starves beside another that is flooded", failed, [])

    def unix_file(self):
        """Rights of the socket, and what may stand at its place."""
        group = grp.getgrgid(self.place.as_user.get("group", os.getegid())).gr_name
        more = f"unix_socket_dir = {self.folder}\nunix_socket_mode = 0770\nunix_socket_group = {group}"
        pool = self.pool(HERE, more, 2)
        path = self.folder / f".s.PGSQL.{pool.port}"
        found = path.stat()
        self.passes.same("mode and group of the socket", (stat.S_IMODE(found.st_mode), grp.getgrgid(found.st_gid).gr_name), (0o770, group))
        self.passes.same("nothing else is left in its folder",
                         [it.name for it in self.folder.iterdir() if "pgsess" in it.name.lower() and it.is_dir()], [])
        port = pool.port
        pool.stop(signal.SIGKILL)
        self.passes.holds("killed, it leaves its socket there", path.is_socket())
        pool = self.pool(HERE, more, 2, port=port)
        self.serves("which the next one replaces", pool, host=str(self.folder))
        other = self.pool(HERE, f"listen_addr = {TOO}\nunix_socket_dir = {self.folder}", 1, port=port)
        self.says("a socket that lives is left alone, and the pool goes on without", other, f"not listening {self.folder} {port}: ")
        self.serves("the one that has it is still served", pool, host=str(self.folder))
        other.stop()
        self.passes.holds("also once the other has gone", path.is_socket())
        self.succeeds(pool, path)
        pool = self.pool(HERE, more, 2, port=port)
        self.goes_first(pool, path)
        self.stays_away(path, more, port)
        self.passes.holds("and no socket is left", not path.exists())

    def succeeds(self, pool, path):
        """A successor that has taken the place keeps it, though the one before shuts down after it."""
        moved = self.folder / "elsewhere"
        path.rename(moved)
        successor = socket.socket(socket.AF_UNIX)
        successor.bind(str(path))
        successor.listen(1)
        self.passes.same("SHUTDOWN", pool.shut(), 0)
        self.passes.holds("a successor's socket stays at SHUTDOWN", path.is_socket())
        successor.close()
        path.unlink()
        moved.unlink()

    def stays_away(self, path, more, port):
        """What isn't a pool's is left alone, and where no socket can be the pool goes on without."""
        for what, make in {"a file": lambda: path.write_text("mine"),
                           "PostgreSQL's lock": lambda: pathlib.Path(f"{path}.lock").write_text("1\n")}.items():
            make()
            pool = self.pool(HERE, more, 1, port=port)
            self.says(f"{what} there is left alone", pool, f"not listening {self.folder} {port}: ")
            self.serves(f"and the pool serves beside {what}", pool)
            pool.stop()
            for it in (path, pathlib.Path(f"{path}.lock")):
                self.passes.holds(f"{it.suffix} isn't taken away", not it.exists() or it.read_text() in ("mine", "1\n"))
                it.unlink(missing_ok=True)
        for what, more in {"a folder that isn't there": f"unix_socket_dir = {self.folder}/none",
                           "no such group": f"unix_socket_dir = {self.folder}\nunix_socket_group = nosuchgroup"}.items():
            pool = self.pool(HERE, more, 1, port=port)
            self.says(f"{what}: the log says so", pool, rf"not listening {self.folder}\S* {port}: \S")
            self.serves(f"{what}: the pool goes on", pool)
            pool.stop()

    def goes_first(self, pool, path):
        """At SHUTDOWN the socket's file goes, and while somebody listens there still: who finds it is never refused."""
        need(["strace"], ["strace"])
        if not may_trace():
            self.passes.same("SHUTDOWN", pool.shut(), 0)
            print("the order of its calls isn't seen: one process may not trace another here")
        else:
            listener = pool.unix_listener()
            lines, _ = traced(self.place, pool.process.pid, ["-e", "trace=unlink,unlinkat,close"], pool.shut)
            first = lambda call: next((number for number, line in enumerate(lines) if call in line), None)
            gone, closed = first(f'"{path}"'), first(f"close({listener})")
            self.passes.holds("its socket's file goes before nobody listens there",
                              gone is not None and closed is not None and gone < closed, f"{gone} {closed}")
        self.passes.holds("its own goes", not path.exists())

    def taken(self):
        """A port that is taken ends the program, with the line that says so."""
        with socket.create_server((HERE, 0)) as it:
            port = it.getsockname()[1]
            pool = self.pool(HERE, f"unix_socket_dir = {self.folder}", 1, port=port)
            self.passes.same("a port that is taken", (pool.process.wait(SECONDS), pool.said()), (3, f"pgsess: port {port}\n"))
            pool.close()
            self.passes.holds("and no socket is made", not (self.folder / f".s.PGSQL.{port}").exists())

    # ---- the row `*`

    def star(self):
        rows = {"shop": f"host={HERE} port={self.cluster.port}", "*": f"host={TOO} port={self.cluster.port} pool_size=3"}
        pool = self.pool(rows)
        self.serves("a database that no row names", pool, database="other")
        client = Client(pool.port, "ann", "other")
        self.passes.same("at the place of `*`, by its own name", client.ask("SELECT current_database(), host(inet_server_addr())"),
                         [["other", TOO]])
        client.leave()
        client = Client(pool.port, "ann")
        self.passes.same("a row of the name comes first", client.ask("SELECT host(inet_server_addr())"), [[HERE]])
        client.leave()
        shown = [row[:2] for row in pool.ask("SHOW POOLS")]
        self.passes.same("each under its own name", sorted(shown), [["other", "ann"], ["shop", "ann"]])
        self.serves("a database that the server hasn't", pool, database="none", wanted="3D000 database \"none\" does not exist")
        self.serves("a name of 64 bytes", pool, database="a" * 64, wanted="3D000 database does not exist")
        pool.settle({"shop": rows["shop"]})
        pool.ask("RELOAD")
        gone = until(lambda: [row[:2] for row in pool.ask("SHOW POOLS")] == [["shop", "ann"]], 5)
        self.passes.holds("RELOAD without `*` closes its idle links", gone, str(pool.ask("SHOW POOLS")))
        self.serves("and serves no other database any more", pool, database="other", wanted="3D000 database does not exist")
        pool.settle({"*": f"host={HERE} port={self.cluster.port} dbname=shop"})
        pool.ask("RELOAD")
        client = Client(pool.port, "ann", "whatever")
        self.passes.same("`*` with a database of its own", client.ask("SELECT current_database()"), [["shop"]])
        client.leave()
        pool.stop()

    # ---- keys and connections

    def peers(self):
        for peer in (1, 127):
            pool = self.pool(HERE, f"peer_id = {peer}")
            keys = []
            for _ in range(5):
                client = Client(pool.port, "ann")
                keys.append(client.key)
                client.leave()
            self.passes.same(f"peer_id = {peer}: the first byte of each key", {key[0] for key in keys}, {peer})
            self.passes.holds("and the rest differs", len({key[1:4] for key in keys}) > 1)
            self.cancels(f"a cancel with peer_id = {peer}", pool)
            pool.stop()
        pool = self.pool(HERE, "peer_id = 128")
        self.passes.same("peer_id = 128", (pool.process.wait(SECONDS), pool.said()), (1, "pgsess: C3 line 9\n"))
        pool.close()

    def timers(self, pool):
        """The timers of the pool's connections, by ss."""
        shown = subprocess.run(["ss", "-tnpo"], capture_output=True, text=True).stdout
        return [line for line in shown.splitlines() if f"pid={pool.process.pid}," in line and line.startswith("ESTAB")]

    @staticmethod
    def are_kept(lines, wanted):
        """Whether a client's connection and one to a server have a keepalive within a minute, or none."""
        timers = [re.search(r"timer:\((\w+),(\d+)sec", line) for line in lines]
        kept = [it and it[1] == "keepalive" and int(it[2]) <= 60 for it in timers]
        return len(lines) == 2 and (all(kept) if wanted else not any("timer:" in line for line in lines))

    def keepalive(self):
        if not shutil.which("ss"):
            print("ss isn't here (iproute2): keepalives aren't looked at", flush=True)
            return
        for more, wanted in {"tcp_keepidle = 60": True, "tcp_keepalive = 0": False}.items():
            pool = self.pool(HERE, more)
            client = Client(pool.port, "ann")
            client.ask("SELECT 1")
            # what was sent just now has a timer of its own until it is acknowledged
            holds = until(lambda: self.are_kept(self.timers(pool), wanted), 5)
            self.passes.holds(f"{more}: {'both sides' if wanted else 'neither side'}", holds, str(self.timers(pool)))
            client.leave()
            pool.stop()

    def all(self):
        self.hosts()
        self.lists()
        self.two_clusters()
        self.listeners()
        self.unix_file()
        self.taken()
        self.star()
        self.peers()
        self.keepalive()
        self.cluster.stop()


if __name__ == "__main__":
    play(Reach)
