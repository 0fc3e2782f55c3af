#!/usr/bin/env python3
"""Runs the recipes of docs/RECIPES.md over a PostgreSQL server: those that install nothing, or with --installed those that need HAProxy and
stunnel, which are installed where the caller is root.

Usage: recipes.py PROGRAM [--installed]

The configurations are those of packaging/recipes, with other ports and folders.
"""
import os
import pathlib
import re
import shutil
import signal
import socket
import subprocess
import sys
import threading
import time

sys.path.insert(0, str(pathlib.Path(__file__).resolve().parents[1] / "lib"))
from cluster import HERE, TOP, Cluster, free_port, is_open, need, until
from passes import Show, play
from wire import Client, Refused, cancel_request

RECIPES = TOP / "packaging/recipes"
# so many clients of one address are struck at the same time
STRUCK = 40
# how long at most nobody may listen where one pool follows another, in seconds: a busy machine's
GAP = 3


class Pool:
    """A pgsess with these settings, over the server."""

    def __init__(self, place, program, cluster, name, port=None, row="", **settings):
        self.port, self.name, self.place = port or free_port(), name, place
        settings = {"listen_port": self.port, "auth_type": "md5", "admin_users": "root", "max_client_conn": 400, "default_pool_size": 10,
                    **settings}
        self.ini = place.write(f"{name}.ini", f"[databases]\nshop = host={HERE} port={cluster.port}\n{row}\n[pgbouncer]\n" +
                               "".join(f"{key} = {value}\n" for key, value in settings.items()))
        self.users = place.write(f"{name}.users", '"ann" "secret"\n"root" "r"\n')
        self.log, self.program = place.folder / f"{name}.log", program
        self.process = self.begin()

    def begin(self):
        seed = self.place.write(f"{self.name}.seed", os.urandom(32))
        with open(self.log, "a") as log:
            return self.place.start(self.program, "serve", "--ini", self.ini, "--users", self.users, "--key-seed", seed,
                                    stdout=subprocess.DEVNULL, stderr=log)

    def listens(self):
        return until(lambda: self.process.poll() is not None or is_open(self.port), 10) and self.process.poll() is None

    def console(self, command):
        client = Client(self.port, "root", "pgbouncer", "r")
        rows = client.ask(command)
        client.leave()
        return rows

    def again(self):
        """Starts the next one at the same port, as soon as that can be had."""
        for _ in range(100):
            process = self.begin()
            if until(lambda: process.poll() is not None or "listening" in self.log.read_text().rsplit("\n", 2)[-2],
                     2) and process.poll() is None:
                return process
            time.sleep(0.01)
        return None


def served(port, count=10, user="ann", password="secret"):
    """How many of so many clients are served, one after the other."""
    good = 0
    for _ in range(count):
        try:
            client = Client(port, user, "shop", password)
            good += client.ask("SELECT 1") == [["1"]]
            client.leave()
        except Exception:
            pass
    return good


class Load:
    """A client every few milliseconds, until it is stopped; what fails is kept."""

    def __init__(self, port):
        self.port, self.done, self.failed, self.times, self.stops = port, 0, [], [], False
        self.thread = threading.Thread(target=self.run)
        self.thread.start()

    def run(self):
        while not self.stops:
            try:
                client = Client(self.port, "ann", "shop", "secret")
                client.ask("SELECT 1")
                client.leave()
                self.done += 1
            except Exception as error:
                self.failed.append(str(error) or type(error).__name__)
                self.times.append(time.monotonic())
            time.sleep(0.005)

    def stop(self):
        self.stops = True
        self.thread.join()


def rolling(passes, place, program, cluster):
    pool = Pool(place, program, cluster, "rolling")
    passes.holds("rolling restart: it listens", pool.listens())
    old = Client(pool.port, "ann", "shop", "secret")
    load = Load(pool.port)
    time.sleep(1)
    pool.console("SHUTDOWN")
    following = pool.again()
    passes.holds("rolling restart: the next one has the port while an old client is there", following and pool.process.poll() is None)
    time.sleep(1)
    passes.same("rolling restart: the old client goes on", old.ask("SELECT 2"), [["2"]])
    load.stop()
    print(f"       {load.done} connects served, {len(load.failed)} refused, one every 5 ms")
    gap = load.times[-1] - load.times[0] if load.times else 0
    passes.holds(f"rolling restart: connects were refused for less than {GAP} s", gap < GAP and load.done > 20,
                 f"{gap:.1f} s, {load.failed[:5]}")
    old.leave()
    passes.same("rolling restart: the old one ends with its last client", pool.process.wait(10), 0)
    following.terminate()


def switch_over(passes, place, program, cluster):
    pool = Pool(place, program, cluster, "switch")
    pool.listens()
    clients = [Client(pool.port, "ann", "shop", "secret") for _ in range(6)]
    for it in clients:
        it.leave()
    passes.holds("switch-over: six links idle", until(lambda: [it[-1] for it in pool.console("SHOW SERVERS")].count("idle") == 6, 10))
    pool.console("PAUSE")
    waiting = threading.Thread(target=lambda: found.append(served(pool.port, 1)))
    found = []
    waiting.start()
    cluster.stop()
    cluster.start()
    until(cluster.is_ready)
    pool.console("RESUME")
    waiting.join()
    passes.same("switch-over: who came meanwhile, and all others, are served", (found, served(pool.port)), ([1], 10))
    pool.process.terminate()


def users(passes, place, program, cluster):
    pool = Pool(place, program, cluster, "roles")
    pool.listens()
    local = place.write("users.local", '; by hand\n"root" "r"\n"bc" "mine"\n')
    cluster.tell("SET password_encryption = md5; CREATE ROLE \"d\"\"q\" LOGIN PASSWORD 'word'", "postgres")
    cluster.tell("GRANT CONNECT ON DATABASE shop TO PUBLIC; CREATE ROLE verified LOGIN; SET password_encryption = 'scram-sha-256'; ALTER "
                 "ROLE verified PASSWORD 'x'", "postgres")
    pool.users.chmod(0o640)
    if place.as_user:
        os.chown(pool.users, place.as_user["user"], place.as_user["group"])
    environment = {**os.environ, "PGHOST": HERE, "PGPORT": str(cluster.port), "PGUSER": "postgres"}
    count = place.folder / "reloads"
    command = [RECIPES / "pgsess-users", local, pool.users, "bash", "-c",
               f"echo >> {count}; PGPASSWORD=r psql -X -q -w -h {HERE} -p {pool.port} -U root -d pgbouncer -c RELOAD"]
    statuses = [place.start(*command, env=environment).wait(20) for _ in range(2)]
    passes.same("user list: made, the pool reloaded, and no reload where nothing changed", (statuses, count.read_text()), ([0, 0], "\n"))
    text = pool.users.read_text()
    passes.same("user list: its mode is kept", pool.users.stat().st_mode & 0o777, 0o640)
    passes.same("user list: whom it has", re.findall('^("(?:[^"]|"")*")', text, re.M), ['"root"', '"bc"', '"ann"', '"d""q"', '"verified"'])
    passes.same("user list: by their digests a role logs in", served(pool.port, 2, 'd"q', "word"), 2)
    passes.same("user list: and so does one of before", served(pool.port, 2), 2)
    passes.same("user list: and one by its verifier, which the server has too", served(pool.port, 2, "verified", "x"), 2)
    pool.process.terminate()


def options(passes, place, program, cluster):
    pool = Pool(place, program, cluster, "options", track_extra_parameters="IntervalStyle, options")
    pool.listens()
    environment = {**os.environ, "PGPASSWORD": "secret", "PGOPTIONS": "-c work_mem=9MB -c search_path=public"}
    said = subprocess.run(["psql", "-X", "-At", "-h", HERE, "-p", str(pool.port), "-U", "ann", "-d", "shop", "-c", "SHOW work_mem"],
                          env=environment, capture_output=True, text=True).stdout
    plain = Client(pool.port, "ann", "shop", "secret")
    passes.same("PGOPTIONS: it is followed, and by nobody else", (said, plain.ask("SHOW work_mem")), ("9MB\n", [["4MB"]]))
    plain.leave()
    pool.process.terminate()


def idle(passes, place, program, cluster):
    cluster.tell("ALTER ROLE ann SET idle_session_timeout = '1s'", "postgres")
    pool = Pool(place, program, cluster, "idle", server_idle_timeout=600)
    pool.listens()
    good = 0
    for _ in range(4):
        good += served(pool.port, 1)
        time.sleep(1.6)
    passes.same("idle_session_timeout below server_idle_timeout: each client is served", good, 4)
    passes.holds("and the log tells the link's end", "its server said 57P05" in pool.log.read_text(), pool.log.read_text()[-300:])
    holder = Client(pool.port, "ann", "shop", "secret")
    time.sleep(1.8)
    try:
        holder.ask("SELECT 1")
        passes.tell("a client that asks for nothing loses its session", "it has it")
    except Exception:
        passes.tell("a client that asks for nothing loses its session")
    cluster.tell("ALTER ROLE ann RESET idle_session_timeout", "postgres")
    pool.process.terminate()


def certificates(place):
    """An authority, and a certificate of localhost for the pool and for the server."""
    folder = place.folder / "tls"
    folder.mkdir()
    def openssl(*words):
        subprocess.run(["openssl", *words], cwd=folder, check=True, capture_output=True)
    new = ["-newkey", "ec", "-pkeyopt", "ec_paramgen_curve:P-256", "-nodes"]
    openssl("req", "-x509", *new, "-days", "2", "-subj", "/CN=an authority", "-keyout", "ca.key", "-out", "ca.crt")
    (folder / "names").write_text(f"subjectAltName=DNS:localhost,IP:{HERE}")
    for name in ["pool", "server"]:
        openssl("req", *new, "-subj", "/CN=localhost", "-keyout", f"{name}.key", "-out", f"{name}.csr")
        openssl("x509", "-req", "-in", f"{name}.csr", "-CA", "ca.crt", "-CAkey", "ca.key", "-CAcreateserial", "-days", "2", "-extfile",
                "names", "-out", f"{name}.crt")
    for file in folder.iterdir():
        file.chmod(0o600)
        if place.as_user:
            os.chown(file, place.as_user["user"], place.as_user["group"])
    folder.chmod(0o755)
    return folder


def started(place, name, program, changes):
    """HAProxy or stunnel by a configuration of the recipes, with other ports and folders."""
    text = (RECIPES / name).read_text()
    for old, new in changes.items():
        if old not in text:
            sys.exit(f"recipes: {name} hasn't {old}")
        text = text.replace(old, str(new))
    file = place.write(name, text)
    words = [program, "-f", file] if program == "haproxy" else [program, file]
    with open(place.folder / f"{name}.out", "w") as out:
        return place.start(*words, stdout=out, stderr=out)


def strikes(port, source="127.0.0.1"):
    """Whether a client's own cancel, by a connection of its own to this port, ends its statement."""
    client = Client(port, "ann", "shop", "secret")
    def cancel():
        time.sleep(0.5)
        with socket.create_connection((HERE, port), 5) as it:
            it.sendall(cancel_request(client.key))
            it.recv(1)
    thread = threading.Thread(target=cancel)
    thread.start()
    try:
        client.ask("SELECT pg_sleep(4)")
        return False
    except Refused as error:
        return error.code == "57014"
    finally:
        thread.join()
        client.leave()


def two(passes, place, program, cluster):
    """Two instances behind HAProxy."""
    pools = [Pool(place, program, cluster, f"peer{number}", peer_id=number, default_pool_size=STRUCK) for number in (1, 2)]
    passes.holds("two instances: both listen", all([it.listens() for it in pools]))
    port, socket_file = free_port(), place.folder / "admin.sock"
    proxy = started(place, "haproxy-two.cfg", "haproxy", {"127.0.0.1:5433": f"{HERE}:{port}", "/run/haproxy/admin.sock": socket_file,
                                                          "127.0.0.1:6432": f"{HERE}:{pools[0].port}",
                                                          "127.0.0.1:6433": f"{HERE}:{pools[1].port}"})
    passes.holds("two instances: HAProxy listens", until(lambda: is_open(port), 10), (place.folder / "haproxy-two.cfg.out").read_text())
    clients = [Client(port, "ann", "shop", "secret") for _ in range(10)]
    first = [it.key[0] for it in clients]
    passes.same("two instances: the keys name them, half each", (set(first), first.count(1)), ({1, 2}, 5))
    for it in clients:
        it.leave()
    found = []
    threads = [threading.Thread(target=lambda: found.append(strikes(port))) for _ in range(STRUCK)]
    for it in threads:
        it.start()
    for it in threads:
        it.join()
    passes.same(f"two instances: each of {STRUCK} cancels struck its client's statement", found, [True] * STRUCK)
    # one after the other is taken out, shut down, started, and put in again
    load = Load(port)
    time.sleep(1)
    for name, pool in zip(["first", "second"], pools):
        tell(socket_file, f"set server pools/{name} state drain")
        until(lambda: sum(it[1] != "active" for it in pool.console("SHOW CLIENTS")) <= 1, 10)
        pool.console("SHUTDOWN")
        pool.process.wait(20)
        pool.process = pool.begin()
        pool.listens()
        tell(socket_file, f"set server pools/{name} state ready")
        time.sleep(1)
    load.stop()
    print(f"       {load.done} connects served, {len(load.failed)} failed")
    passes.holds("two instances: both restarted, and nobody was refused", load.done > 20 and not load.failed, str(load.failed[:5]))
    proxy.terminate()
    for it in pools:
        it.process.terminate()


def tell(socket_file, command):
    """A command of HAProxy's administration socket."""
    with socket.socket(socket.AF_UNIX) as it:
        it.connect(str(socket_file))
        it.sendall(command.encode() + b"\n")
        while it.recv(4096):
            pass


def psql(port, more, text="SELECT 1", database="shop", host="localhost"):
    words = f"host={host} hostaddr={HERE} port={port} user=ann dbname={database} {more}"
    ran = subprocess.run(["psql", "-X", "-At", words, "-c", text], env={**os.environ, "PGPASSWORD": "secret"}, capture_output=True,
                         text=True, timeout=30)
    return ran.stdout.strip() or ran.stderr.strip()


def ctrl_c(port, more):
    """psql's Ctrl-C: in which time its statement of six seconds ends, and how."""
    began = time.monotonic()
    ran = subprocess.Popen(["psql", "-X", "-At", f"host=localhost port={port} user=ann dbname=shop {more}", "-c", "SELECT pg_sleep(6)"],
                           env={**os.environ, "PGPASSWORD": "secret"}, stdout=subprocess.PIPE, stderr=subprocess.STDOUT, text=True)
    time.sleep(1)
    ran.send_signal(signal.SIGINT)
    said, _ = ran.communicate(timeout=30)
    return "canceling statement" in said and time.monotonic() - began < 5


def tls(passes, place, program, cluster):
    """TLS by stunnel, for clients and to servers."""
    folder, before, behind, front = certificates(place), free_port(), free_port(), free_port()
    for name in ["server.crt", "server.key"]:
        shutil.copy(folder / name, cluster.data / name)
        os.chmod(cluster.data / name, 0o600)
        if place.as_user:
            os.chown(cluster.data / name, place.as_user["user"], place.as_user["group"])
    cluster.stop()
    with open(cluster.data / "postgresql.conf", "a") as file:
        file.write("ssl = on\nssl_cert_file = 'server.crt'\nssl_key_file = 'server.key'\n")
    hba = cluster.data / "pg_hba.conf"
    hba.write_text(f"hostssl secret all {HERE}/32 md5\nhostnossl secret all {HERE}/32 reject\n" + hba.read_text())
    cluster.start()
    cluster.tell("CREATE DATABASE secret OWNER ann", "postgres")
    pool = Pool(place, program, cluster, "tls", row=f"secret = host={HERE} port={behind}")
    pool.listens()
    clients = started(place, "stunnel-clients.conf", "stunnel4",
                      {"127.0.0.1:5434": f"{HERE}:{before}", "127.0.0.1:6432": f"{HERE}:{pool.port}", "/etc/pgsess/tls": folder})
    servers = started(place, "stunnel-servers.conf", "stunnel4",
                      {"127.0.0.1:5436": f"{HERE}:{behind}", "127.0.0.1:5432": f"{HERE}:{cluster.port}", "/etc/pgsess/tls": folder})
    proxy = started(place, "haproxy-tls.cfg", "haproxy", {"127.0.0.1:5435": f"{HERE}:{front}", "127.0.0.1:5434": f"{HERE}:{before}",
                                                          "127.0.0.1:6432": f"{HERE}:{pool.port}"})
    passes.holds("TLS: stunnel and HAProxy listen", until(lambda: all(map(is_open, [before, behind, front])), 10),
                 "".join(it.read_text()[-300:] for it in place.folder.glob("*.out")))
    authority = place.folder / "ca.crt"
    shutil.copy(folder / "ca.crt", authority)
    full = f"sslmode=verify-full sslrootcert={authority}"
    passes.same("TLS: a client that verifies all is served", psql(before, full), "1")
    passes.holds("TLS: a name that isn't the certificate's is refused", psql(before, full, host="another") != "1")
    passes.holds("TLS: who doesn't ask for it isn't served", psql(before, "sslmode=disable") != "1")
    has_tls = "SELECT ssl FROM pg_stat_ssl WHERE pid = pg_backend_pid()"
    passes.same("TLS: a server that demands it is reached", psql(pool.port, "sslmode=disable", has_tls, database="secret"), "t")
    passes.same("TLS: by both", psql(before, full, has_tls, database="secret"), "t")
    passes.same("TLS: through HAProxy at one port", psql(front, full), "1")
    passes.holds("TLS: there psql's Ctrl-C strikes", ctrl_c(front, full))
    for it in [clients, servers, proxy, pool.process]:
        it.terminate()


class Recipes(Show):
    def __init__(self, program, more=""):
        if more not in ("", "--installed"):
            sys.exit(__doc__)
        if more:
            os.environ["PATH"] += ":/usr/sbin"
            need(["haproxy", "stunnel4", "openssl"], ["haproxy", "stunnel4", "openssl"])
        super().__init__(program, "recipes")
        self.cases = [two, tls] if more else [rolling, switch_over, users, options, idle]

    def all(self):
        cluster = Cluster(self.place)
        for case in self.cases:
            case(self.passes, self.place, self.program, cluster)


if __name__ == "__main__":
    play(Recipes, further=1)
