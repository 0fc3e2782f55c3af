"""A PostgreSQL server in a folder of its own, or the stand-in server; and a pooler in front of it: pgsess, or PgBouncer with equal
settings."""
import glob
import hashlib
import os
import pathlib
import pwd
import re
import shutil
import signal
import socket
import subprocess
import sys
import tempfile
import time

from wire import Client

TOP = pathlib.Path(__file__).resolve().parents[2]
HERE = "127.0.0.1"
PACKAGES = ["postgresql", "postgresql-client"]
SECONDS = 60
TIME_TO_END = 5
# what a poll is called among a process's files
POLL = "anon_inode:[eventpoll]"
# name, password, and the secret of the pooler's user file
USERS = {
    "ann": ("secret", "secret"),
    "bc": ("a", "md5" + hashlib.md5(b"abc").hexdigest()),
    "root": ("r", "r"),
}


def free_port():
    with socket.socket() as probe:
        probe.bind((HERE, 0))
        return probe.getsockname()[1]


def is_open(port):
    """Whether connections are taken at this port."""
    try:
        socket.create_connection((HERE, port), 1).close()
    except OSError:
        return False
    return True


def server_folders():
    return sorted(glob.glob("/usr/lib/postgresql/*/bin"), key=lambda it: int(it.split("/")[-2]))


def need(programs, packages):
    """Installs the packages where a program is missing and the caller is root; else says which to install."""
    missing = [it for it in programs if not shutil.which(it)]
    if not missing:
        return
    if os.geteuid() != 0:
        sys.exit(f"{' and '.join(missing)} not found: install the packages {' '.join(packages)}")
    quiet = {"stdout": subprocess.DEVNULL, "env": {**os.environ, "DEBIAN_FRONTEND": "noninteractive"}, "check": True}
    subprocess.run(["apt-get", "update", "-q"], **quiet)
    subprocess.run(["apt-get", "install", "-q", "-y", *packages], **quiet)


def set_up():
    """Makes the server's programs and its clients callable by name."""
    os.environ["PATH"] = os.pathsep.join([os.environ["PATH"], "/usr/sbin", *reversed(server_folders())])
    need(["initdb", "postgres", "pg_ctl", "psql", "pgbench"], PACKAGES)
    os.environ["PATH"] = os.pathsep.join([os.environ["PATH"], *reversed(server_folders())])


def until(holds, seconds=SECONDS):
    """Whether it holds in time."""
    end = time.monotonic() + seconds
    while not holds():
        if time.monotonic() > end:
            return False
        time.sleep(0.02)
    return True


class Place:
    """A temporary folder of an unprivileged user, by whom servers run; it and what runs there go at the end."""

    def __init__(self, user="postgres"):
        self.folder = pathlib.Path(tempfile.mkdtemp(prefix="pgsess-"))
        self.as_user = {}
        if os.geteuid() == 0:
            entry = pwd.getpwnam(user)
            os.chown(self.folder, entry.pw_uid, entry.pw_gid)
            self.as_user = {"user": entry.pw_uid, "group": entry.pw_gid, "extra_groups": []}

    def run(self, *words, **more):
        return subprocess.run([str(word) for word in words], cwd=self.folder, check=True, timeout=SECONDS,
                              stdout=subprocess.DEVNULL, stderr=subprocess.PIPE, **self.as_user, **more)

    def start(self, *words, **more):
        return subprocess.Popen([str(word) for word in words], cwd=self.folder, stdin=subprocess.DEVNULL, **self.as_user, **more)

    def write(self, name, data):
        file = self.folder / name
        file.write_bytes(data if isinstance(data, bytes) else data.encode())
        file.chmod(0o644)
        return file

    def processes(self):
        """Those that run with this folder in their words."""
        found = []
        for words in glob.glob("/proc/[0-9]*/cmdline"):
            try:
                if str(self.folder).encode() in pathlib.Path(words).read_bytes():
                    found.append(int(words.split("/")[2]))
            except OSError:
                pass
        return found

    def left(self):
        """Those that still do once they had time to end: a server's process outlives the file by which others see that it is there."""
        until(lambda: not self.processes(), TIME_TO_END)
        return self.processes()

    def end(self):
        """Ends what runs with this folder, and takes that away."""
        for pid in self.processes():
            os.kill(pid, signal.SIGKILL)
        until(lambda: not self.processes())
        shutil.rmtree(self.folder)

    def __enter__(self):
        """Whatever ends what is done with it, SIGTERM too, ends the place."""
        self.at_term = signal.signal(signal.SIGTERM, lambda *_: sys.exit(1))
        return self

    def __exit__(self, *_):
        signal.signal(signal.SIGTERM, signal.SIG_IGN)
        self.end()
        signal.signal(signal.SIGTERM, self.at_term)


class Cluster:
    """A PostgreSQL server with the database shop, and the users above: it asks for md5 over TCP."""

    def __init__(self, place, settings=""):
        self.place, self.port, self.data = place, free_port(), place.folder / "data"
        self.log = place.folder / "server.log"
        place.run("initdb", "-D", self.data, "-U", "postgres", "-A", "trust", "-E", "UTF8", "--locale=C", "--no-sync")
        with open(self.data / "postgresql.conf", "a") as file:
            file.write(f"listen_addresses = '{HERE}'\nport = {self.port}\nunix_socket_directories = '{place.folder}'\n"
                       "max_connections = 450\nfsync = off\nsynchronous_commit = off\nfull_page_writes = off\n"
                       "password_encryption = md5\nlog_connections = on\nlog_line_prefix = '%p %u '\n"
                       "logging_collector = off\nmax_wal_size = 4GB\n" + settings)
        (self.data / "pg_hba.conf").write_text(f"local all all trust\nhost all postgres {HERE}/32 trust\nhost all all {HERE}/32 md5\n")
        self.start()
        for name, (password, _) in USERS.items():
            self.tell(f"CREATE ROLE {name} LOGIN PASSWORD '{password}'", "postgres")
        self.tell("CREATE ROLE clerk; GRANT clerk TO ann", "postgres")
        self.tell("CREATE DATABASE shop OWNER ann", "postgres")

    def start(self):
        self.place.run("pg_ctl", "-D", self.data, "-l", self.log, "-w", "-s", "start")

    def stop(self, mode="fast"):
        self.place.run("pg_ctl", "-D", self.data, "-m", mode, "-w", "-s", "stop")

    def tell(self, text, database="shop"):
        """The rows of a statement of the superuser, over a connection of its own."""
        client = Client(self.port, "postgres", database)
        try:
            return client.ask(text)
        finally:
            client.leave()

    def is_ready(self):
        try:
            self.tell("SELECT 1")
        except Exception:
            return False
        return True

    def crash(self, pid):
        """Kills a session's process, for which the server ends all others and starts anew. It returns what tells whether that is over."""
        starts = lambda: self.log.read_text(errors="replace").count("database system is ready to accept connections")
        before = starts()
        os.kill(pid, signal.SIGKILL)
        return lambda: starts() > before and self.is_ready()

    def backends(self, user="ann"):
        """The processes of this user's sessions."""
        return [int(pid) for pid, in self.tell(f"SELECT pid FROM pg_stat_activity WHERE usename = '{user}'")]

    def complaints(self):
        """How many sessions ended without a Terminate."""
        return self.log.read_text(errors="replace").count("unexpected EOF on client connection")

    def logins(self, user="ann"):
        """How many sessions of this user were ever opened."""
        return self.log.read_text(errors="replace").count(f"connection authorized: user={user} ")


class Installed(Cluster):
    """It keeps passwords as it does by default, and asks for SCRAM over TCP, as Debian has it."""

    def start(self):
        for name, old, new in (("postgresql.conf", "password_encryption = md5\n", ""), ("pg_hba.conf", " md5\n", " scram-sha-256\n")):
            file = self.data / name
            file.write_text(file.read_text().replace(old, new))
        super().start()


class Stub:
    """The stand-in server over a catalogue."""

    def __init__(self, place, program, catalogue):
        self.port = free_port()
        self.process = place.start(program, "stub", "--port", self.port, "--catalogue", place.write("catalogue.tsv", catalogue))
        if not until(lambda: is_open(self.port)):
            sys.exit(f"{program} stub doesn't answer")


PGBOUNCER = """[databases]
shop = host=127.0.0.1 port={port} dbname=shop
closed = host=127.0.0.1 port={closed} dbname=shop
[pgbouncer]
listen_addr = 127.0.0.1
listen_port = {listen}
unix_socket_dir =
auth_type = {auth}
auth_file = {users}
admin_users = root
pool_mode = session
server_reset_query = DISCARD ALL
max_client_conn = {clients}
default_pool_size = {size}
query_wait_timeout = {wait}
server_idle_timeout = 600
server_check_query =
server_check_delay = 1000000
ignore_startup_parameters = options, extra_float_digits
max_packet_size = 2147483647
tcp_keepalive = 0
log_connections = 0
log_disconnections = 0
log_pooler_errors = 0
server_connect_timeout = 15
"""


# what the log says at the end
TOTALS = r"shut down: \d+ decisions, \d+ starts; (\d+) arrived, (\d+) granted, (\d+) given back, (\d+) lost, (\d+) left"


def files_of(pid):
    """What each file is that a process has open."""
    files = []
    for name in os.listdir(f"/proc/{pid}/fd"):
        try:
            files.append(os.readlink(f"/proc/{pid}/fd/{name}"))
        except FileNotFoundError:
            pass  # it was closed meanwhile
    return files


class Pooler:
    """A pooler in front of the server, with the settings of examples/pgsess.ini but for those that are named. `more` has further
    databases, each with its port, and `more_rows` has their lines; `untracked` names a startup parameter that isn't followed, but dropped;
    `lines` are further ones of the settings, and `changes` puts others in the place of some. It may have so many files open at most."""

    def __init__(self, place, cluster, program, kind="pgsess", auth="trust", size=20, clients=100, wait=120, closed=1, links=1000,
                 more=None, untracked="", lines="", files=None, seed=None, more_rows="", listen=HERE, changes=None):
        self.place, self.port, self.kind = place, free_port(), kind
        users = place.write("users.txt", "".join(f'"{name}" "{secret}"\n' for name, (_, secret) in USERS.items()))
        self.errors = open(place.folder / f"{kind}.err", "ab")
        if kind == "pgbouncer":
            ini = place.write("pgbouncer.ini", PGBOUNCER.format(port=cluster.port, closed=closed, listen=self.port, auth=auth, users=users,
                                                                  clients=clients, size=size, wait=wait))
            self.process = place.start("pgbouncer", ini, stdout=self.errors, stderr=self.errors)
            if not until(lambda: is_open(self.port), 5):
                sys.exit(f"pgbouncer doesn't answer: {(place.folder / 'pgbouncer.err').read_text()!r}")
            return
        rows = {"shop": (cluster.port, "shop"), "closed": (closed, "shop"), **{name: (port, name) for name, port in (more or {}).items()}}
        changes = {
            r"^shop = .*": r"\n".join([*(f"{name} = host={HERE} port={port} dbname={dbname}" for name, (port, dbname) in rows.items()),
                                       *more_rows.splitlines()]),
            "^listen_addr = .*": f"listen_addr = {listen}",
            "^listen_port = .*": f"listen_port = {self.port}",
            "^auth_type = .*": f"auth_type = {auth}",
            "^max_client_conn = .*": f"max_client_conn = {clients}",
            "^default_pool_size = .*": f"default_pool_size = {size}",
            "^max_links = .*": f"max_links = {links}",
            "^query_wait_timeout = .*": f"query_wait_timeout = {wait}",
            "^untrack_parameters =.*": f"untrack_parameters = {untracked}",
            "^ignore_startup_parameters = .*": f"ignore_startup_parameters = options,{untracked}",
            **(changes or {}),
        }
        words = [part for old, new in changes.items() for part in ("-e", f"s/{old}/{new}/")]
        settings = subprocess.run(["sed", *words, TOP / "examples/pgsess.ini"], capture_output=True, check=True).stdout + lines.encode()
        ini = place.write("pgsess.ini", settings)
        seed_words = ["--key-seed", place.write("seed", seed)] if seed else []
        limit = ["prlimit", f"--nofile={files}"] if files else []
        self.process = place.start(*limit, program, "serve", "--ini", ini, "--users", users, *seed_words, stdout=subprocess.PIPE,
                                   stderr=self.errors)
        line = self.process.stdout.readline().decode().strip()
        if line != f"listening {HERE} {self.port}":
            self.process.wait(SECONDS)
            sys.exit(f"{program} serve said {line!r}, and ended with {self.process.returncode}: "
                     f"{(place.folder / 'pgsess.err').read_text()!r}")

    def runs(self):
        return self.process.poll() is None

    def files(self):
        """How many files it has open, but for polls: a thread keeps its own while it waits for a connection."""
        return sum(file != POLL for file in files_of(self.process.pid))

    def has_its_polls(self):
        """No thread has more than one poll. Threads are counted first: one that ends meanwhile takes its poll along."""
        threads = self.threads()
        return files_of(self.process.pid).count(POLL) <= threads

    def threads(self):
        return len(os.listdir(f"/proc/{self.process.pid}/task"))

    def maps(self):
        """How many parts its memory has; a thread that nobody has joined keeps two."""
        return len(pathlib.Path(f"/proc/{self.process.pid}/maps").read_text().splitlines())

    def resident(self):
        """Its memory, in kB."""
        for line in pathlib.Path(f"/proc/{self.process.pid}/status").read_text().splitlines():
            if line.startswith("VmRSS:"):
                return int(line.split()[1])
        return 0

    def used(self):
        """Its processor time so far, in seconds."""
        parts = pathlib.Path(f"/proc/{self.process.pid}/stat").read_text().rsplit(")", 1)[1].split()
        return (int(parts[11]) + int(parts[12])) / os.sysconf("SC_CLK_TCK")

    def shut(self):
        """Ends it by its console: what is wrong with how it ends, by its status and by what its log says that it counted."""
        console = Client(self.port, "root", "pgbouncer", USERS["root"][0])
        console.ask("SHUTDOWN")
        console.leave()
        try:
            status = self.process.wait(SECONDS)
        except subprocess.TimeoutExpired:
            return "it doesn't end"
        log = (self.place.folder / "pgsess.err").read_text()
        told = re.search(TOTALS, log)
        if status or not told:
            return f"status {status}, {log[-200:]!r}"
        arrived, granted, given_back, lost, left = map(int, told.groups())
        return "" if (arrived, granted) == (left, given_back + lost) else f"{told[0]!r}"

    def stop(self):
        if self.runs():
            self.process.send_signal(signal.SIGTERM)
            try:
                self.process.wait(5)
            except subprocess.TimeoutExpired:
                self.process.kill()
                self.process.wait(SECONDS)
        if self.process.stdout:
            self.process.stdout.close()
        self.errors.close()
