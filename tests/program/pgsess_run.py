#!/usr/bin/env python3
"""Runs packaging/pgsess-run over the stand-in server: its signals, its log, its ways into the console, alone and as process 1, and in a
folder that has nothing but the program, bash and coreutils.

Usage: pgsess_run.py PROGRAM

Where the caller may not make a namespace of processes, or isn't root, the cases that want it are left out, and that is told.
"""
import contextlib
import hashlib
import os
import pathlib
import re
import shutil
import signal
import socket
import stat
import subprocess
import sys
import threading
import time

sys.path.insert(0, str(pathlib.Path(__file__).resolve().parents[1] / "lib"))
from cluster import HERE, TOP, Stub, free_port, is_open, until
from passes import Show, play
from wire import Client

RUN = TOP / "packaging/pgsess-run"
TIMED = re.compile(r"\d{4}-\d\d-\d\d \d\d:\d\d:\d\d \S+ \[\d+\] (pgsess|pgsess-run): .+")
# what the script calls beside bash
COREUTILS = "cat cut dd head md5sum od rm sleep timeout tr".split()


def as_by_hand():
    """What is begun in the background or by nohup ignores these signals, and a shell can't trap what was ignored as it began."""
    for number in (signal.SIGHUP, signal.SIGINT, signal.SIGQUIT):
        signal.signal(number, signal.SIG_DFL)


class Run:
    """pgsess-run over the stub, its files in the place. `before` stands before its words."""

    def __init__(self, place, stub, program, name, auth="md5", admins="root", secret="r", wait=5, before=(), more=""):
        self.port, self.log, self.pid_file = free_port(), place.folder / f"{name}.log", place.folder / f"{name}.pid"
        self.ini = place.write(f"{name}.ini", f"[databases]\nshop = host={HERE} port={stub.port}\n[pgbouncer]\nlisten_addr={HERE}\n"
                               f"listen_port =  {self.port} \r\nauth_type = {auth}\nadmin_users = {admins}, other\ndefault_pool_size = 1\n"
                               f"query_wait_timeout = {wait}\n{more}")
        self.users = place.write(f"{name}.txt", f'; "root" "no"\n"ann" "secret"\n  "root"\t"{secret}" "more"\n')
        environment = {**os.environ, "PGSESS": str(program)}
        self.process = place.start(*before, RUN, self.ini, self.users, self.log, self.pid_file, env=environment,
                                   stdout=subprocess.DEVNULL, stderr=subprocess.DEVNULL, preexec_fn=as_by_hand)

    def listens(self):
        return until(lambda: is_open(self.port), 20) and until(self.pid_file.exists, 5)

    def pid(self):
        return int(self.pid_file.read_text())

    def said(self, text):
        return until(lambda: self.log.exists() and text in self.log.read_text(), 10)

    def signal(self, number):
        self.process.send_signal(number)

    def status(self, seconds=10):
        try:
            return self.process.wait(seconds)
        except subprocess.TimeoutExpired:
            return "it goes on"

    def client(self):
        return Client(self.port, "ann", "shop", "secret")


def ends_orderly(passes, run, what):
    """A TERM while a client is at work."""
    client = run.client()
    run.signal(signal.SIGTERM)
    passes.holds(f"{what}: TERM: nobody is let in any more", until(lambda: not is_open(run.port), 10))
    passes.same(f"{what}: the client that is there goes on", client.ask("SHOW application_name"), [[""]])
    passes.same(f"{what}: it waits for it", run.status(0.3), "it goes on")
    client.leave()
    passes.same(f"{what}: its status is 0 once that has gone", run.status(), 0)
    passes.holds(f"{what}: the log's last line is there", run.said("shut down: "))


def signals(passes, place, stub, program):
    run = Run(place, stub, program, "signals")
    passes.holds("it listens", run.listens())
    passes.same("its pid stands in the file", run.pid(), run.process.pid)
    passes.holds("it says nothing of a way in that there is", run.said("listening") and "no way" not in run.log.read_text())
    run.ini.write_text(run.ini.read_text().replace("query_wait_timeout = 5", "query_wait_timeout = 6"))
    run.log.rename(run.log.with_suffix(".old"))
    run.signal(signal.SIGHUP)
    passes.holds("HUP reloads, and a log file that was moved away is made anew", run.said("pgsess: reloaded"))
    run.users.write_text(run.users.read_text() + "faulty\n")
    run.signal(signal.SIGHUP)
    passes.holds("a reload that is refused is told", run.said("not reloaded: U1") and run.said("pgsess-run: RELOAD: refused"))
    run.users.write_text(run.users.read_text().replace("faulty\n", ""))

    run.signal(signal.SIGUSR1)
    passes.holds("USR1 pauses", run.said("paused the pool"))
    waiting = Client(run.port)
    waiting.socket.settimeout(1)
    try:
        waiting.log_in("ann", "shop", "secret", {})
        passes.tell("a client waits", "it was served")
    except TimeoutError:
        passes.tell("a client waits")
    waiting.socket.settimeout(20)
    run.signal(signal.SIGUSR2)
    waiting.until(b"Z")
    passes.same("USR2 resumes, and it is served", waiting.ask("SHOW application_name"), [[""]])
    waiting.leave()
    ends_orderly(passes, run, "alone")
    passes.holds("the pid file is gone", not run.pid_file.exists())
    untimed = [it for it in run.log.read_text().splitlines() if not TIMED.fullmatch(it)]
    passes.same("every line of the log has its time", untimed, [])


def ends_at_once(passes, place, stub, program):
    for number in [signal.SIGINT, signal.SIGQUIT]:
        run = Run(place, stub, program, f"at_once_{number.name}")
        passes.holds(f"{number.name}: it listens", run.listens() and run.said("listening"))
        client = run.client()
        run.signal(number)
        passes.same(f"{number.name}: it ends at once, a client or not", run.status(3), 130)
        client.cut()


def twice(passes, place, stub, program):
    run = Run(place, stub, program, "twice")
    passes.holds("it listens", run.listens())
    client = run.client()
    run.signal(signal.SIGTERM)
    until(lambda: not is_open(run.port), 10)
    run.signal(signal.SIGTERM)
    passes.same("a second TERM ends it at once", run.status(3), 128 + signal.SIGTERM)
    client.cut()


def ways_in(passes, place, stub, program):
    """By what the pool asks for, and by what the user file has."""
    digest = "md5" + hashlib.md5(b"rroot").hexdigest()
    good = {"trust": {"auth": "trust"}, "plain": {"auth": "plain"}, "digest": {"secret": digest}, "quoted": {"secret": 'r""$ %s\\'}}
    for name, more in good.items():
        run = Run(place, stub, program, name, **more)
        passes.holds(f"{name}: it listens", run.listens() and run.said("listening"))
        run.signal(signal.SIGTERM)
        passes.same(f"{name}: TERM shuts it down", run.status(), 0)
    # a digest can't be given where the password itself is asked for
    bad = {"nobody": {"admins": ""}, "unknown": {"admins": "somebody"}, "digest for plain": {"auth": "plain", "secret": digest}}
    for name, more in bad.items():
        run = Run(place, stub, program, name, **more)
        passes.holds(f"{name}: that there is no way in is told at the start", run.listens() and run.said("no way into the console"))
        client = run.client()
        run.signal(signal.SIGTERM)
        passes.holds(f"{name}: a first TERM waits for the client",
                     run.said("a second TERM ends it at once") and run.status(1) == "it goes on")
        passes.same(f"{name}: which goes on", client.ask("SHOW application_name"), [[""]])
        client.leave()
        passes.same(f"{name}: and ends it then", run.status(5), 128 + signal.SIGTERM)
        run = Run(place, stub, program, f"{name}_again", **more)
        run.listens()
        client = run.client()
        run.signal(signal.SIGTERM)
        run.said("a second TERM ends it at once")
        run.signal(signal.SIGTERM)
        passes.same(f"{name}: a second one ends it at once", run.status(3), 128 + signal.SIGTERM)
        client.cut()


def faults(passes, place, stub, program):
    run = Run(place, stub, program, "faulty", more="nonsense = 1\n")
    passes.same("faulty settings: its status is that of pgsess", run.status(), 1)
    passes.holds("and the line is told", run.said("pgsess: C2 line "))
    ran = subprocess.run([RUN], capture_output=True, text=True)
    passes.same("without words it says how it is called", (ran.returncode, ran.stderr.split()[0]), (2, "usage:"))


def asks_for_scram(port):
    """A console that asks everybody for SCRAM, as long as this program runs."""
    listener = socket.create_server((HERE, port))
    def serve():
        while True:
            it, _ = listener.accept()
            # who closes before it has read all resets the connection
            with it, contextlib.suppress(ConnectionError):
                it.recv(1024)
                it.sendall(b"R\0\0\0\x17\0\0\0\x0aSCRAM-SHA-256\0\0")
                it.recv(1024)
    threading.Thread(target=serve, daemon=True).start()


def by_psql(passes, place, stub, program):
    """Where SCRAM is asked for psql logs in, if it is there."""
    pool = place.write("pool", "#!/bin/sh\necho listening\nexec sleep 60\n")
    pool.chmod(0o755)
    folder = place.folder / "programs"
    folder.mkdir()
    for it in [*COREUTILS, "bash", "env"]:
        (folder / it).symlink_to(shutil.which(it))
    for has_psql in [False, True]:
        calls = place.folder / f"calls_{has_psql}"
        if has_psql:
            (folder / "psql").write_text(f'#!/bin/sh\necho "$PGPASSWORD $*" >> {calls}\n')
            (folder / "psql").chmod(0o755)
        run = Run(place, stub, pool, f"scram_{has_psql}", before=["env", f"PATH={folder}"])
        asks_for_scram(run.port)
        if not has_psql:
            passes.holds("SCRAM without psql: there is no way in",
                         run.said("no way into the console (the pool asks for SCRAM, and there is no psql)"))
        else:
            until(lambda: calls.exists(), 10)
            time.sleep(1)  # by then it has read what psql answered
            run.signal(signal.SIGTERM)
            wanted = f"r -X -q -w -h {HERE} -p {run.port} -U root -d pgbouncer -c "
            until(lambda: "SHUTDOWN" in calls.read_text(), 10)
            passes.same("SCRAM: psql gives the console its commands", calls.read_text(), f"{wanted}SHOW VERSION\n{wanted}SHUTDOWN\n")
        run.signal(signal.SIGINT)
        passes.same("and it ends", run.status(5), 130)


def may_make_namespaces():
    if os.geteuid() != 0 or not shutil.which("unshare"):
        return False
    return subprocess.run(["unshare", "-p", "-f", "-m", "--mount-proc", "true"], capture_output=True).returncode == 0


class First(Run):
    """The same as process 1 of a namespace of its own."""

    def signal(self, number):
        inner = (pathlib.Path(f"/proc/{self.process.pid}/task/{self.process.pid}/children")).read_text().split()
        os.kill(int(inner[0]), number)


def as_first(passes, place, stub, program):
    place.as_user, user = {}, place.as_user
    try:
        before = ["unshare", "-p", "-f", "-m", "--mount-proc", "setpriv", f"--reuid={user['user']}", f"--regid={user['group']}",
                  "--clear-groups"]
        run = First(place, stub, program, "first", before=before)
        passes.holds("as process 1: it listens", run.listens())
        passes.same("its pid is 1", run.pid(), 1)
        ends_orderly(passes, run, "as process 1")
        run = First(place, stub, program, "first_at_once", before=before)
        run.listens()
        client = run.client()
        run.signal(signal.SIGINT)
        passes.same("as process 1: INT ends it at once", run.status(3), 130)
        client.cut()
    finally:
        place.as_user = user


def libraries(program):
    """The files that a program is linked with."""
    said = subprocess.run(["ldd", program], capture_output=True, text=True).stdout
    return re.findall(r"(/\S+) \(0x", said)


def root_of(place, stub, program, port):
    """A root with the program, bash and coreutils, and nothing else; the pool's files for this port are in it."""
    root = place.folder / "root"
    for folder in ["dev", "proc", "etc/pgsess", "usr/bin", "bin"]:
        (root / folder).mkdir(parents=True)
    programs = {"/usr/bin/pgsess": program, "/bin/bash": shutil.which("bash"), "/usr/bin/env": shutil.which("env"),
                **{f"/usr/bin/{it}": shutil.which(it) for it in COREUTILS}}
    for to, file in programs.items():
        for at, one in [(to, file), *((it, it) for it in libraries(file))]:
            (root / at[1:]).parent.mkdir(parents=True, exist_ok=True)
            shutil.copy(one, root / at[1:])
    shutil.copy(RUN, root / "usr/bin/pgsess-run")
    settings = f"[databases]\nshop = host={HERE} port={stub.port}\n[pgbouncer]\nlisten_port = {port}\nadmin_users = root\n"
    (root / "etc/pgsess/pgsess.ini").write_text(settings)
    (root / "etc/pgsess/users.txt").write_text('"ann" "secret"\n"root" "r"\n')
    return root


def in_a_root(passes, place, stub, program):
    """As in an image: a root that can't be written."""
    port, user = free_port(), place.as_user
    root = root_of(place, stub, program, port)
    chroot = f"{shutil.which('chroot') or '/usr/sbin/chroot'} --userspec={user['user']}:{user['group']} {root}"
    inner = (f"mount -t proc proc {root}/proc && mount --bind /dev {root}/dev && mount --bind {root} {root} && "
             f"mount -o remount,ro,bind {root} && mount -t proc proc {root}/proc && mount --rbind /dev {root}/dev && "
             f"exec env -i PATH=/usr/bin:/bin {chroot} /usr/bin/pgsess-run /etc/pgsess/pgsess.ini /etc/pgsess/users.txt")
    with open(place.folder / "root.log", "w") as log:
        process = subprocess.Popen(["unshare", "-p", "-f", "-m", "bash", "-c", inner], stdin=subprocess.DEVNULL, stdout=log, stderr=log)
    said = lambda: (place.folder / "root.log").read_text()
    listens = until(lambda: is_open(port) or process.poll() is not None, 10) and process.poll() is None
    passes.holds("in a read-only root with bash and coreutils alone: it listens", listens, said())
    if not listens:
        return
    client = Client(port, "ann", "shop", "secret")
    first = pathlib.Path(f"/proc/{process.pid}/task/{process.pid}/children").read_text().split()[0]
    limits = pathlib.Path(f"/proc/{first}/limits").read_text()
    passes.holds("without core dumps", re.search(r"^Max core file size +0 +0 ", limits, re.M), limits)
    os.kill(int(first), signal.SIGTERM)
    passes.holds("there TERM lets nobody in any more", until(lambda: not is_open(port), 10), said())
    client.leave()
    try:
        status = process.wait(10)
    except subprocess.TimeoutExpired:
        process.kill()
        status = "it goes on"
    passes.same("and ends it with the last client, by status 0", status, 0)
    passes.holds("its log has its last line, and nothing else went wrong",
                 "shut down: " in said() and all(TIMED.fullmatch(it) for it in said().splitlines()), said())


class PgsessRun(Show):
    def __init__(self, program):
        super().__init__(program, "pgsess_run", "nobody")

    def all(self):
        folder, cases = self.place.folder, [signals, ends_at_once, twice, ways_in, by_psql, faults]
        folder.chmod(folder.stat().st_mode | stat.S_IXOTH | stat.S_IROTH)
        stub = Stub(self.place, self.program, (TOP / "examples/catalogue.tsv").read_bytes())
        if may_make_namespaces():
            cases += [as_first, in_a_root]
        else:
            print("left out: as process 1, and in a root of its own: no namespaces here")
        for case in cases:
            case(self.passes, self.place, stub, self.program)


if __name__ == "__main__":
    play(PgsessRun, has_server=False)
