#!/usr/bin/env python3
"""Runs the commands of packaging/pgsess.service as systemd would: the pool starts with a seed of its own, is reloaded and stopped by its
console, and SIGHUP doesn't end it.

Usage: unit.py PROGRAM

The settings are those of the example. Paths and the port are changed, since the usual ones may be taken here.
"""
import os
import pathlib
import re
import shlex
import shutil
import signal
import stat
import subprocess
import sys

sys.path.insert(0, str(pathlib.Path(__file__).resolve().parents[1] / "lib"))
from cluster import TOP, free_port, is_open, need, until
from passes import Show, play
from wire import Client

UNIT = TOP / "packaging/pgsess.service"


class Service:
    """The unit's commands, over a folder in place of /etc/pgsess and /run/pgsess."""

    def __init__(self, place, program):
        self.place, self.port, self.process = place, free_port(), None
        text = UNIT.read_text().replace("/usr/bin/pgsess", str(program)).replace("/usr/bin/psql", shutil.which("psql"))
        self.text = re.sub("/(etc|run)/pgsess", str(place.folder), text).replace("6432", str(self.port))
        self.ini = place.write("pgsess.ini", (TOP / "examples/pgsess.ini").read_text().replace("6432", str(self.port)))
        place.write("users.txt", (TOP / "examples/users.txt").read_text())
        self.secret(f"127.0.0.1:{self.port}:pgbouncer:root:r\n")

    def secret(self, text):
        file = self.place.write("console.pgpass", text)
        file.chmod(0o600)
        if self.place.as_user:
            os.chown(file, self.place.as_user["user"], self.place.as_user["group"])

    def words(self, key):
        return shlex.split(re.search(f"^{key}=(.*)", self.text, re.M).group(1))

    def begin(self, key, **more):
        name, _, value = self.words("Environment")[0].partition("=")
        environment = {**os.environ, name: value, "MAINPID": str(self.process.pid if self.process else 0)}
        return self.place.start(*self.words(key), env=environment, umask=int(self.words("UMask")[0], 8), stdout=subprocess.DEVNULL,
                                stderr=subprocess.DEVNULL, **more)

    def status(self, key):
        return self.begin(key).wait(60)

    def start(self):
        status = self.status("ExecStartPre")
        self.process = self.begin("ExecStart")
        return status == 0 and until(lambda: is_open(self.port), 10)

    def seed(self):
        file = self.place.folder / "seed"
        return stat.S_IMODE(file.stat().st_mode), file.read_bytes()

    def console(self):
        return Client(self.port, "root", "pgbouncer", "r")


def all_of(passes, service):
    passes.holds("it starts", service.start())
    mode, seed = service.seed()
    passes.same("its seed is its own: mode and length", (mode, len(seed)), (0o600, 32))
    os.kill(service.process.pid, signal.SIGHUP)
    passes.same("it is reloaded, and SIGHUP has not ended it", service.status("ExecReload"), 0)
    with open(service.ini, "a") as file:
        file.write("auth_query = x\n")
    passes.holds("a reload of faulty settings fails", service.status("ExecReload") != 0)
    service.ini.write_text(service.ini.read_text().replace("auth_query = x\n", ""))

    client = service.console()
    stop = service.begin("ExecStop")
    passes.holds("it listens no more once it is stopped", until(lambda: not is_open(service.port), 10))
    passes.same("the stop waits for the last client", (stop.poll(), service.process.poll()), (None, None))
    client.leave()
    passes.same("it ends with its last client", service.process.wait(10), 0)
    passes.same("and so does the stop", stop.wait(10), 0)

    passes.holds("it starts again", service.start())
    passes.holds("with another seed", service.seed()[1] != seed)
    service.secret("")
    passes.holds("without the console's password it is neither reloaded nor stopped so",
                 service.status("ExecReload") != 0 and service.status("ExecStop") != 0 and service.process.poll() is None)


class Unit(Show):
    def __init__(self, program):
        super().__init__(program, "unit", "nobody")

    def all(self):
        need(["psql"], ["postgresql-client"])
        all_of(self.passes, Service(self.place, self.program))


if __name__ == "__main__":
    play(Unit, has_server=False)
