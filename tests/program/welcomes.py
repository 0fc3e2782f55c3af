#!/usr/bin/env python3
"""Sends what real clients send at a login, tests/clients, to `pgsess serve` over TCP, with `pgsess stub` behind it.

Usage: welcomes.py PROGRAM

Every line of expected.txt is played: whole, and a byte at a time. A client that its login lets in is given the welcome of the
stub, with its own parameters; then it says Terminate, and the connection ends.
"""
import os
import pathlib
import re
import socket
import subprocess
import sys

sys.path.insert(0, str(pathlib.Path(__file__).resolve().parents[1] / "lib"))
from cluster import HERE, TOP, Stub, free_port
from expected import logins_of
from given import fatal
from passes import Show, play
from wire import TERMINATE, message

FOLDER = TOP / "tests/clients"
SECONDS = 20
DATABASE, VERSION = "bench", "16.0"
# as the stub reports them, in its order (docs/OPERATING.md)
REPORTS = {
    "application_name": "",
    "client_encoding": "UTF8",
    "DateStyle": "ISO, MDY",
    "integer_datetimes": "on",
    "IntervalStyle": "postgres",
    "server_encoding": "UTF8",
    "server_version": VERSION,
    "standard_conforming_strings": "on",
    "TimeZone": "UTC",
}
UNREPORTED = ["extra_float_digits"]
# values that the stub keeps otherwise than they came
KEPT = {("client_encoding", "'utf-8'"): "UTF8", ("datestyle", "iso"): "ISO, MDY", ("datestyle", "ISO"): "ISO, MDY"}
READY = message(b"Z", b"I")
# BackendKeyData has a process and a secret of any value
KEY = re.escape(message(b"K", bytes(8))[:5]) + b".{8}"


def parameters_of(login):
    """The parameters of the login's start key, by their folded names."""
    text = login.lines[1].partition("parameters=")[2]
    return dict(part.split("=", 1) for part in re.split(r",(?=\w+=)", text) if part)


def welcome(login):
    """A pattern of what the server answers to the login's start."""
    values = {**REPORTS}
    shown = {name.lower(): name for name in REPORTS}
    for name, value in parameters_of(login).items():
        if name in shown:
            values[shown[name]] = KEPT.get((name, value), value)
        elif name not in UNREPORTED:
            return re.escape(fatal("42704", "unrecognized configuration parameter"))
    reports = b"".join(message(b"S", f"{name}\0{value}\0".encode()) for name, value in values.items())
    return re.escape(reports) + KEY + re.escape(READY)


def wanted(login):
    parts = [re.escape(bytes.fromhex(part)) for part in login.lines if not part.startswith("arrived")]
    return b"".join(parts) + (welcome(login) if len(login.lines) == 3 else b"")


def answer(port, login, step):
    """All that the client is given. It says Terminate once it is let in, or has nothing more to wait for."""
    got = b""
    with socket.create_connection((HERE, port), SECONDS) as it:
        it.setsockopt(socket.IPPROTO_TCP, socket.TCP_NODELAY, 1)
        try:
            for at in range(0, len(login.data), step):
                it.sendall(login.data[at:at + step])
            while piece := it.recv(65536):
                got += piece
                if got.endswith(READY):
                    it.sendall(TERMINATE)
        except (ConnectionResetError, BrokenPipeError):
            pass
    return got


class Welcomes(Show):
    def __init__(self, program):
        super().__init__(program, "welcomes", "nobody")

    def serve(self, settings):
        """`pgsess serve` under these settings of the folder, with the stub behind it; and its port."""
        port = free_port()
        text = (FOLDER / f"{settings}.ini").read_text()
        text = text.replace(f"host={HERE}", f"host={HERE} port={self.stub.port}")
        text = text.replace("[pgbouncer]", f"[pgbouncer]\nlisten_port = {port}")
        ini = self.place.write(f"{settings}.ini", text)
        users = self.place.write("users.txt", (FOLDER / "users.txt").read_text())
        seed = self.place.write("seed", os.urandom(32))
        process = self.place.start(self.program, "serve", "--ini", ini, "--users", users, "--key-seed", seed, stdout=subprocess.PIPE)
        line = process.stdout.readline().decode().strip()
        if line != f"listening {HERE} {port}":
            sys.exit(f"{self.program} serve said {line!r}")
        return process, port

    def play(self, settings, logins):
        process, port = self.serve(settings)
        for login in logins:
            pattern = re.compile(wanted(login), re.DOTALL)
            got = [answer(port, login, step) for step in (len(login.data), 1)]
            self.passes.holds(f"{login.name}, {settings}", all(map(pattern.fullmatch, got)), f"{got!r} for {pattern.pattern!r}")
        self.passes.holds(f"the pooler still runs under {settings}", process.poll() is None)
        process.terminate()
        process.wait(SECONDS)

    def all(self):
        self.stub = Stub(self.place, self.program, f"version\t{VERSION}\ndatabase\t{DATABASE}\n")
        logins = logins_of(FOLDER)
        for settings in dict.fromkeys(login.settings for login in logins):
            self.play(settings, [login for login in logins if login.settings == settings])


if __name__ == "__main__":
    play(Welcomes, has_server=False)
