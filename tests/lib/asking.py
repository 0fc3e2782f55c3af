"""Clients that ask: psql and pgbench, at a database or at the console, and plain ones."""
import os
import re
import subprocess
import threading

from cluster import HERE, USERS
from wire import Client, Cut, Refused

UNREACHED = "08001 server could not be reached"


def environment(port, user="ann", database="shop", password=None, **more):
    """What tells a program of PostgreSQL whom to ask, and as whom."""
    return {**os.environ, "PGHOST": HERE, "PGPORT": str(port), "PGUSER": user, "PGDATABASE": database, "PGCONNECT_TIMEOUT": "20",
            "PGPASSWORD": USERS[user][0] if password is None else password, "LC_ALL": "C", **more}


def console(port, command, *more, user="root"):
    """What psql says of a command: its status, its output, and what stands on standard error."""
    done = subprocess.run(["psql", "-X", *more, "-c", command], capture_output=True, timeout=60, env=environment(port, user, "pgbouncer"))
    return done.returncode, done.stdout.decode(), done.stderr.decode()


def table(port, name):
    """The rows of a table, each by its columns' names."""
    status, out, errors = console(port, f"SHOW {name};", "-A", "-F", "\t", "-P", "footer=off")
    if status:
        raise RuntimeError(f"SHOW {name}: {status} {errors}")
    head, *rows = [line.split("\t") for line in out.splitlines()]
    return [dict(zip(head, row)) for row in rows]


def run(words, port, user, password=None, given=None, database="shop", seconds=60, **more):
    """A program of PostgreSQL over a port: its status, its output and what it says on standard error."""
    done = subprocess.run(words, input=given, capture_output=True, env=environment(port, user, database, password, PGAPPNAME="shown"),
                          timeout=seconds, **more)
    return done.returncode, done.stdout, done.stderr.decode(errors="replace")


def failures(out, errors):
    """What pgbench says of failures."""
    lines = [line for line in errors.splitlines() if "error" in line.lower() or "fatal" in line.lower() or "aborted" in line.lower()]
    return lines + [line for line in out.decode().splitlines() if re.match(r"number of failed transactions: [1-9]", line)]


def figures(port):
    """cl_active, cl_waiting, sv_active, sv_idle of ann's pool."""
    for row in table(port, "POOLS"):
        if (row["database"], row["user"]) == ("shop", "ann"):
            return [int(row[name]) for name in ("cl_active", "cl_waiting", "sv_active", "sv_idle")]
    return None


def outcome(make):
    """What a client is told that is made so, and goes again."""
    try:
        client = make()
    except Refused as error:
        return f"{error.code} {error.text}"
    except (Cut, OSError) as error:
        return repr(error)
    try:
        return client.ask("SELECT 1")
    finally:
        client.leave()


def outcome_at(port, user="ann", password=None, database="shop", asks="SELECT 1", **more):
    """What a client is told that asks for something and goes: that it is served, its error's code, or how it was cut off."""
    try:
        client = Client(port, user, database, USERS[user][0] if password is None else password, **more)
        client.ask(asks)
        client.leave()
        return "served"
    except Refused as error:
        return error.code
    except (Cut, OSError) as error:
        return type(error).__name__


class Worker(threading.Thread):
    """A client that asks again and again over one connection, until it is told to stop. What it is told by an error is kept."""

    def __init__(self, port):
        super().__init__(daemon=True)
        self.client = Client(port, "ann", "shop", USERS["ann"][0])
        self.stops, self.asked, self.error = False, 0, None
        self.start()

    def run(self):
        try:
            while not self.stops:
                self.client.ask("SELECT count(*) FROM pg_class")
                self.asked += 1
            self.client.leave()
        except (Refused, Cut, OSError) as error:
            self.error = error

    def end(self):
        self.stops = True
        self.join(60)
        return self.error
