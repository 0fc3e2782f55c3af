#!/usr/bin/env python3
"""Shows pgsess in front of a PostgreSQL server, within some minutes and before anything is proved.

Usage: demo.py [PROGRAM]

Without PROGRAM the sources of crates/pgsess are built by `rt try`, which proves nothing: what is shown is the program's behaviour, not its
proof. Each step is told with the seconds so far. It makes a PostgreSQL server in a temporary folder, pools it, lets one client leave
settings, a temporary table and a prepared statement behind, and shows that the next client, over the same server session, finds none of
them.
"""
import os
import pathlib
import shutil
import signal
import subprocess
import sys
import time

sys.path.insert(0, str(pathlib.Path(__file__).resolve().parents[1] / "tests/lib"))
from cluster import HERE, TOP, USERS, Installed, Place, free_port, is_open, set_up, until

SECONDS = 900
# how often it is said that the build goes on
QUIET = 15
BEGAN = time.monotonic()
LEAVES = ("SET work_mem = '7MB'; CREATE TEMP TABLE left_behind (a int); PREPARE p AS SELECT 1; "
          "SELECT pg_backend_pid() AS backend, current_setting('work_mem') AS work_mem;")
FINDS = ("SELECT pg_backend_pid() AS backend, current_setting('work_mem') AS work_mem, "
         "(SELECT count(*) FROM pg_class WHERE relname = 'left_behind') AS tables, "
         "(SELECT count(*) FROM pg_prepared_statements) AS statements;")


def say(step):
    print(f"{time.monotonic() - BEGAN:4.0f} s  {step}", flush=True)


def serve(program, place, cluster, port):
    """The pooler, once it listens."""
    ini = place.write("demo.ini", f"[databases]\nshop = host={HERE} port={cluster.port} dbname=shop\n[pgbouncer]\nlisten_port = {port}\n"
                                  "auth_type = md5\ndefault_pool_size = 1\n")
    users = place.write("demo.txt", "".join(f'"{name}" "{secret}"\n' for name, (_, secret) in USERS.items()))
    words = ["serve", "--ini", ini, "--users", users, "--key-seed", place.write("seed", os.urandom(32))]
    if program:
        return subprocess.Popen([os.path.abspath(program), *map(str, words)], stdout=subprocess.DEVNULL, start_new_session=True)
    if not shutil.which("rt"):
        sys.exit("rt isn't in PATH: install the Rattle kit first (rt version)")
    say("building crates/pgsess, UNPROVED (rt try): some 70 seconds of processor time, twice that and more on a busy machine")
    return subprocess.Popen(["rt", "try", "--seconds", str(SECONDS), "--", *map(str, words)], cwd=TOP / "crates/pgsess",
                            stdout=subprocess.DEVNULL, stderr=subprocess.DEVNULL, start_new_session=True)


def waited(pooler, port):
    """Whether it listens in time; that it is still built is said now and then. `rt try` hands on what a program prints only once it has
    ended, so it is the port that is looked at."""
    for _ in range(SECONDS // QUIET):
        if until(lambda: pooler.poll() is not None or is_open(port), QUIET):
            return pooler.poll() is None
        say("still building")
    return False


def psql(port, text):
    environment = {**os.environ, "PGPASSWORD": USERS["ann"][0]}
    print(f"\n$ psql -h {HERE} -p {port} -U ann shop\n{text}", flush=True)
    words = ["psql", "-X", "-q", "-P", "footer=off", "-h", HERE, "-p", str(port), "-U", "ann", "-c", text, "shop"]
    out = subprocess.run(words, env=environment, check=True, timeout=60, stdout=subprocess.PIPE, text=True).stdout
    print(out.rstrip())
    return [part.strip() for part in out.splitlines()[2].split("|")]


def told(cluster, port):
    """Lets two clients come, one after the other; whether the second has the same backend, and finds nothing of the first."""
    say(f"pgsess listens at {HERE} {port}, over PostgreSQL at port {cluster.port}; two clients, one after the other:")
    (backend, _), (again, memory, tables, statements) = psql(port, LEAVES), psql(port, FINDS)
    same, clean = again == backend, (memory, tables, statements) == ("4MB", "0", "0")
    print(f"\nThe second client had {'the same' if same else 'ANOTHER'} backend, and found {'nothing' if clean else 'SOMETHING'} of the "
          f"first.")
    print("That no client ever finds anything is what `make test` proves; this run proves nothing.")
    say("done")
    return same and clean


def main():
    set_up()
    with Place() as place:
        say("making a PostgreSQL server in a temporary folder")
        cluster, port = Installed(place), free_port()
        pooler = serve(sys.argv[1] if len(sys.argv) > 1 else None, place, cluster, port)
        try:
            if not waited(pooler, port):
                sys.exit("pgsess doesn't listen: see `cd crates/pgsess && rt try -- serve --help`")
            return 0 if told(cluster, port) else 1
        finally:
            os.killpg(pooler.pid, signal.SIGTERM)


if __name__ == "__main__":
    sys.exit(main())
