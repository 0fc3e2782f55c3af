#!/usr/bin/env python3
"""Proves and builds a program and all that it stands on, as many crates side by side as tools/jobs.sh says.

Usage: prove.py CRATE

The crates that the program needs are copied, without their must-fail edits, to a folder of their own (TMPDIR says where; it takes up to
5 GB), and `rt ci` proves them there, those that most others wait for first, and runs the program once as two compilers build it. What is
proved the kit may keep for the next run and for the gate; the program comes to crates/CRATE/out. There is a line for each crate that is
finished, with what is being proved then, and one a minute where nothing is; what the prover says goes to build/proof_CRATE.log. The
status is 1 where a crate isn't proved; then the end of what the prover said is shown.
"""
import os
import pathlib
import re
import shutil
import subprocess
import sys
import tempfile
import threading
import time

import crates

SHOWN = 40
QUIET = 60
ENDED = re.compile(r"rt: (\w+) (proved|is kept|NOT PROVED)")


def copied(names, listed, to):
    """A repository of these crates alone, at its top as `rt ci` wants it."""
    (to / ".git").mkdir()
    (to / "crates.txt").write_text("".join(f"{listed[it][1]}\n" for it in names))
    shutil.copy(crates.ROOT / "HANDLES", to)
    for it in names:
        shutil.copytree(crates.ROOT / "crates" / it, to / "crates" / it, ignore=lambda at, _: {"out", "must-fail", "wrong"})


class Progress:
    """How far a run has come: which crates are finished, and which have been begun, as their folders out/ tell."""

    def __init__(self, names, at):
        self.names, self.at, self.began, self.begun, self.ended = names, at, time.monotonic(), {}, set()
        self.told, self.lock = self.began, threading.Lock()
        threading.Thread(target=self.watch, daemon=True).start()

    def watch(self):
        while True:
            time.sleep(1)
            with self.lock:
                running = self.running()
                if time.monotonic() - self.told > QUIET:
                    self.tell("", running)

    def running(self):
        now = time.monotonic()
        for it in self.names:
            if it not in self.begun and (self.at / "crates" / it / "out").exists():
                self.begun[it] = now
        return [it for it in self.begun if it not in self.ended]

    def tell(self, what, running):
        self.told = time.monotonic()
        minutes, seconds = divmod(int(self.told - self.began), 60)
        print(f"{minutes:3}:{seconds:02}  {len(self.ended)} of "
              f"{len(self.names)}{what}{'; being proved: ' if running else ''}{', '.join(running)}", flush=True)

    def take(self, line):
        """What a line of `rt ci` says of a crate."""
        match = ENDED.match(line)
        if not match or match[1] not in self.names or match[1] in self.ended:
            return
        with self.lock:
            self.running()
            self.ended.add(match[1])
            how = {"is kept": "was proved before"}.get(match[2], match[2])
            took = f", {time.monotonic() - self.begun[match[1]]:.0f} s" if match[1] in self.begun and match[2] == "proved" else ""
            self.tell(f": {match[1]} {how}{took}", self.running())


def proved(name, names, at, log):
    """Whether `rt ci` passed all of it."""
    jobs = subprocess.run([crates.ROOT / "tools/jobs.sh"], stdout=subprocess.PIPE, text=True, check=True).stdout.strip()
    print(f"proving {len(names)} crates for {name}, {jobs} at a time; what the prover says: {os.path.relpath(log.name, crates.ROOT)}",
          flush=True)
    progress = Progress(names, at)
    environment = {**os.environ, "RT_JOBS": jobs, "PYTHONUNBUFFERED": "1"}
    ran = subprocess.Popen(["rt", "ci"], cwd=at, env=environment, stdin=subprocess.DEVNULL, stdout=subprocess.PIPE,
                           stderr=subprocess.STDOUT,
                           text=True, errors="replace")
    for line in ran.stdout:
        log.write(line)
        log.flush()
        progress.take(line)
        if line.startswith("rt: note:"):
            print(line, end="", flush=True)
    return ran.wait() == 0


def main(name):
    listed = crates.listed()
    if name not in listed:
        sys.exit(f"prove: crates.txt has no crate {name}")
    names = [*crates.below(name, listed), name]
    file = crates.ROOT / "build" / f"proof_{name}.log"
    file.parent.mkdir(exist_ok=True)
    with tempfile.TemporaryDirectory(prefix="pgsess-proof-") as folder, file.open("w") as log:
        at = pathlib.Path(folder)
        copied(names, listed, at)
        made = at / "crates" / name / "out" / name
        if not proved(name, names, at, log) or not made.exists():
            log.close()
            print(*file.read_text(errors="replace").splitlines()[-SHOWN:], sep="\n")
            print(f"prove: NOT PROVED; the end of what the prover said stands above, all of it in {file.relative_to(crates.ROOT)}")
            return 1
        to = crates.ROOT / "crates" / name / "out" / name
        to.parent.mkdir(exist_ok=True)
        # a program that runs meanwhile keeps its file
        shutil.copy(made, f"{to}.new")
        os.replace(f"{to}.new", to)
    return 0


if __name__ == "__main__":
    if len(sys.argv) != 2:
        sys.exit(__doc__)
    sys.exit(main(sys.argv[1]))
