#!/usr/bin/env python3
"""Plays the logins of tests/logins through `trials login`: each is given exactly the bytes and ends just so that expected.txt says, into
whatever pieces its bytes are cut. The files must be those that write.py writes.

Usage: logins.py TRIALS
"""
import pathlib
import subprocess
import sys
import tempfile

sys.path.insert(0, str(pathlib.Path(__file__).resolve().parents[1] / "lib"))
from cluster import TOP
from expected import play

FOLDER = TOP / "tests/logins"


def by_name(files):
    return {file.name: file.read_bytes() for file in files}


def main():
    with tempfile.TemporaryDirectory() as work:
        subprocess.run([sys.executable, FOLDER / "write.py", work], check=True)
        written, stored = by_name(pathlib.Path(work).iterdir()), by_name([*FOLDER.glob("*.in"), FOLDER / "expected.txt"])
    others = sorted(name for name in {*written, *stored} if written.get(name) != stored.get(name))
    if others:
        print(f"FAILED logins: tests/logins has other files than its write.py writes: {' '.join(others)}")
        sys.exit(1)
    play("logins")


if __name__ == "__main__":
    main()
