#!/usr/bin/env python3
"""The logins of a folder, as its expected.txt has them, played through `trials login` in pieces of several sizes.

Usage: expected.py answer FOLDER NAME    the lines that the first login of this name is to get

A line has a name, its settings, what the client is given ("-": nothing) with the word `arrives` where it arrives, the start key
with which it arrives ("-": it doesn't), and how the login ends, parted by tabs.
"""
import pathlib
import re
import subprocess
import sys

from cluster import TOP
from given import GIVEN, authentication
from passes import Passes, words

CUTS = (0, 1, 2, 3, 5, 7, 64)
SECONDS = 60


def given(word):
    """The bytes of a word: `=0b:TEXT` is the Authentication message of this number with this text."""
    if word.startswith("="):
        number, _, text = word[1:].partition(":")
        return authentication(int(number, 16), text.encode())
    return GIVEN[word]


class Login:
    """A line of expected.txt."""

    def __init__(self, folder, line):
        self.name, self.settings, words, key, self.ending = line.split("\t")
        self.files = [str(folder / f"{self.settings}.ini"), str(folder / "users.txt")]
        self.data = (folder / f"{self.name}.in").read_bytes()
        parts = [b"".join(map(given, part.split())).hex() for part in words.split("arrives")]
        if (len(parts) == 2) != (key != "-"):
            sys.exit(f"{folder}/expected.txt, {self.name}: a client arrives with a key")
        self.lines = [parts[0], f"arrived {key}", parts[1]] if key != "-" else parts

    def is_ending(self, line):
        """Whether the line is the ending. How many bytes are left may depend on the cuts: `unused=A..B`."""
        wanted = re.fullmatch(r"(.*) unused=(\d+)(?:\.\.(\d+))?", self.ending)
        got = re.fullmatch(r"(.*) unused=(\d+)", line)
        if not (wanted and got and wanted[1] == got[1]):
            return False
        return int(wanted[2]) <= int(got[2]) <= int(wanted[3] or wanted[2])

    def fault(self, program, cut):
        run = subprocess.run([program, "login", *self.files, str(cut)], input=self.data, capture_output=True, timeout=SECONDS)
        if run.returncode != 0 or run.stderr:
            return f"status {run.returncode}, {run.stderr!r}"
        *lines, ending, after = run.stdout.decode("latin-1").split("\n")
        if after:
            return "no line at the end"
        if lines != self.lines:
            return f"given {lines} for {self.lines}"
        return "" if self.is_ending(ending) else f"ended {ending!r} for {self.ending!r}"


def logins_of(folder):
    logins = [Login(folder, line) for line in (folder / "expected.txt").read_text().splitlines()]
    if missing := {file.stem for file in folder.glob("*.in")} - {login.name for login in logins}:
        sys.exit(f"{folder}/expected.txt lacks {sorted(missing)}")
    return logins


def play(name):
    """Plays every line of a folder of tests/, by the program that is the only word."""
    (program,), passes = words(1), Passes(name)
    for login in logins_of(TOP / "tests" / name):
        faults = [f"{fault} (pieces of {cut})" for cut in CUTS if (fault := login.fault(program, cut))]
        passes.tell(f"{login.name}, {login.settings}" + ("" if faults else f": {login.ending}"), "; ".join(faults))
    passes.end(f" (each cut in {len(CUTS)} ways)")


def main():
    if len(sys.argv) != 4 or sys.argv[1] != "answer":
        sys.exit(__doc__)
    login = next(login for login in logins_of(pathlib.Path(sys.argv[2])) if login.name == sys.argv[3])
    print(*login.lines, login.ending, sep="\n")


if __name__ == "__main__":
    main()
