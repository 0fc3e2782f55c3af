#!/usr/bin/env python3
"""Plays each conversation of tests/rows through PROGRAM's `replay`, which must answer exactly the bytes of NAME.out, with status 0 and
nothing on standard error. Short ones are also cut at every byte: what is answered to a front must be a front of the answer, and, after the
plain login of ann, AuthenticationOk and what a session alone answers to that front (`trials solo`), with a refusal behind it where the
front ends in a faulty message. A conversation with a NAME.struck is that of a client whom a cancel strikes, before the frame behind the
login that it tells: `trials solo` plays it frame by frame.

Usage: rows.py PROGRAM TRIALS
"""
import pathlib
import sys

sys.path.insert(0, str(pathlib.Path(__file__).resolve().parents[1] / "lib"))
from given import GIVEN, refusal
from passes import Passes, words
from worked import CATALOGUE, ROWS, START, differs, fault_of, is_struck, run

MAX_CUT = 200


def whole(program, given, wanted):
    answer = run([program, "replay"], given)
    return fault_of(answer) or differs(answer.stdout, wanted)


def struck(trials, given, wanted, number):
    """What is wrong with what a session alone answers that a cancel strikes before the frame of this number."""
    answer = run([trials, "solo", CATALOGUE, "ann", number], given[len(START):])
    return fault_of(answer) or differs(GIVEN["ok"] + bytes.fromhex(answer.stdout.decode()), wanted)


def cut(program, given, wanted):
    """The answers to every front of the input, the empty one first, or a fault.

    Each goes on from the one before, and is a front of the whole answer.
    """
    answers, before = [], b""
    for size in range(len(given) + 1):
        answer = run([program, "replay"], given[:size])
        if fault := fault_of(answer):
            return [], f"{fault} after {size} bytes"
        if not (answer.stdout.startswith(before) and wanted.startswith(answer.stdout)):
            return [], f"another answer after {size} bytes"
        before = answer.stdout
        answers.append(before)
    return answers, "" if before == wanted else "not the whole answer at the end"


def beside_solo(trials, given, answers):
    """The answers to the fronts that have ann's login beside those of a session alone: AuthenticationOk, these, and a refusal."""
    rest = given[len(START):]
    solo = run([trials, "solo", CATALOGUE, "ann"], rest)
    if fault := fault_of(solo):
        return f"trials: {fault}"
    lines = solo.stdout.decode().splitlines()
    if len(lines) != len(rest) + 1:
        return f"trials: {len(lines)} lines for {len(rest) + 1}"
    for size, line in enumerate(lines):
        if answers[len(START) + size] != GIVEN["ok"] + bytes.fromhex(line) + refusal(rest[:size]):
            return f"another answer than of a session alone, {size} bytes after the login"
    return ""


class Rows:
    """What is played."""

    def __init__(self, program, trials):
        self.program, self.trials, self.passes = program, trials, Passes("rows")
        self.fronts = self.alone = self.struck = 0

    def tell(self, file, given, wanted, fault):
        self.passes.tell(f"{file.stem}: {len(given)} bytes in, {len(wanted)} out", fault)

    def play(self, file):
        """The conversation of a file: the whole of it, and where it is short its fronts."""
        given, wanted = file.read_bytes(), file.with_suffix(".out").read_bytes()
        fault = whole(self.program, given, wanted)
        if not fault and len(given) <= MAX_CUT:
            answers, fault = cut(self.program, given, wanted)
            self.fronts += len(answers)
            if not fault and given.startswith(START):
                fault = beside_solo(self.trials, given, answers)
                self.alone += len(given) - len(START) + 1
        self.tell(file, given, wanted, fault)

    def strike(self, file):
        """The conversation of a file, which a cancel strikes where its NAME.struck tells."""
        given, wanted = file.read_bytes(), file.with_suffix(".out").read_bytes()
        self.struck += 1
        self.tell(file, given, wanted, struck(self.trials, given, wanted, file.with_suffix(".struck").read_text().strip()))


def main():
    rows = Rows(*words(2))
    for file in sorted(ROWS.glob("*.in")):
        if is_struck(file):
            rows.strike(file)
        else:
            rows.play(file)
    rows.passes.end(f" ({rows.struck} that a cancel strikes; {rows.fronts} fronts of inputs, {rows.alone} of them beside a session alone)",
                    rows.alone > 0 and rows.struck > 0)


if __name__ == "__main__":
    main()
