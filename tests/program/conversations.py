#!/usr/bin/env python3
"""Plays conversations of its own making through PROGRAM and TRIALS: each client is given what a session alone answers.

Usage: conversations.py PROGRAM TRIALS [SEED [COUNT]]: those of so many seeds, from SEED on.

Each is played by `replay`, whole and up to some of its bytes; by leases whose ends move 1, 7 and 8,192 bytes a call; and by a session
that a cancel strikes somewhere. About half of them are simple queries alone, whose answers session_model.py tells too. Where one fails,
its seed is told, and what is left of it once each message is dropped without which it still fails.
"""
import itertools
import pathlib
import re
import sys
import time
from concurrent.futures import ThreadPoolExecutor

sys.path.insert(0, str(pathlib.Path(__file__).resolve().parents[1] / "lib"))
import frames
import session_model
from given import GIVEN, refusal
from passes import seeded
from talks import Talk, shrunk
from wire import fields, values
from worked import CATALOGUE, CUTS, START, WELCOME, WORKERS, differs, fault_of, lease, run

SEED, COUNT = 1, 500
# of fewer conversations not every kind of answer is asked for
ENOUGH = 300
# so many failures are told
MAX_TOLD = 3
STRUCK, FAULTY = "E 57014", "E 08P01"


def column_names(body):
    found, at = [], 2
    for _ in range(int.from_bytes(body[:2], "big")):
        end = body.index(0, at)
        found.append(body[at:end].decode())
        at = end + 19
    return found


TOLD = {
    "C": lambda body: body[:-1].decode(),
    "D": lambda body: str(values(body)),
    "E": lambda body: fields(body)["C"],
    "N": lambda body: fields(body)["C"],
    "S": lambda body: "=".join(body[:-1].decode().split("\0")),
    "T": lambda body: str(column_names(body)),
    "Z": lambda body: body.decode(),
}


def lines_of(data):
    """A line for each of a server's messages: its type, and what it tells."""
    lines = []
    while data:
        kind, length = chr(data[0]), int.from_bytes(data[1:5], "big")
        lines.append(f"{kind} {TOLD[kind](data[5:length + 1])}" if kind in TOLD else kind)
        data = data[length + 1:]
    return lines


# what conversations are to meet, by the lines of the answers
MET = {
    "rows of a cursor": r"^C FETCH [1-9]",
    "a cursor at its end": r"^C FETCH 0",
    "a cursor held over a ROLLBACK": r"^C DECLARE CURSOR(\n.*)*\nC ROLLBACK(\n.*)*\nC FETCH [1-9]",
    "a cursor closed": r"^C CLOSE CURSOR",
    "no such cursor or portal (34000)": r"^E 34000",
    "a name taken (42P03)": r"^E 42P03",
    "a setting in a block": r"^Z T\nC SET\nS ",
    "SET LOCAL taken back at COMMIT": r"^Z T\nC COMMIT\nS ",
    "a value taken back at an error": r"^E .*\nS ",
    "a value taken back at ROLLBACK": r"^Z T\nC ROLLBACK\nS ",
    "SET LOCAL outside (25P01)": r"^N 25P01\nC SET",
    "DISCARD ALL": r"^C DISCARD ALL",
    "DISCARD ALL in a block (25001)": r"^E 25001",
    "a failed block (25P02)": r"^E 25P02",
    "a syntax error": r"^E 42601",
    "no such table": r"^E 42P01",
    "a temporary table": r"^C CREATE TABLE",
    "a suspended portal": r"^s$",
    "rows of a FETCH by several Executes": r"^s\n(D .*\n)*C FETCH",
    "a portal that cannot run again (55000)": r"^E 55000",
    "a faulty message (08P01)": r"^E 08P01",
}


def tables():
    """The tables of the catalogue: the columns and the rows of each name."""
    found, rows = {}, []
    for line in pathlib.Path(CATALOGUE).read_text().splitlines():
        word, *parts = line.split("\t")
        if word == "table":
            rows = []
            found[parts[0]] = parts[1:], rows
        elif word == "row":
            rows.append([None if it == r"\N" else it for it in parts])
    return found


TABLES = tables()


def model_fault(talk, data, struck=None):
    """What is wrong with the answer to simple queries, by the model."""
    session, wanted = session_model.Session(TABLES), []
    for number, it in enumerate(talk.said):
        wanted += session.query(it.statement, number == struck)
    for got, line in zip([*lines_of(data), "nothing"], [*wanted, "nothing"]):
        if got != line:
            return f"{got!r} for {line!r}, which the model tells"
    return ""


def struck_fault(trials, talk, data, fronts):
    """What is wrong with the answers of a session that a cancel strikes before one of the messages."""
    answer = run([trials, "solo", CATALOGUE, "ann", str(talk.struck)], data)
    if fault := fault_of(answer):
        return fault
    answers = [bytes.fromhex(line) for line in answer.stdout.decode().splitlines()[1:]]
    if talk.is_simple:
        return model_fault(talk, b"".join(answers), talk.struck)
    borders = [0, *itertools.accumulate(len(it.data) for it in talk.said)]
    others = [fronts[end][len(fronts[start]):] for start, end in zip(borders, borders[1:])]
    for number, (it, got, other) in enumerate(zip(talk.said, answers, others)):
        # a Query or Execute that is skipped isn't answered, and one that can't be read is told so
        if number >= talk.struck and it.data[:1] in (b"Q", b"E") and other:
            wanted = FAULTY if lines_of(other)[0] == FAULTY else STRUCK
            return "" if lines_of(got)[0] == wanted else f"message {number} is answered by {got!r} and not struck"
        if got != other:
            return f"message {number} is answered by {got!r} for {other!r}"
    return ""


def faults(programs, talk, data, fronts):
    """What is wrong with the answers to a talk, or nothing, one way after the other."""
    program, trials = programs

    def wanted(size):
        return GIVEN["ok"] + fronts[size] + refusal(data[:size])

    for size in [len(data), *(int(share * len(data)) for share in talk.cuts)]:
        answer = run([program, "replay"], START + data[:size])
        yield f"replay of {size} bytes", fault_of(answer) or differs(answer.stdout, wanted(size))
    for cut in CUTS:
        given, fault = lease(trials, START + data, cut)
        yield f"a lease of {cut} bytes a call", fault or differs(given, wanted(len(data)))
    if talk.is_simple:
        yield "a session", model_fault(talk, wanted(len(data))[len(WELCOME):])
    yield f"a cancel before message {talk.struck}", struck_fault(trials, talk, data, fronts)


def played(programs, talk):
    """What is wrong with the answers to a talk, and the lines of the whole answer."""
    data = b"".join(it.data for it in talk.said)
    solo = run([programs[1], "solo", CATALOGUE, "ann"], data)
    if fault := fault_of(solo):
        return f"a session alone: {fault}", []
    fronts = [bytes.fromhex(line) for line in solo.stdout.decode().splitlines()]
    lines = lines_of(fronts[-1])
    return next((f"{way}: {fault}" for way, fault in faults(programs, talk, data, fronts) if fault), ""), lines


def tell(programs, seed, talk, fault):
    print(f"FAILED seed {seed}: {fault}")
    least = shrunk(talk, lambda it: played(programs, it)[0])
    data = START + b"".join(it.data for it in least.said)
    print(f"{len(least.said)} of its {len(talk.said)} messages fail too: {played(programs, least)[0]}\n{data.hex()}", flush=True)
    frames.show("client", data)


def main():
    *programs, seed, count = seeded(SEED, COUNT)
    began, seeds = time.monotonic(), range(seed, seed + count)
    talks = [Talk(it) for it in seeds]
    with ThreadPoolExecutor(WORKERS) as pool:
        found = list(pool.map(lambda talk: played(programs, talk), talks))
    failed = [(it, talk, fault) for it, talk, (fault, _) in zip(seeds, talks, found) if fault]
    for it in failed[:MAX_TOLD]:
        tell(programs, *it)
    met = {name: sum(bool(re.search(pattern, "\n".join(lines), re.M)) for _, lines in found) for name, pattern in MET.items()}
    missed = [name for name in met if not met[name]] if count >= ENOUGH else []
    for name, number in met.items():
        print(f"{'FAILED' if name in missed else 'ok    '} {number} with {name}")
    print(f"conversations: {count - len(failed)} passed, {len(failed)} failed (seeds {seed} to {seed + count - 1}: "
          f"{sum(len(talk.said) for talk in talks)} messages, {sum(talk.is_simple for talk in talks)} beside the model; "
          f"{time.monotonic() - began:.0f} s)")
    sys.exit(bool(failed or missed or not count))


if __name__ == "__main__":
    main()
