"""The worked conversations of tests/rows, and what programs answer to a client's bytes: `pgsess replay`, and the tool `trials` for a
session or a lease alone."""
import subprocess

from cluster import TOP
from given import GIVEN, refusal

ROWS = TOP / "tests/rows"
CATALOGUE = str(ROWS / "catalogue.tsv")
SECONDS = 60
# no conversation has a frame of this number
NEVER = (1 << 64) - 1
# how many bytes a call the ends of leases move, and how many leases are played side by side
CUTS, WORKERS = (1, 7, 8192), 4
# ann's plain login, and what she is given
START, WELCOME = ((ROWS / f"start.{it}").read_bytes() for it in ("in", "out"))
# where the words of BackendKeyData stand in a welcome
KEY_HEAD = WELCOME.index(b"K\0\0\0\x0c")
KEY = slice(KEY_HEAD + 5, KEY_HEAD + 13)
# the welcome of a server that has a key word of its own
SERVER_KEY = (7).to_bytes(4, "big") + (8).to_bytes(4, "big")
STARTED = WELCOME[:KEY.start] + SERVER_KEY + WELCOME[KEY.stop:]


def is_struck(file):
    """Whether a cancel strikes the conversation of this file. `replay` can't play such a one."""
    return file.with_suffix(".struck").exists()


def run(words, data):
    return subprocess.run(words, input=data, capture_output=True, timeout=SECONDS)


def fault_of(run):
    """What is wrong with a run, whatever it answered."""
    if run.returncode != 0:
        return f"status {run.returncode}, {run.stderr!r}"
    return f"standard error {run.stderr!r}" if run.stderr else ""


def differs(given, wanted):
    """What is wrong with an answer, if it is another one than that."""
    if given == wanted:
        return ""
    same = next((i for i, (a, b) in enumerate(zip(given, wanted)) if a != b), min(len(given), len(wanted)))
    return f"{len(given)} bytes for {len(wanted)}, which differ from byte {same} on"


def alone(trials, data):
    """What a client is given by a session alone that says this behind the plain login of ann; and what is wrong with the run."""
    answer = run([trials, "solo", CATALOGUE, "ann", str(NEVER)], data)
    if fault := fault_of(answer):
        return b"", f"trials: {fault}"
    return GIVEN["ok"] + bytes.fromhex(answer.stdout.decode()) + refusal(data), ""


def lease(trials, data, cut, dies_after=None):
    """What the client is given, or None, and what is wrong with the run."""
    answer = run([trials, "lease", str(cut)] + ([] if dies_after is None else [str(dies_after)]), data)
    if answer.returncode != 0 or answer.stderr:
        return None, f"status {answer.returncode}, {answer.stderr!r}"
    return answer.stdout, ""
