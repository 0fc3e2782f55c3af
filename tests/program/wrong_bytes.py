#!/usr/bin/env python3
"""Sets each byte of some conversations of tests/rows to 00 and to ff, and plays them.

Usage: wrong_bytes.py PROGRAM TRIALS

Each is played by `replay`, and over TCP by `pgsess serve` with `pgsess stub` behind it. What a client is given is told by its login
(`trials login`) and by what a session alone answers to the rest of its bytes (`trials solo`): exactly that by `replay`; over TCP that but
for its key word, or, where the conversation doesn't end with a whole message, a beginning of that.
"""
import collections
import pathlib
import sys
from concurrent.futures import ThreadPoolExecutor

sys.path.insert(0, str(pathlib.Path(__file__).resolve().parents[1] / "lib"))
from cluster import TOP, Stub
from given import refusal
from passes import Show, play
from pieces import Way, is_whole, played, rest_of
from worked import CATALOGUE, ROWS, alone, differs, fault_of, run

CONVERSATIONS = [
    "start", "set_show_discard", "bind_values", "temporary_table_and_statement", "names_of_another_session", "suspended_portal",
    "cursor_with_hold",
]
LOGIN = ["login", str(TOP / "tests/logins/trust.ini"), str(TOP / "tests/logins/users.txt"), "0"]
# what ann's login ends with, and how many bytes it leaves
PASSED = "passed row=shop user=ann parameters= unused="
WORKERS, LINKS = 6, 2

Wrong = collections.namedtuple("Wrong", "name data")


def wrong_ones(name):
    data = (ROWS / f"{name}.in").read_bytes()
    for at in range(len(data)):
        for byte in (b"\0", b"\xff"):
            if data[at:at + 1] != byte:
                yield Wrong(f"{name}, byte {at} as {byte.hex()}", data[:at] + byte + data[at + 1:])


class Bytes(Show):
    def __init__(self, program, trials):
        super().__init__(program, "wrong bytes", "nobody")
        self.trials, self.count, self.refused = trials, 0, 0

    def wanted(self, data):
        """What the client of these bytes is given, what it is refused by at the end, whether it is whole, and a fault of the tools."""
        answer = run([self.trials, *LOGIN], data)
        if fault := fault_of(answer):
            return b"", b"", False, f"trials: {fault}"
        *lines, ending = answer.stdout.decode("latin-1").splitlines()
        if not ending.startswith(PASSED):
            return b"".join(bytes.fromhex(line) for line in lines if not line.startswith("arrived")), b"", False, ""
        rest = data[len(data) - int(ending.removeprefix(PASSED)):]
        given, fault = alone(self.trials, rest)
        before = bytes.fromhex(lines[0])
        return before + given, refusal(rest), is_whole(rest), fault

    def fault(self, wrong):
        wanted, refused, whole, fault = self.wanted(wrong.data)
        if fault:
            return fault
        answer = run([self.program, "replay"], wrong.data)
        if fault := fault_of(answer) or differs(answer.stdout, wanted):
            return f"replay: {fault}"
        self.count += 1
        self.refused += not whole
        fault = played(self.pooler.port, wrong.data, wanted, refused, Way(wrong.name, len(wrong.data)), whole)
        return f"serve: {fault}" if fault else ""

    def all(self):
        self.cluster = Stub(self.place, self.program, pathlib.Path(CATALOGUE).read_bytes())
        self.begin(size=LINKS)
        for name in CONVERSATIONS:
            wrong = list(wrong_ones(name))
            with ThreadPoolExecutor(WORKERS) as pool:
                faults = [f"{it.name}: {fault}" for it, fault in zip(wrong, pool.map(self.fault, wrong)) if fault]
            self.passes.tell(f"{name}: {len(wrong)} with a wrong byte", f"{len(faults)} failed, as {faults[:3]}" if faults else "")
        self.passes.tell("no link is left lent", rest_of(self.pooler.port))
        self.passes.holds("the pooler still runs", self.pooler.runs())
        self.pooler.stop()

    def took(self, seconds):
        print(f"wrong bytes: {self.count} conversations, {self.refused} of them refused or unfinished, "
              f"each through replay and through serve; {seconds:.0f} s")


if __name__ == "__main__":
    play(Bytes, programs=2, has_server=False)
