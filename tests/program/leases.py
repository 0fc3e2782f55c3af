#!/usr/bin/env python3
"""Plays conversations of tests/rows over leases whose ends move few bytes a call, and over servers that die, by `trials lease`.

Usage: leases.py TRIALS

Each conversation must be answered by its .out under every cut. Where the server dies after n bytes, the answer must be what a client
may be given at all, and what follows from where byte n stands among the messages of the .out: the script tells both from these alone.
"""
import pathlib
import sys
from concurrent.futures import ThreadPoolExecutor

sys.path.insert(0, str(pathlib.Path(__file__).resolve().parents[1] / "lib"))
from given import FAILED, GIVEN, HEAD, UNREACHED, borders, is_allowed
from passes import Passes, words
from worked import CUTS, ROWS, START, WELCOME, WORKERS, differs, is_struck, lease

# what is read of a server's messages goes on to the client only whole
WHOLE_ONLY = b"SZ"


def dying(whole, dies_after):
    """What the client is given whose server dies after so many bytes."""
    # the server's own AuthenticationOk is as long as the client's, so byte n of the server is byte n of the answer
    if dies_after < len(WELCOME):
        return GIVEN["ok"] + UNREACHED
    last = max(end for end in borders(whole) if end <= dies_after)
    if dies_after < last + HEAD or whole[last] in WHOLE_ONLY:
        return whole[:last] + FAILED
    return whole[:dies_after]


class Plays:
    """What is played over the leases of a program."""

    def __init__(self, trials):
        self.trials, self.passes, self.deaths = trials, Passes("leases"), 0
        self.pool = ThreadPoolExecutor(WORKERS)

    def tell(self, name, faults):
        self.passes.tell(name, next((it for it in faults if it), ""))

    def whole(self, data, wanted, cut):
        """What is wrong with the answer over a server that lives."""
        given, fault = lease(self.trials, data, cut)
        if fault or given == wanted:
            return fault
        return f"cut {cut}: {differs(given, wanted)}"

    def dies(self, data, whole, cut, dies_after):
        """What is wrong with the answer over a server that dies."""
        given, fault = lease(self.trials, data, cut, dies_after)
        if fault:
            return fault
        if not is_allowed(whole, given):
            return f"cut {cut}, {dies_after} bytes of the server: no client may be given {given!r}"
        wanted = dying(whole, dies_after)
        return "" if given == wanted else f"cut {cut}, {dies_after} bytes of the server: {differs(given, wanted)}"

    def play(self, file):
        """A conversation under each cut."""
        data, wanted = file.read_bytes(), file.with_suffix(".out").read_bytes()
        self.tell(f"{file.stem}: cuts {CUTS}", list(self.pool.map(lambda cut: self.whole(data, wanted, cut), CUTS)))

    def leaves(self, name, size):
        """A client that goes inside its first message is answered by its welcome alone."""
        data = (ROWS / f"{name}.in").read_bytes()[:len(START) + size]
        self.tell(f"{name}, {size} bytes of its message: cuts {CUTS}",
                  list(self.pool.map(lambda cut: self.whole(data, WELCOME, cut), CUTS)))

    def kill(self, name, cut):
        """A conversation whose server dies after each of its bytes, none and all of them too."""
        data, whole = (ROWS / f"{name}.in").read_bytes(), (ROWS / f"{name}.out").read_bytes()
        counts = range(len(whole) + 1)
        self.deaths += len(counts)
        self.tell(f"{name}, cut {cut}: the server dies after 0 to {len(whole)} bytes",
                  list(self.pool.map(lambda n: self.dies(data, whole, cut, n), counts)))


def main():
    plays = Plays(*words(1))
    for file in sorted(ROWS.glob("*.in")):
        if not is_struck(file):
            plays.play(file)
    plays.leaves("query_of_spaces", 10_005)
    for cut in CUTS:
        plays.kill("set_show_discard", cut)
        plays.kill("select_table", cut)
    plays.passes.end(f" ({plays.deaths} deaths of a server)", plays.deaths > 0)


if __name__ == "__main__":
    main()
