#!/usr/bin/env python3
"""Clients one after the other over one link of `pgsess serve`, with `pgsess stub` behind it: none finds the cursor of the one before it.

Usage: cursors.py PROGRAM

Each client plays a conversation of tests/rows, and is given its bytes but for the
key word, which is another for each.
"""
import pathlib
import socket
import sys

sys.path.insert(0, str(pathlib.Path(__file__).resolve().parents[1] / "lib"))
from cluster import HERE, Stub
from passes import Show, play
from wire import TERMINATE
from worked import CATALOGUE, KEY, ROWS, differs

SECONDS = 20
CONVERSATIONS = [
    "cursor_with_hold", "cursor_of_another_session", "cursor_with_hold", "local_setting_in_block", "cursor_of_another_session",
    "temporary_table_and_statement", "names_of_another_session",
]
ESTABLISHED = "01"


def links(port):
    """The local ports of the connections that stand to this one."""
    lines = [line.split() for line in pathlib.Path("/proc/net/tcp").read_text().splitlines()[1:]]
    return sorted(int(local.split(":")[1], 16) for _, local, remote, state,
                  *_ in lines if (int(remote.split(":")[1], 16), state) == (port, ESTABLISHED))


class Cursors(Show):
    def __init__(self, program):
        super().__init__(program, "cursors", "nobody")

    def given(self, name):
        """What the client of a conversation is given, and the links that stand meanwhile."""
        wanted, got = (ROWS / f"{name}.out").read_bytes(), b""
        with socket.create_connection((HERE, self.pooler.port), SECONDS) as it:
            it.sendall((ROWS / f"{name}.in").read_bytes())
            while len(got) < len(wanted) and (piece := it.recv(65536)):
                got += piece
            stand = links(self.cluster.port)
            it.sendall(TERMINATE)
            while piece := it.recv(65536):
                got += piece
        return got, stand

    def play(self, name, stood):
        """A conversation, and the links that stood meanwhile; but for the first, those that stood before."""
        got, stand = self.given(name)
        wanted = (ROWS / f"{name}.out").read_bytes()
        self.passes.tell(f"{name}: {len(got)} bytes", differs(got[:KEY.start] + wanted[KEY] + got[KEY.stop:], wanted))
        self.passes.same(f"{name}: over the one link", (len(stand), stand), (1, stood or stand))
        return got[KEY], stand

    def all(self):
        self.cluster = Stub(self.place, self.program, pathlib.Path(CATALOGUE).read_bytes())
        self.begin(size=1)
        keys, stood = set(), []
        for name in CONVERSATIONS:
            key, stood = self.play(name, stood)
            keys.add(key)
        self.passes.same("each client has a key word of its own", len(keys), len(CONVERSATIONS))
        self.passes.holds("the pooler still runs", self.pooler.runs())
        self.pooler.stop()


if __name__ == "__main__":
    play(Cursors, has_server=False)
