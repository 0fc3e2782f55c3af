#!/usr/bin/env python3
"""Shows what `pgsess serve` does where the system has no thread for a connection, where it can't read the clock, at its start or later, and
where a client doesn't take its last word: in front of a server of its own, with a preloaded library (refuse_calls.c) that refuses
those calls while they are to be refused.

Usage: wants.py PROGRAM; it needs gcc.
"""
import pathlib
import re
import socket
import sys
import time

sys.path.insert(0, str(pathlib.Path(__file__).resolve().parents[1] / "lib"))
from asking import outcome_at
from cluster import HERE, USERS, until
from friendly import Server
from passes import Show, play
from refusing import Page, library_of, preloaded
from wire import TERMINATE, Client, Refused, md5_answer, message, startup

UNSERVED = 3
SECONDS = 20
# its clock is read once a second, so in so many refusals it has come back to it
REFUSALS = 3
# what it may take of a processor meanwhile, in seconds: it waits for each second
MAX_USED = 0.5
# a last word is tried once a second; in so many seconds so often at least, and at most
TRIED, FEWEST_TRIES, MAX_TRIES = 6, 4, 9


class Calls(Page):
    """What is refused, and how often it was."""

    def refuse(self, threads=False, clock=False, room=False):
        self.words[:3] = [threads, clock, room]

    def refused(self):
        """How often a thread was, how often the clock, and how often what was sent."""
        return self.words[3:]


def closed_without_a_byte(port):
    """Whether a connection is closed that says nothing, and what it was given."""
    with socket.create_connection((HERE, port), SECONDS) as it:
        it.settimeout(SECONDS)
        try:
            return it.recv(64) == b""
        except ConnectionResetError:
            return True


class Wants(Show):
    def __init__(self, program):
        super().__init__(program, "wants", "nobody")
        self.server = self.cluster = Server()
        self.page = Calls(self.place, "page", 6)
        self.program = preloaded(self.place, "serve", library_of(self.place, "refuse_calls.c"), self.page, program)

    def begin(self, **more):
        super().begin(auth="md5", **more)

    def end(self, what):
        self.passes.tell(f"{what}: SHUTDOWN", self.pooler.shut())
        self.pooler.stop()

    def counted(self):
        """How many connections the log says were closed for want of something."""
        return sum(map(int, re.findall(r"^pgsess: (\d+) connections? closed for want of a thread, a poll, a file or memory$", self.log(),
                                       re.M)))

    def times_untimed(self):
        """How often the log says that no limit of time holds."""
        return len(re.findall("^pgsess: no limit of time holds until the clock can be read$", self.log(), re.M))

    def threads(self):
        self.begin()
        # once one is served the pooler has its own, and that one's is not to be had
        client = Client(self.pooler.port, "ann", "shop", USERS["ann"][0], seconds=SECONDS)
        self.page.refuse(threads=True)
        closed = [closed_without_a_byte(self.pooler.port) for _ in range(UNSERVED)]
        self.passes.same("connections for which there is no thread are closed without a byte", closed, [True] * UNSERVED)
        self.page.refuse()
        until(lambda: self.counted() >= UNSERVED, SECONDS)
        self.passes.same("the log counts them", self.counted(), UNSERVED)
        self.passes.same("who is there is served", client.ask("SELECT"), [])
        self.passes.same("threads are had again: a client", outcome_at(self.pooler.port), "served")
        client.leave()
        self.end("no thread")

    def clocks_later(self):
        """Whether the clock was tried again, and again, and what that took of a processor."""
        before, used = self.page.refused()[1], self.pooler.used()
        tried = until(lambda: self.page.refused()[1] >= before + REFUSALS, SECONDS)
        return tried, self.pooler.used() - used

    def idle_link_goes(self):
        """Whether an idle link is closed by the clock, as a Terminate says."""
        return until(lambda: self.server.sent.endswith(TERMINATE) and self.server.ended, SECONDS)

    def clock(self, what, begins):
        """The clock can't be read: clients are served, without limits; and once it can be again, the limits hold."""
        untimed = self.times_untimed()
        if begins:
            self.page.refuse(clock=True)
        self.server.sent, self.server.ended = b"", 0
        self.begin(changes={"^server_idle_timeout = .*": "server_idle_timeout = 1"})
        self.page.refuse(clock=True)
        self.passes.same(f"{what}: a client", outcome_at(self.pooler.port), "served")
        tried, used = self.clocks_later()
        self.passes.holds(f"{what}: it is tried again, second for second", tried)
        until(lambda: self.times_untimed() > untimed, SECONDS)
        self.passes.same(f"{what}: the log says once that no limit of time holds", self.times_untimed() - untimed, 1)
        self.passes.holds(f"{what}: that takes no processor", used < MAX_USED, f"{used:.2f} s")
        self.passes.same(f"{what}: no link is closed by it", self.server.ended, 0)
        client = Client(self.pooler.port, "ann", "shop", USERS["ann"][0], seconds=SECONDS)
        self.page.refuse()
        client.ask("SELECT")
        client.leave()
        self.passes.holds(f"{what}, and then it can be: an idle link is closed in server_idle_timeout", self.idle_link_goes(),
                          self.server.sent[-20:].hex())
        self.end(what)

    def last_word(self):
        """A client whose server isn't reached, and whose socket has no room for that word."""
        self.begin(more_rows=f"nowhere = host={HERE} port=1 dbname=shop")
        client = Client(self.pooler.port, seconds=SECONDS)
        client.send(startup("ann", "nowhere"))
        salt = client.until(b"R")[1][4:8]
        self.page.refuse(room=True)
        client.send(message(b"p", md5_answer("ann", USERS["ann"][0], salt).encode() + b"\0"))
        time.sleep(TRIED)
        tries = self.page.refused()[2]
        self.passes.holds(f"a last word that isn't taken is tried once a second: {tries} times in {TRIED} s",
                          FEWEST_TRIES <= tries <= MAX_TRIES)
        self.page.refuse()
        try:
            told = client.until(b"Z")
        except Refused as error:
            told = error.code
        self.passes.same("once there is room it is told", told, "08001")
        client.socket.close()
        self.end("no room for a last word")

    def all(self):
        self.threads()
        self.last_word()
        self.clock("no clock at the start", True)
        self.clock("no clock later", False)


if __name__ == "__main__":
    play(Wants, has_server=False)
