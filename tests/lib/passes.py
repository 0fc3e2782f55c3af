"""What a test counts, and how it is played: what holds and what doesn't, over a pooler in a folder of which nothing is left behind."""
import os
import sys
import time

from cluster import USERS, Place, Pooler, set_up
from wire import Client


class Passes:
    """Counts what holds and what doesn't."""

    def __init__(self, name):
        self.name, self.passed, self.failed = name, 0, 0

    def tell(self, what, fault=""):
        self.passed += not fault
        self.failed += bool(fault)
        print(f"{'FAILED' if fault else 'ok    '} {what}{': ' if fault else ''}{fault}", flush=True)

    def same(self, what, got, wanted):
        self.tell(what, "" if got == wanted else f"{str(got)[:600]!r} for {str(wanted)[:600]!r}")

    def holds(self, what, fact, why="it doesn't hold"):
        self.tell(what, "" if fact else why)

    def end(self, more="", enough=True):
        """Tells the counts, and more, and ends with status 1 where something failed, or where not enough was tried."""
        print(f"{self.name}: {self.passed} passed, {self.failed} failed{more}")
        sys.exit(self.failed > 0 or self.passed == 0 or not enough)


class Show:
    """What a test shows of a program, in a place of its own; a test makes one of its own of it, whose all() does that."""

    cluster = pooler = None

    def __init__(self, program, name, user="postgres"):
        self.program, self.passes, self.place = program, Passes(name), Place(user)

    def begin(self, **settings):
        """A pooler with these settings, in the stead of the one before."""
        if self.pooler:
            self.pooler.stop()
        self.pooler = Pooler(self.place, self.cluster, self.program, **settings)

    def log(self):
        """What poolers have told so far."""
        return (self.place.folder / "pgsess.err").read_text()

    def console(self, command, **more):
        """The rows of a command of the console."""
        client = Client(self.pooler.port, "root", "pgbouncer", USERS["root"][0], **more)
        try:
            return client.ask(command)
        finally:
            client.leave()

    def took(self, seconds):
        """Tells how long all of it took."""
        print(f"{self.passes.name}: {seconds:.0f} s")


def words(programs, further=0):
    """The words of a test: so many programs, and perhaps some further words. Where there are others, it says how it is called."""
    given = sys.argv[1:]
    if not programs <= len(given) <= programs + further:
        sys.exit(sys.modules["__main__"].__doc__)
    return [*map(os.path.abspath, given[:programs]), *given[programs:]]


def seeded(seed, count):
    """Two programs, and the seed and the count that are the further words, or these."""
    program, trials, *more = words(2, further=2)
    return [program, trials, *map(int, more), *[seed, count][len(more):]]


def play(show_of, programs=1, further=0, has_server=True):
    """Plays a test: makes its show of its words, plays all of it, tells how long that took, and ends with status 1 where something failed.
    Nothing of it is left behind, whatever ends it."""
    given = words(programs, further)
    if has_server:
        set_up()
    began = time.monotonic()
    show = show_of(*given)
    with show.place:
        show.all()
    show.took(time.monotonic() - began)
    show.passes.end()
