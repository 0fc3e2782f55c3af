#!/usr/bin/env python3
"""Refuses growths to `pgsess serve` and to `pgsess stub` while they run: each one in turn, in one process.

Usage: refused_growths.py PROGRAM; it needs gcc.

A preloaded library (refuse_growth.c) counts the calls of malloc, calloc and realloc of a scenario, and refuses the Nth, the Nth and three
more, or all from the Nth on: for N from 1 on until none is left to refuse. A scenario is a few clients: one alone; one whose link takes the
place of another user's; one that waits for a link; one that logs in by MD5; one of the console; and a client whose statement is to be
cancelled. Each is given a front of what it is given otherwise, and perhaps one refusal. Then growths are had again, and two clients, as
many as may be there, share the one link there may be: each is given exact bytes, and no file is left open but the poll of each thread that
is kept.

Last, each growth is refused in turn from a client's coming on up to its lease, over a link that is started for it; and what it is told is
the cause: P9 where memory was refused, in the start too; P7 only where the log says why its server wasn't reached. One that is closed
without a byte is counted in the log. The same where the database's row names the user of its links, of whose password a secret is made
within the start.
"""
import os
import pathlib
import re
import socket
import sys
import time

sys.path.insert(0, str(pathlib.Path(__file__).resolve().parents[1] / "lib"))
from cluster import HERE, POLL, USERS, Place, Pooler, Stub, files_of, until
from given import GIVEN, MEMORY, UNREACHED, borders, is_allowed
from passes import Show, play
from refusing import Page, library_of, preloaded
from wire import TERMINATE, cancel_request, fields, md5_answer, message, query, startup
from worked import CATALOGUE, START, run

SECONDS = 20
# a client to whom growths are refused waits no longer
PATIENCE = 5
# the pooler's query_wait_timeout
MAX_WAIT = 5
FOR_EVER = 1 << 62
WAYS = {"one": 1, "four": 4, "all from one on": FOR_EVER}
# each scenario refuses so many at least, and ends before so many
FEWEST, MOST, MAX_TOLD = 5, 2_000, 3
OK = GIVEN["ok"]
# the log counts what is closed without a byte once a second
LOG_SECONDS = 10
# what a client is told of a growth that is refused, and how often at least
FEWEST_TOLD = {"served": 1, "P9": 5, "P9 in its start": 10, "P7": 1, "nothing": 3}
# a database whose row names the user of its links, with a password
OWN = "own"
# the question for the MD5 answer, whose salt stands behind it
ASKED = GIVEN["md5"][:9]
TALK = [query("SHOW application_name"), query("CREATE TEMP TABLE t (a text)"), query("SET application_name TO 'x'"),
        query("SELECT name FROM city")]
CONSOLE = [query(text) for text in ("SHOW CONFIG", "SHOW POOLS", "RELOAD", "SHOW DATABASES")]
# at rest: who accepts, the clock, the log, who derives keys, and those that wait for a connection
MAX_THREADS = 4 + 8


class Counted(Page):
    """What is refused, and how much was."""

    def refuse(self, first, count):
        """From now on."""
        self.words[1:4] = [count, 0, 0]
        self.words[0] = first

    def end(self):
        """How many were refused."""
        self.words[0] = 0
        return self.words[3]


class Talker:
    """A client that says one message after the other, and keeps all that it is given."""

    def __init__(self, port, seconds):
        self.got, self.seconds = b"", seconds
        self.socket = socket.create_connection((HERE, port), SECONDS)
        self.socket.setsockopt(socket.IPPROTO_TCP, socket.TCP_NODELAY, 1)

    def hears(self, enough):
        """Reads until it has enough, or all that comes before its connection is closed, or comes in time; whether it has enough."""
        end = time.monotonic() + self.seconds
        while not enough(self.got):
            self.socket.settimeout(max(0.001, end - time.monotonic()))
            try:
                piece = self.socket.recv(65536)
            except OSError:
                piece = b""
            if not piece:
                return False
            self.got += piece
        return True

    def says(self, data, enough):
        try:
            self.socket.sendall(data)
        except OSError:
            pass
        return self.hears(enough)

    def is_ready(self, times):
        """Whether it was told so often that the server is ready."""
        return lambda got: sum(frame[:6] == b"Z\0\0\0\5I" for frame in frames_of(got)) >= times

    def comes(self, user, database="shop"):
        """Logs in, by MD5 where it is asked to."""
        self.says(startup(user, database), lambda got: len(got) >= len(OK))
        if self.got[:len(ASKED)] == ASKED and self.hears(lambda got: len(got) >= len(ASKED) + 4):
            answer = md5_answer(user, USERS[user][0], self.got[len(ASKED):])
            self.says(message(b"p", answer.encode() + b"\0"), lambda got: len(got) >= len(ASKED) + 4 + len(OK))

    def asks(self, user, by_md5):
        """Logs in where another has the link. AuthenticationOk comes with what follows it, so it isn't waited for."""
        self.says(startup(user, "shop"), lambda got: not by_md5 or len(got) >= len(ASKED) + 4)
        if by_md5:
            answer = md5_answer(user, USERS[user][0], self.got[len(ASKED):])
            self.says(message(b"p", answer.encode() + b"\0"), lambda _: True)
        time.sleep(0.1)

    def is_in(self):
        """Whether it has a link, or the console."""
        return self.hears(self.is_ready(1))

    def talks(self, said, first=1):
        for number, data in enumerate(said, first):
            if not self.says(data, self.is_ready(number + 1)):
                return

    def leaves(self):
        self.says(TERMINATE, lambda _: False)
        self.socket.close()
        return self.got


def frames_of(data):
    ends = borders(data)
    return [data[start:end] for start, end in zip(ends, ends[1:])]


def plain_frame(frame):
    """A message without what differs from client to client: key words and salts. Of a RELOAD that found no memory as if it had."""
    if frame[:1] == b"K":
        return frame[:5] + bytes(len(frame[5:]))
    if frame[:len(ASKED)] == ASKED:
        return ASKED + bytes(len(frame) - len(ASKED))
    if frame[:1] == b"E" and fields(frame[5:]).get("C") == "22023":
        return message(b"C", b"RELOAD\0")
    return frame


def plain(data):
    ends = [*borders(data), len(data)]
    return b"".join(plain_frame(data[start:end]) for start, end in zip(ends, ends[1:]))


class Growths:
    """A pooler and a stand-in server behind it, to which growths are refused; there may be one link, and two clients."""

    def __init__(self, program, library, auth, exact):
        self.place = Place("nobody")
        self.pages = {name: Counted(self.place, name, 4) for name in ("serve", "stub")}
        words = {name: preloaded(self.place, name, library, page, program) for name, page in self.pages.items()}
        self.stub = Stub(self.place, words["stub"], pathlib.Path(CATALOGUE).read_bytes())
        own = f"{OWN} = host={HERE} port={self.stub.port} dbname=shop user=ann password={USERS['ann'][0]}"
        self.pooler = Pooler(self.place, self.stub, words["serve"], size=1, clients=2, links=1, wait=MAX_WAIT, auth=auth, more_rows=own)
        self.by_md5 = auth == "md5"
        self.exact = ASKED + bytes(4) + exact if self.by_md5 else exact
        self.files = [FOR_EVER, FOR_EVER]
        self.fault_of_pair()
        self.files = self.steady_files()

    # ---- scenarios: what each of their clients is given, once `refuse` is called

    def one_client(self, refuse):
        refuse()
        return [self.served("ann")]

    def two_users(self, refuse):
        """The link of one takes the place of the other's."""
        self.served("bc", SECONDS)
        refuse()
        return [self.served("ann")]

    def one_waits(self, refuse):
        """While another has the link."""
        first, second = self.talker(SECONDS), self.talker()
        first.comes("ann")
        first.is_in()
        refuse()
        second.asks("ann", self.by_md5)
        first.talks(TALK)
        given = first.leaves()
        if second.is_in():
            second.talks(TALK)
        return [given, second.leaves()]

    def console(self, refuse):
        one = self.talker()
        refuse()
        one.comes("root", "pgbouncer")
        if one.is_in():
            one.talks(CONSOLE)
        return [one.leaves()]

    def cancel(self, refuse):
        """It comes between two statements, and strikes the second or none."""
        one = self.talker(SECONDS)
        one.comes("ann")
        one.is_in()
        one.talks(TALK[:3])
        refuse()
        asking = self.talker()
        key = next(frame[5:] for frame in frames_of(one.got) if frame[:1] == b"K")
        asking.says(cancel_request(key), lambda _: False)
        asking.socket.close()
        one.talks(TALK[3:], first=4)
        return [one.leaves(), asking.got]

    def served(self, user, seconds=PATIENCE, database="shop"):
        """What a client is given that says all of its statements, if it gets a link."""
        one = self.talker(seconds)
        one.comes(user, database)
        if one.is_in():
            one.talks(TALK)
        return one.leaves()

    def talker(self, seconds=PATIENCE):
        return Talker(self.pooler.port, seconds)

    # ---- what is left

    def is_at_rest(self):
        """Each connection is done: no more files are open than those of the one link, and a poll for each thread that is kept."""
        return until(lambda: all(now <= was for now, was in zip(self.files_now(), self.files)) and self.has_its_polls()
                     and self.pooler.threads() <= MAX_THREADS, SECONDS)

    def has_its_polls(self):
        """No thread has more than one."""
        return all(files_of(it.process.pid).count(POLL) <= len(os.listdir(f"/proc/{it.process.pid}/task"))
                   for it in (self.pooler, self.stub))

    def fault_of_pair(self):
        """What is wrong with what two clients are given, as many as may be there, of whom one waits for the other's link."""
        first, second = self.talker(SECONDS), self.talker(SECONDS)
        first.comes("ann")
        first.is_in()
        second.asks("ann", self.by_md5)
        for one in (first, second):
            if one.is_in():
                one.talks(TALK)
            one.leaves()
        self.is_at_rest()
        return next((f"a client afterwards is given {one.got[-300:]!r}" for one in (first, second) if plain(one.got) != self.exact), "")

    def steady_files(self):
        """How many files are open once none is closed any more."""
        counts = [self.files_now()]

        def is_steady():
            time.sleep(0.3)
            counts.append(self.files_now())
            return counts[-1] == counts[-2]

        until(is_steady, SECONDS)
        return counts[-1]

    def files_now(self):
        """But for polls."""
        return [sum(file != POLL for file in files_of(it.process.pid)) for it in (self.pooler, self.stub)]

    def fault_afterwards(self):
        """What is wrong once growths are had again."""
        if not self.is_at_rest():
            return f"{self.pooler.threads()} threads are left, {self.files_now()} files for {self.files}"
        if fault := self.fault_of_pair():
            return fault
        if not until(lambda: self.files_now() == self.files, SECONDS):
            return f"{self.files_now()} files for {self.files}"
        return "" if self.pooler.runs() and self.stub.process.poll() is None else "it has ended"

    def end(self):
        self.pooler.stop()
        self.place.end()


def struck(whole):
    """The same, where the last statement was cancelled."""
    frames = frames_of(whole)
    last = max(number for number, frame in enumerate(frames[:-1]) if frame[:1] == b"Z")
    error = message(b"E", b"SERROR\0VERROR\0C57014\0Mstatement was cancelled\0\0")
    return b"".join(frames[:last + 1]) + error + message(b"Z", b"I")


class Sweep:
    """A scenario, of which each growth of this program is refused."""

    def __init__(self, growths, of, scenario):
        self.growths, self.page, self.scenario = growths, growths.pages[of], scenario
        self.refused = self.runs = self.served = 0
        self.whole = [[plain(given)] for given in scenario(lambda: None)]
        if scenario == growths.cancel:
            alone = plain(growths.served("ann", SECONDS))
            self.whole[0] = [alone, struck(alone)]

    def fault(self, first, count):
        """What is wrong with a run, and how many growths were refused."""
        given = [plain(it) for it in self.scenario(lambda: self.page.refuse(first, count))]
        refused = self.page.end()
        self.runs += refused > 0
        self.refused += refused
        self.served += refused > 0 and all(it in whole for it, whole in zip(given, self.whole))
        for it, whole in zip(given, self.whole):
            # who is told nothing, as one that asks for a cancel, isn't told of a refusal either
            if not any(is_allowed(one, it) if one else it == one for one in whole):
                return refused, f"a client is given {it!r}"
        return refused, self.growths.fault_afterwards()

    def all(self):
        """The faults."""
        _, fault = self.fault(FOR_EVER, 1)
        if fault:
            return [f"nothing refused: {fault}"]
        faults = []
        for way, count in WAYS.items():
            for first in range(1, MOST):
                refused, fault = self.fault(first, count)
                if fault:
                    faults.append(f"{way}, {first}: {fault}")
                if not refused or len(faults) == MAX_TOLD:
                    break
            if first <= FEWEST or first == MOST - 1:
                faults.append(f"{way}: {first - 1} growths were refused")
        return faults


class Causes:
    """A client of a database whose link is started for it, of which each growth is refused in turn: what it is told."""

    def __init__(self, growths, database):
        self.growths, self.database, self.told, self.runs = growths, database, [], 0
        self.whole = self.given()

    def log(self):
        return (self.growths.place.folder / "pgsess.err").read_text(errors="replace")

    def given(self, refuse=lambda: None):
        """What a client is given; that another user has the link before has it start one."""
        self.growths.served("bc", SECONDS)
        refuse()
        return plain(self.growths.served("ann", SECONDS, self.database))

    def unserved(self):
        """How many connections the log says were closed for want of something."""
        return sum(map(int, re.findall(r"^pgsess: (\d+) connections? closed for want of ", self.log(), re.M)))

    def kind(self, given, before):
        """What a client was told, by this and by the log from there on; nothing where neither says."""
        if given in (self.whole, b""):
            return "served" if given else "nothing"
        if given.endswith(MEMORY):
            return "P9"
        not_reached = rf"^pgsess: server {HERE}:{self.growths.stub.port} not reached: "
        says_why = lambda: re.search(not_reached, self.log()[before:], re.M)
        return "P7" if given.endswith(UNREACHED) and until(says_why, LOG_SECONDS) else ""

    def fault_of(self, first):
        """What is wrong where this growth is refused, and whether one was."""
        page, before, unserved = self.growths.pages["serve"], len(self.log()), self.unserved()
        given = self.given(lambda: page.refuse(first, 1))
        if not page.end():
            return "", False
        self.runs += 1
        self.told.append(self.kind(given, before))
        if not self.told[-1]:
            return f"{first}: a client is given {given[-100:]!r}", True
        # the log is waited for before the next growth is refused, which may be that of its line
        wanted = self.told[-1] == "nothing"
        until(lambda: self.unserved() - unserved >= wanted, LOG_SECONDS)
        if self.unserved() - unserved != wanted:
            return f"{first}: {self.told[-1]}, and the log counts {self.unserved() - unserved} connections closed without a byte", True
        return self.growths.fault_afterwards(), True

    def counts(self):
        counts = {kind: self.told.count(kind) for kind in FEWEST_TOLD}
        if "P7" in self.told:
            # a growth that is refused behind the last for which the server isn't reached
            behind = len(self.told) - self.told[::-1].index("P7")
            counts["P9 in its start"] = self.told[behind:].count("P9")
        return counts

    def fault(self):
        for first in range(1, MOST):
            fault, is_refused = self.fault_of(first)
            if fault:
                return fault
            if not is_refused:
                break
        counts = self.counts()
        return f"told {counts}" if any(counts[kind] < fewest for kind, fewest in FEWEST_TOLD.items()) else ""


class RefusedGrowths(Show):
    def __init__(self, program):
        super().__init__(program, "refused growths", "nobody")
        self.runs = 0

    def sweeps(self, trust, md5):
        """The scenarios, each with the growths of it that are refused."""
        return {
            "serve, one client": (trust, "serve", trust.one_client),
            "serve, a client by MD5": (md5, "serve", md5.one_client),
            "serve, two users for one link": (trust, "serve", trust.two_users),
            "serve, a client that waits": (trust, "serve", trust.one_waits),
            "serve, the console": (trust, "serve", trust.console),
            "serve, a cancel": (trust, "serve", trust.cancel),
            "stub, one client": (trust, "stub", trust.one_client),
            "stub, a cancel": (trust, "stub", trust.cancel),
        }

    def swept(self, name, of):
        """Whether each growth of a scenario can be refused."""
        start, sweep = time.monotonic(), Sweep(*of)
        faults = sweep.all()
        self.runs += sweep.runs
        self.passes.tell(f"{name}: {sweep.runs} runs with {sweep.refused} growths refused, of which {sweep.served} were served all the "
                         f"same "
                         f"({time.monotonic() - start:.0f} s)", f"{faults[:MAX_TOLD]}" if faults else "")
        return not faults

    def causes(self, growths, database):
        causes = Causes(growths, database)
        fault = causes.fault()
        self.runs += causes.runs
        what = f"serve, a growth of a client's coming to {database} and of its link's start: {causes.runs} runs, told {causes.counts()}"
        self.passes.tell(what, fault)

    def all(self):
        exact = plain(run([self.program, "replay"], START + b"".join(TALK)).stdout)
        library, made = library_of(self.place, "refuse_growth.c"), []
        try:
            for auth in ("trust", "md5"):
                made.append(Growths(self.program, library, auth, exact))
            if all(self.swept(*it) for it in self.sweeps(*made).items()):
                for database in ("shop", OWN):
                    self.causes(made[1], database)
                ended = [it.pooler.shut() for it in made]
                self.passes.same("the poolers end by SHUTDOWN: who arrived left, and each link that was lent came back or was lost", ended,
                                 ["", ""])
        finally:
            for growths in made:
                growths.end()

    def took(self, seconds):
        print(f"refused growths: {self.runs} runs, {seconds:.0f} s, {time.process_time():.0f} s of it the script's")


if __name__ == "__main__":
    play(RefusedGrowths, has_server=False)
