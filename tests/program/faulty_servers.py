#!/usr/bin/env python3
"""Servers over TCP that die, stall or speak wrongly at each byte, before `pgsess serve`.

Usage: faulty_servers.py PROGRAM

A server of its own plays a conversation: its start, its answers to two statements and its answer to the reset. In each case it has one
fault: at each byte it closes the connection, resets it, falls silent, or says 00 or ff instead; or at each border of its messages it says
one of 33 faulty or strange ones. Others cut what they say in two at each byte, say it byte by byte, or put long messages into it, by
chance. Pools have one link. What the client of a case is given is told by a plain reader of the server's bytes (plain_reader.py): a front
of what the server said, and perhaps one refusal. Then a second client of the same start key is given exact bytes: over the same connection
where the link was to be kept, else over a new one. Meanwhile two clients of another server are served. At the end each link that isn't idle
is closed, and every client's place is free.
"""
import collections
import pathlib
import random
import socket
import struct
import sys
import threading
import time
from concurrent.futures import ThreadPoolExecutor

sys.path.insert(0, str(pathlib.Path(__file__).resolve().parents[1] / "lib"))
from cluster import HERE, USERS, Stub, until
from given import UNREACHED, authentication, borders, fatal
from listening import Listener
from passes import Show, play
from plain_reader import IDLE, IN_RESET, IN_START, MAX_STATUS, MORE, OK, TAG, Wanted, is_clean, started, status
from wire import RESET, TERMINATE, Client, Cut, Refused, md5_answer, message, packet, query, startup
from worked import CATALOGUE, SERVER_KEY, STARTED, differs

SECONDS = 20
LANES = 6
# seconds: a start is given up after server_connect_timeout, which is 15; a reset after 600 turns of 100 ms without a byte
GIVEN_UP = (14, 120)
SLOWEST = 5.0
# at rest: who accepts, the clock, the log, who derives keys, and those that wait for a connection; others end after ten seconds
MAX_THREADS = 4 + 8
# its memory has at most so many parts after thousands of threads; each that was never joined would keep two
MAX_MAPS = 1_500
REST = 0.002
# answers with long messages, round the borders of the relay's buffers and of what goes on only whole
LONG, SEED = 300, 20261127
VALUES = [1, 100, 4_000, 4_086, 4_087, 4_088, 9_000]
BODIES = [0, 1, 5, 100, 4_091, 8_180, 8_186, 8_187, 8_188, 8_192, 9_000, 16_384, 70_000]
ASKED = [query("SET DateStyle TO 'SQL, DMY'"), query("SHOW DateStyle")]
# how a server's part ends, if it doesn't go on
CLOSED, CUT_OFF, SILENT = "closes the connection", "resets the connection", "falls silent"
# before the start
QUESTION, ASKS_PASSWORD, ASKS_DIGEST = -1, authentication(3), authentication(5, b"salt")
# what a server says to a start, to each of two statements, and to the reset (PostgreSQL manual, "Message Formats")
SHOWN = (message(b"T", b"\0\1DateStyle\0" + bytes(6) + b"\0\0\0\x19" + b"\xff" * 6 + bytes(2)) + message(b"D", b"\0\1\0\0\0\x08SQL, DMY")
         + message(b"C", b"SHOW\0") + IDLE)
ANSWERS = [message(b"C", b"SET\0") + status(b"DateStyle", b"SQL, DMY") + IDLE, SHOWN]
AFTER_RESET = TAG + status(b"DateStyle", b"ISO, MDY") + IDLE
PARTS = [STARTED, *ANSWERS, AFTER_RESET]
NAMES = ["start", "first answer", "second answer", "reset"]
LONG_NOTICE = message(b"N", b"SNOTICE\0C00000\0M" + b"hello " * 50 + b"\0\0")


# what a server may say at a border that it shouldn't, or that nobody asked for
STRANGE = {
    "length 0": b"D\0\0\0\0",
    "length 1": b"T\0\0\0\1",
    "length 3": b"Z\0\0\0\3",
    "length 2^31": b"D\x80\0\0\0",
    "length 2^32 - 1": b"D\xff\xff\xff\xff",
    "length 2^31 - 1": b"D\x7f\xff\xff\xff",
    "length 65537": message(b"D", bytes(65_533)),
    "half a head": b"D\0\0",
    "type 00": b"\0\0\0\0\4",
    "type ff": b"\xff\0\0\0\4",
    "a client's message": query("SELECT 1"),
    "authentication without a number": message(b"R", b"\0\0\0"),
    "AuthenticationOk and a byte": authentication(0, b"\0"),
    "a second AuthenticationOk": authentication(0),
    "MD5 with a short salt": authentication(5, b"\1\2\3"),
    "SASL": authentication(10, b"SCRAM-SHA-256-PLUS\0\0"),
    "a report of no name": message(b"S"),
    "a report of an unknown name": status(b"unknown", b"1"),
    "a report without its last zero": message(b"S", b"TimeZone\0UTC"),
    "a report with a byte too many": message(b"S", b"TimeZone\0UTC\0\0"),
    "a report too long": status(b"TimeZone", bytes([65]) * MAX_STATUS),
    "a report of another value": status(b"TimeZone", b"A"),
    "a key too short": message(b"K", bytes(4)),
    "a key too long": message(b"K", bytes(12)),
    "no status": message(b"Z"),
    "two statuses": message(b"Z", b"II"),
    "an unknown status": message(b"Z", b"X"),
    "a block's status": message(b"Z", b"T"),
    "one ReadyForQuery too many": message(b"Z", b"I"),
    "an error": fatal("57P01", "terminating connection due to administrator command"),
    "a notice": message(b"N", b"SNOTICE\0C00000\0Mhello\0\0"),
    "another command's tag": message(b"C", b"SELECT 1\0"),
    "an HTTP answer": b"HTTP/1.1 400 Bad Request\r\n\r\n",
}


# ---- the server

Case = collections.namedtuple("Case", "group name part pieces ends")


class Server(Listener):
    """Plays the recorded conversation on each connection; on the first one of a start key that has a case, with its fault."""

    def __init__(self):
        self.lock, self.open, self.cases, self.counts, self.faults = threading.Lock(), 0, {}, collections.Counter(), []
        super().__init__(backlog=512)

    def serve(self, it):
        with self.lock:
            self.open += 1
        try:
            self.converse(it)
        except OSError:
            pass
        it.close()
        with self.lock:
            self.open -= 1

    def converse(self, it):
        """Each client's statements, and the reset before the next one's."""
        first = packet(it, 0)
        texts = first[8:].split(b"\0")
        row, name = texts[3:6:2] if len(texts) == 8 else (b"", b"")
        if first != startup("ann", row.decode(), application_name=name.decode()):
            self.faults.append(first)
            return
        with self.lock:
            self.counts[name] += 1
            case = self.cases.pop(name, None)
        if case and case.part == QUESTION and not self.is_answered(it, case):
            return
        wanted = [*ASKED, RESET]
        number = IN_START
        while self.say(it, number, case):
            case = case if case and case.part > number else None
            said = packet(it, 1)
            if said in (b"", TERMINATE):
                return
            if said != wanted[number % len(wanted)]:
                self.faults.append(said)
                return
            number = 1 + wanted.index(said)

    def is_answered(self, it, case):
        """Asks for ann's password, or for its digest; whether it is given."""
        if not self.say(it, QUESTION, case):
            return False
        asked, (password, _) = text_of(case), USERS["ann"]
        answer = password if asked == ASKS_PASSWORD else md5_answer("ann", password, asked[-4:])
        said = packet(it, 1)
        if said != message(b"p", answer.encode() + b"\0"):
            self.faults.append(said)
            return False
        return True

    def say(self, it, number, case):
        """Says a part of the conversation; whether it goes on then."""
        if case is None or case.part != number:
            it.sendall(PARTS[number])
            return True
        for piece in case.pieces:
            if isinstance(piece, float):
                time.sleep(piece)
            else:
                it.sendall(piece)
        if case.ends == CUT_OFF:
            it.setsockopt(socket.SOL_SOCKET, socket.SO_LINGER, struct.pack("ii", 1, 0))
        if case.ends == SILENT:
            it.recv(1)
        return case.ends is None


# ---- the cases

def cases_of(number):
    """What is wrong, or cut, in this part of a conversation."""
    data, name = PARTS[number], NAMES[number]
    for size in range(len(data) + 1):
        for end in (CLOSED, CUT_OFF):
            yield Case(f"{name}: {end} after 0 to {len(data)} bytes", f"{size} bytes", number, [data[:size]], end)
    for size in range(len(data)):
        if number not in (IN_START, IN_RESET):
            yield Case(f"{name}: {SILENT} after 0 to {len(data) - 1} bytes", f"{size} bytes", number, [data[:size]], SILENT)
        for byte in (b"\0", b"\xff"):
            if data[size:size + 1] != byte:
                yield Case(f"{name}: each byte {byte.hex()}", f"byte {size}", number, [data[:size] + byte + data[size + 1:]], None)
    for size in range(1, len(data)):
        yield Case(f"{name}: cut in two at each byte", f"byte {size}", number, [data[:size], REST, data[size:]], None)
    pieces = [piece for at in range(len(data)) for piece in (data[at:at + 1], REST / 10)]
    yield Case(f"{name}: byte by byte", "", number, pieces, None)
    if number == IN_START:
        # more bytes than a start has turns to wait for
        long = data[:borders(data)[1]] + LONG_NOTICE * 4 + data[borders(data)[1]:]
        yield Case(f"{name}: {len(long)} bytes, byte by byte", "", number,
                   [piece for at in range(len(long)) for piece in (long[at:at + 1], REST / 10)], None)
    for border in borders(data):
        for kind, frame in STRANGE.items():
            group = f"{name}: {len(STRANGE)} strange messages at {len(borders(data))} borders"
            yield Case(group, f"{kind} at {border}", number, [data[:border] + frame + data[border:]], None)
            if frame[:1] == b"R" and number == IN_START:
                # a server that asks a question may wait for its answer, or not
                yield Case(group, f"{kind} at {border}, with nothing behind it", number, [data[:border] + frame], None)


def question_cases():
    """A start that begins with a question: at each byte the server closes the connection, says 00 or ff, or rests."""
    for name, data in (("for a password", ASKS_PASSWORD), ("for its digest", ASKS_DIGEST)):
        group = f"a question {name}: closed, wrong or cut at each byte"
        for at in range(len(data)):
            yield Case(group, f"closed after {at}", QUESTION, [data[:at]], CLOSED)
            yield Case(group, f"cut after {at}", QUESTION, [data[:at], REST, data[at:]], None)
            for byte in (b"\0", b"\xff"):
                wrong = data[:at] + byte + data[at + 1:]
                yield Case(group, f"byte {at} as {byte.hex()}", QUESTION, [wrong], None if is_question(wrong) else CLOSED)
        yield Case(group, "closed behind it", QUESTION, [data], CLOSED)


def is_question(data):
    return data == ASKS_PASSWORD or data[:-4] == ASKS_DIGEST[:-4]


def long_cases():
    """Answers with long messages among the others, by chance: cut in some places, and whole, with a byte of chance, or at their end
    early."""
    chance = random.Random(SEED)
    for number in range(LONG):
        part = chance.randrange(IN_START + 1, IN_RESET)
        border = chance.choice(borders(PARTS[part])[:-1])
        more = [status(b"TimeZone", b"v" * chance.choice(VALUES)) for _ in range(chance.randrange(2))]
        more += [message(chance.choice([b"D", b"N", b"A"]), chance.randbytes(chance.choice(BODIES)))
                 for _ in range(chance.choice([1, 3, 8]))]
        chance.shuffle(more)
        data = PARTS[part][:border] + b"".join(more) + PARTS[part][border:]
        at, way = chance.randrange(len(data)), chance.choice(["whole", "a byte of chance", CLOSED])
        if way == CLOSED:
            data = data[:at]
        elif way != "whole":
            data = data[:at] + chance.randbytes(1) + data[at + 1:]
        cuts = sorted(chance.randrange(len(data) + 1) for _ in range(chance.choice([0, 1, 3, 8])))
        pieces = [piece for start, end in zip([0, *cuts], [*cuts, len(data)]) for piece in (data[start:end], REST)]
        yield Case(f"{LONG} answers with long messages", f"number {number}, {way} {at}", part, pieces, CLOSED if way == CLOSED else None)


def silent_cases():
    """Those of starts and resets that are given up only after a minute."""
    for number in (IN_START, IN_RESET):
        data = PARTS[number]
        for size in range(len(data)):
            yield Case(f"{NAMES[number]}: {SILENT} after 0 to {len(data) - 1} bytes", f"{size} bytes", number, [data[:size]], SILENT)


def text_of(case):
    """What is said in it."""
    return b"".join(piece for piece in case.pieces if isinstance(piece, bytes))


def said_in(case):
    """The parts of the conversation as they are said in this case. A question that isn't one is followed by nothing."""
    said = [*PARTS]
    if case.part != QUESTION:
        said[case.part] = text_of(case)
    elif case.ends:
        said[IN_START] = b""
    return said


def ended(case):
    """The case; where the other side would wait for more of a start or a reset, the server closes the connection."""
    said = said_in(case)
    waits = started(said[IN_START]) == MORE if case.part == IN_START else is_clean(said[IN_RESET], dict(REPORTS), REPORTS) == MORE
    return case._replace(ends=CLOSED) if case.ends is None and case.part in (IN_START, IN_RESET) and waits else case


REPORTS = started(STARTED)
RIGHT = Wanted(PARTS, None)


# ---- the clients

def received(it, size):
    """So many bytes, or all that come before the connection is closed."""
    got = b""
    try:
        while len(got) < size and (piece := it.recv(min(65536, size - len(got)))):
            got += piece
    except ConnectionResetError:
        pass
    return got


class Bystander(threading.Thread):
    """A client of another server, that asks and asks."""

    def __init__(self, port, user):
        super().__init__(daemon=True)
        self.client, self.asked, self.longest, self.fault, self.ends = Client(port, user, "shop"), 0, 0.0, "", threading.Event()
        self.start()

    def run(self):
        try:
            while not self.ends.is_set():
                began = time.monotonic()
                rows = self.client.ask("SELECT name FROM city")
                self.longest = max(self.longest, time.monotonic() - began)
                if rows != [["Bern"], ["Oslo"], ["Nuuk"]]:
                    self.fault = f"{rows}"
                    return
                self.asked += 1
                time.sleep(0.01)
            self.client.leave()
        except (Cut, Refused, OSError) as error:
            self.fault = repr(error)


def compared(given, wanted, stages):
    """What is wrong with what a client was given, but for its key word, which is its own."""
    whole, key = wanted.given[stages - 1], wanted.key
    if given[key] == SERVER_KEY:
        return "it has the server's key word"
    return differs(given[:key.start] + whole[key][:max(0, len(given) - key.start)] + given[key.stop:], whole)


class FaultyServers(Show):
    def __init__(self, program):
        super().__init__(program, "faulty servers", "nobody")
        self.lock, self.number, self.groups = threading.Lock(), 0, collections.defaultdict(list)

    def given(self, row, name, wanted, stages, seconds=SECONDS):
        """What a client is given that says its statements, each once it has all of the answer before, and leaves."""
        got = b""
        with socket.create_connection((HERE, self.pooler.port), seconds) as it:
            try:
                for asked, total in zip([startup("ann", row, application_name=name), *ASKED], wanted.given[:stages]):
                    it.sendall(asked)
                    got += received(it, len(total) - len(got))
                    if len(got) < len(total):
                        return got
                if not wanted.is_over or len(wanted.given) > stages:
                    it.sendall(TERMINATE)
            except (BrokenPipeError, ConnectionResetError):
                pass
            return got + received(it, 1 << 20)

    def differs(self, row, name, wanted, stages=None, seconds=SECONDS):
        """What is wrong with what a client is given, but for its key word, which is its own."""
        stages = stages or len(wanted.given)
        return compared(self.given(row, name, wanted, stages, seconds), wanted, stages)

    def fault(self, case, row, seconds=SECONDS):
        """What is wrong with a case."""
        with self.lock:
            self.number += 1
            name = f"case{self.number}"
        case, said = ended(case), said_in(case)
        dies = case.part if case.ends in (CLOSED, CUT_OFF) else None
        wanted = Wanted(said, dies)
        stages = min(case.part + 1, len(wanted.given)) if case.ends == SILENT else len(wanted.given)
        if case.ends == SILENT and case.part == IN_START:
            wanted.given = [OK + UNREACHED]
        self.server.cases[name.encode()] = case
        if fault := self.differs(row, name, wanted, stages, seconds):
            return fault
        is_kept = wanted.is_kept and case.ends is None
        if wanted.is_kept and case.part == IN_RESET and case.ends in (CLOSED, CUT_OFF):
            # the link is idle, and its end gone: it is closed, and the client has another; or the client is told so
            given = self.given(row, name, RIGHT, len(RIGHT.given))
            if (fault := compared(given, RIGHT, len(RIGHT.given))) and compared(given, told := Wanted(PARTS, IN_START), len(told.given)):
                return f"behind the link that ended: {fault}"
        if fault := self.differs(row, name, Wanted([said[IN_START], *PARTS[1:]], None) if is_kept else RIGHT):
            return f"the next client: {fault}"
        counted, connections = self.server.counts[name.encode()], 1 if is_kept else 2
        return "" if counted == connections else f"{counted} connections for {connections}"

    def played(self, case, row, seconds=SECONDS):
        try:
            fault = self.fault(case, row, seconds)
        except OSError as error:
            fault = repr(error)
        with self.lock:
            self.groups[case.group].append(f"{case.name}: {fault}" if fault else "")

    def given_up(self, case, row):
        """A case that the pooler gives up after a while."""
        began = time.monotonic()
        self.played(case, row, 2 * GIVEN_UP[1])
        return time.monotonic() - began

    def sweep(self, cases):
        """All cases, over as many pools as there are lanes."""
        cases = iter(cases)

        def lane(number):
            while True:
                with self.lock:
                    case = next(cases, None)
                if case is None:
                    return
                self.played(case, f"lane{number}")

        with ThreadPoolExecutor(LANES) as pool:
            list(pool.map(lane, range(LANES)))

    def all(self):
        self.server, self.cluster = Server(), Stub(self.place, self.program, pathlib.Path(CATALOGUE).read_bytes())
        silent = list(silent_cases())
        rows = [f"lane{number}" for number in range(LANES)] + [f"silent{number}" for number in range(len(silent))]
        clients = len(rows) + 3
        self.begin(size=1, clients=clients, more={row: self.server.port for row in rows})
        files = self.files_at_rest()
        bystanders = [Bystander(self.pooler.port, user) for user in ("ann", "bc")]
        began = time.monotonic()
        with ThreadPoolExecutor(len(silent)) as pool:
            waiting = [pool.submit(self.given_up, case, f"silent{number}") for number, case in enumerate(silent)]
            self.sweep(case for cases in (question_cases(), *map(cases_of, range(len(PARTS))), long_cases()) for case in cases)
            print(f"       swept in {time.monotonic() - began:.0f} s")
            times = [it.result() for it in waiting]
        for group, faults in self.groups.items():
            failed = [fault for fault in faults if fault]
            self.passes.tell(f"{group}: {len(faults)} cases", f"{len(failed)} failed, as {failed[:3]}" if failed else "")
        self.passes.holds(f"{len(silent)} that fall silent are given up after {min(times):.0f} to {max(times):.0f} s",
                          GIVEN_UP[0] < min(times) and max(times) < GIVEN_UP[1])
        for it in bystanders:
            it.ends.set()
            it.join(SECONDS)
        told = ", ".join(f"{it.asked} statements, each within {it.longest:.2f} s" for it in bystanders)
        served = all(it.asked and it.longest < SLOWEST for it in bystanders)
        self.passes.holds(f"two clients of another server are served meanwhile: {told}", served and not any(it.fault for it in bystanders),
                          f"{[it.fault for it in bystanders]}")
        self.passes.same("each server was sent starts, statements and resets in their order", self.server.faults[:3], [])
        print(f"       {sum(map(len, self.groups.values()))} cases; {self.pooler.used():.0f} s of the pooler, {time.process_time():.0f} s "
              f"of the script")
        self.left(clients, files)

    def files_at_rest(self):
        """How many files the pooler has open once a client has come and gone."""
        Client(self.pooler.port, "root", "pgbouncer").leave()
        until(lambda: self.pooler.threads() <= MAX_THREADS, 25)
        counts = [0, -1]

        def is_steady():
            counts.append(self.pooler.files())
            time.sleep(0.2)
            return counts[-1] == counts[-2]

        until(is_steady, 5)
        return counts[-1]

    def left(self, clients, files):
        """Nothing is lost: each link is idle or closed, and as many clients find a place as may be there."""
        console = Client(self.pooler.port, "root", "pgbouncer")

        def figures():
            return [[int(it) for it in row[2:6]] for row in console.ask("SHOW POOLS")]

        is_idle = until(lambda: all(row[:3] == [0, 0, 0] for row in figures()), 10)
        idle = sum(row[3] for row in figures())
        self.passes.holds("each link is idle", is_idle, f"{[row for row in figures() if row[:3] != [0, 0, 0]][:3]}")
        states = [row[1] for row in console.ask("SHOW CLIENTS")]
        self.passes.same("nobody is there but who asks", states, ["login"])
        console.leave()
        # the two of the other server are idle as well
        self.passes.holds("each other connection to a server is closed", until(lambda: self.server.open == idle - 2, 10),
                          f"{self.server.open} for {idle - 2}")
        clients_came = sum(map(len, self.groups.values()))
        maps = self.pooler.maps()
        self.passes.holds(f"the memory of {clients_came} cases' threads is given back: {maps} parts of it", maps < MAX_MAPS < clients_came,
                          f"{maps} parts")
        self.passes.holds("no file is left open", until(lambda: self.pooler.files() == files + idle, 10),
                          f"{self.pooler.files()} for {files + idle}")
        self.passes.holds("no thread has more than one poll", self.pooler.has_its_polls(), f"{self.pooler.threads()} threads")
        all_of_them = [Client(self.pooler.port, "root", "pgbouncer") for _ in range(clients)]
        try:
            # one that may not use the console's own places
            Client(self.pooler.port, "ann", "pgbouncer")
            refused = "none"
        except Refused as error:
            refused = error.code
        self.passes.same(f"as many as may be there, {clients}, find a place, and no more", refused, "53300")
        for client in all_of_them:
            client.leave()
        self.passes.tell("the pooler ends by SHUTDOWN: who arrived left, and each link that was lent came back or was lost",
                         self.pooler.shut())
        self.pooler.stop()


if __name__ == "__main__":
    play(FaultyServers, has_server=False)
