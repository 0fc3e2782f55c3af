"""Servers that ask for SCRAM-SHA-256 and play the exchange as their case says, the users of the tests of it, and the cases that are
honest."""
import base64
import collections
import functools
import hashlib
import os
import re
import threading
import time

from asking import UNREACHED
from cluster import USERS
from given import authentication
from listening import Listener
from passes import Show
from plain_reader import IDLE, OK, TAG
from scram_reader import exchange, first, initial, kept, prepared
from wire import ASKS_SASL, CONTINUES, ENDS, MECHANISM, TERMINATE, message, packet, query
from worked import STARTED

SECONDS = 20
REST = 0.001
# by passwords that the server knows too; SASLprep leaves the second as it is, takes a soft hyphen out of the third, and writes its other
# characters as a space and four letters
KNOWN = {"ann": "pencil-of-ann", "ute": "p\u00e4ssw\u00f6rd", "soft": "so\u00adft\u00a0hyphen\u2168\ufb01"}
BEFORE, AFTER, DIGESTED = "before-the-change", "behind-the-change", "only-digested"
AT_SERVER, AT_POOLER = "known-to-the-server", "known-to-the-pooler"
DIGEST = "md5" + hashlib.md5(f"{DIGESTED}bc".encode()).hexdigest()
# a PostgreSQL's rounds, unless it is told others; and those of most servers here, for the sake of the checked builds
USUAL, FEW = 4096, 50
VERIFIED = "kept-as-a-verifier"
OWN_SALT = b"a verifier's own"
VERIFIER = kept(VERIFIED, salt=OWN_SALT, rounds=FEW)
PEOPLE = {
    **{name: (password, password) for name, password in KNOWN.items()},
    "mo": (BEFORE, BEFORE),
    "wanda": (AT_SERVER, AT_POOLER),
    "bc": (DIGESTED, DIGEST),
    "vera": (VERIFIED, VERIFIER),
    "root": ("root-of-the-pooler", "root-of-the-pooler"),
}
# an encryption request's code
SSL, GSS = (80877103).to_bytes(4, "big"), (80877104).to_bytes(4, "big")
LET_IN = [["1"]]
# that of a server which keeps it, as PostgreSQL does
SALT = bytes(range(16))
NOTICE = message(b"N", b"SNOTICE\0C00000\0Mhello\0\0")
ONE = (message(b"T", b"\0\1?column?\0" + bytes(6) + b"\0\0\0\x17\0\4" + b"\xff" * 4 + bytes(2)) + message(b"D", b"\0\1\0\0\0\0011")
       + message(b"C", b"SELECT 1\0") + IDLE)
ANSWERS = {query("SELECT 1"): ONE, query("DISCARD ALL"): TAG + IDLE}


# ---- the exchange

class Talk:
    """One start at a server of a test: what it was sent, and the texts of its exchange."""

    def __init__(self, start, case):
        words = start[8:].split(b"\0")
        self.password = USERS[dict(zip(words[::2], words[1::2]))[b"user"].decode()][0]
        self.rounds, self.salt, self.more = case.rounds, case.salt or os.urandom(16), base64.b64encode(os.urandom(18))
        self.sent, self.rest, self.fault, self.is_over = [], b"", "", threading.Event()

    @property
    def own(self):
        """The client's nonce."""
        return first(initial(self.sent[0][5:])[0])[2]

    @functools.cached_property
    def texts(self):
        """The client's first message, the challenge, the client's last one, and the server's."""
        return exchange(prepared(self.password.encode()), self.salt, self.rounds, self.own, self.own + self.more)[:4]

    def faults(self, count, is_over):
        """What is wrong with what it was sent, which is so many messages, and nothing behind them where it is over."""
        yield self.fault
        if is_over and not self.is_over.wait(SECONDS):
            yield "its connection isn't closed"
        if len(self.sent) != count or self.rest:
            yield f"it was sent {[it.hex() for it in self.sent]}, and {self.rest.hex()!r} behind that, for {count} messages"
        if self.sent:
            nonce = self.sent[0][-24:]
            text = b"n,,n=,r=" + nonce
            wanted = message(b"p", MECHANISM + b"\0" + len(text).to_bytes(4, "big") + text)
            if self.sent[0] != wanted or not re.fullmatch(rb"[!-+\--~]{24}", nonce):
                yield f"the client's first message {self.sent[0]!r}"
        if len(self.sent) > 1 and self.sent[1] != message(b"p", self.texts[2]):
            yield f"the client's last message {self.sent[1]!r} for {self.texts[2]!r}"

    def secrets(self):
        """What the log has no business with."""
        if not self.sent:
            return []
        _, _, last, final = self.texts
        return [self.own, self.more, last.rpartition(b",p=")[2], final[2:]]


# ---- what a server says, of a talk

def question(*names):
    return authentication(ASKS_SASL, b"".join(name + b"\0" for name in names) + b"\0")


def challenge(talk):
    return authentication(CONTINUES, talk.texts[1])


def proof(talk):
    return authentication(ENDS, talk.texts[3])


def end(talk):
    return proof(talk) + STARTED


def challenged(form="r={own}{more},s={salt},i={rounds}", **changes):
    """A challenge of this form, with these in place of what belongs there."""
    def said(talk):
        parts = {"own": talk.own.decode(), "more": talk.more.decode(), "salt": base64.b64encode(talk.salt).decode(), "rounds": talk.rounds,
                 **changes}
        return authentication(CONTINUES, form.format(**parts).encode())
    return said


def proved(change):
    """The end of a start with the server's last text changed so."""
    return lambda talk: authentication(ENDS, change(talk.texts[3])) + STARTED


def between_notices(*parts):
    return [lambda talk, part=part: NOTICE + (part(talk) if callable(part) else part).replace(OK, NOTICE + OK + NOTICE) for part in parts]


# ---- the cases

# Behind each of its parts but the last the server waits for a message. The last is its lie, unless the client is let in.
Case = collections.namedtuple("Case", "parts told why user rounds salt drips", defaults=(UNREACHED, "", "ann", FEW, None, False))

SCRAM = question(MECHANISM)
HONEST = {
    "honest": Case([SCRAM, challenge, end], LET_IN, rounds=USUAL, salt=SALT),
    "the_same_salt_in_fewer_rounds": Case([SCRAM, challenge, end], LET_IN, salt=SALT),
    "the_same_salt_for_another_user": Case([SCRAM, challenge, end], LET_IN, salt=SALT, user="ute"),
    "another_salt_each_time": Case([SCRAM, challenge, end], LET_IN),
    "a_salt_of_one_byte": Case([SCRAM, challenge, end], LET_IN, salt=b"\0"),
    "a_salt_of_64_bytes": Case([SCRAM, challenge, end], LET_IN, salt=bytes(64)),
    "password_in_UTF_8": Case([SCRAM, challenge, end], LET_IN, user="ute"),
    "password_of_strange_characters": Case([SCRAM, challenge, end], LET_IN, user="soft"),
    "first_of_other_mechanisms": Case([question(MECHANISM, b"SCRAM-SHA-1"), challenge, end], LET_IN),
    "with_plus_before": Case([question(MECHANISM + b"-PLUS", MECHANISM), challenge, end], LET_IN),
    "one_round": Case([SCRAM, challenge, end], LET_IN, rounds=1),
    "byte_by_byte": Case([SCRAM, challenge, end], LET_IN, drips=True),
    "notices_between": Case(between_notices(SCRAM, challenge, end), LET_IN),
    "welcome_apart": Case([SCRAM, challenge, lambda talk: proof(talk) + NOTICE + STARTED], LET_IN),
}


# ---- the servers

class Server(Listener):
    """Plays its case on each connection."""

    def __init__(self, case):
        self.case, self.talks = case, []
        super().__init__(backlog=16)

    def serve(self, it):
        start = packet(it, 0)
        while start[4:] in (SSL, GSS):
            it.sendall(b"N")
            start = packet(it, 0)
        talk = Talk(start, self.case)
        self.talks.append(talk)
        try:
            self.converse(it, talk)
        except (BrokenPipeError, ConnectionResetError):
            pass
        except Exception as error:
            talk.fault = f"{error!r} of what it was sent: {talk.sent}"
        it.close()
        talk.is_over.set()

    def converse(self, it, talk):
        *asked, last = self.case.parts
        for part in asked:
            self.say(it, part, talk)
            said = packet(it, 1)
            if not said:
                return
            talk.sent.append(said)
        self.say(it, last, talk)
        if self.case.told == LET_IN:
            self.answer(it, talk)
        else:
            while piece := it.recv(4096):
                talk.rest += piece

    def say(self, it, part, talk):
        text = part(talk) if callable(part) else part
        for piece in [text[at:at + 1] for at in range(len(text))] if self.case.drips else [text]:
            it.sendall(piece)
            if self.case.drips:
                time.sleep(REST)

    @staticmethod
    def answer(it, talk):
        """Answers statements until its client leaves."""
        while (said := packet(it, 1)) in ANSWERS:
            it.sendall(ANSWERS[said])
        if said not in (b"", TERMINATE):
            talk.rest = said


# ---- what shows them

class Told(Show):
    """A show with these users, which keeps all that its poolers say: no secret may be in it."""

    def __init__(self, program, name, people):
        super().__init__(program, name)
        self.said = b""
        USERS.clear()
        USERS.update(people)

    @property
    def log_file(self):
        return self.place.folder / "pgsess.err"

    def ends(self, pooler, name):
        """Ends a pooler, and keeps what it said."""
        fault = pooler.shut() if pooler.runs() else f"it had ended with {pooler.process.returncode}, and said last {self.log()[-600:]!r}"
        self.passes.tell(f"{name}: it ends by SHUTDOWN", fault)
        self.said += pooler.process.stdout.read()
        pooler.stop()
        self.said += self.log_file.read_bytes()
        self.log_file.unlink()
