#!/usr/bin/env python3
"""The parts that the views of messages read, beside those that a plain reader reads: of the messages of tests/rows and tests/clients and of
some more, of each with each byte of its body set to 00 and to ff, and of each whose body is cut at each length.

Usage: views.py PARTS

The plain reader is written from the manual ("Message Formats") and from what message_view says of its faults: of several the first from
the left, and bytes left over last.
"""
import collections
import pathlib
import subprocess
import sys

sys.path.insert(0, str(pathlib.Path(__file__).resolve().parents[1] / "lib"))
from cluster import TOP
from frames import CODES, PROTOCOL_3_0
from passes import words
from wire import message

SECONDS = 60
# the bytes behind the code of the longest first packet
MAX_STARTUP = 10_000 - 8
# bodies of more bytes are changed and cut at so many of the first and of the last ones alone
FEW = 200


class Fault(Exception):
    """A body that can't be read, by the name of its fault."""


class Body:
    def __init__(self, data):
        self.data = data

    def take(self, size):
        if len(self.data) < size:
            raise Fault("TooShort")
        part, self.data = self.data[:size], self.data[size:]
        return part

    def number(self, size, signed=False):
        return int.from_bytes(self.take(size), "big", signed=signed)

    def text(self):
        part, zero, rest = self.data.partition(b"\0")
        if not zero:
            raise Fault("NoZero")
        self.data = rest
        return part

    def letter(self, letters):
        if self.data[:1] not in letters:
            raise Fault("TooShort")
        return self.take(1)

    def value(self):
        size = self.number(4, True)
        if size < -1:
            raise Fault("BadLength")
        return None if size == -1 else self.take(size)

    def rest(self):
        return self.take(len(self.data))


def many(body, part):
    """A count, and as many parts."""
    count = body.number(2)
    return [count] + [it for _ in range(count) for it in part()]


def codes(body):
    count = body.number(2)
    part = Body(body.take(2 * count))
    return [count] + [part.number(2) for _ in range(count)]


def oids(body):
    count = body.number(2)
    part = Body(body.take(4 * count))
    return [count] + [part.number(4) for _ in range(count)]


def pairs(body):
    found = []
    while name := body.text():
        found += [name, body.text()]
    return found


def fields(body):
    found = []
    while code := body.number(1):
        found += [code, body.text()]
    return found


def column(body):
    return [body.text(), body.number(4), body.number(2), body.number(4), body.number(2, True), body.number(4, True), body.number(2)]


def target(body):
    return [body.letter([b"S", b"P"]), body.text()]


READERS = {
    ("first", b""): pairs,
    ("client", b"Q"): lambda it: [it.text()],
    ("client", b"p"): lambda it: [it.text()],
    ("client", b"P"): lambda it: [it.text(), it.text()] + oids(it),
    ("client", b"B"): lambda it: [it.text(), it.text()] + codes(it) + many(it, lambda: [it.value()]) + codes(it),
    ("client", b"D"): target,
    ("client", b"C"): target,
    ("client", b"E"): lambda it: [it.text(), it.number(4, True)],
    ("server", b"R"): lambda it: [it.number(4), it.rest()],
    ("server", b"S"): lambda it: [it.text(), it.text()],
    ("server", b"K"): lambda it: [it.number(4), it.number(4)],
    ("server", b"Z"): lambda it: [it.letter([b"I", b"T", b"E"])],
    ("server", b"C"): lambda it: [it.text()],
    ("server", b"T"): lambda it: many(it, lambda: column(it)),
    ("server", b"D"): lambda it: many(it, lambda: [it.value()]),
    ("server", b"E"): fields,
    ("server", b"N"): fields,
}


def shown(part):
    if part is None:
        return "null"
    return "x" + part.hex() if isinstance(part, bytes) else str(part)


def line(kind, data):
    """The line of a message with this body."""
    body = Body(data)
    try:
        parts = READERS[kind](body)
        if body.data:
            raise Fault("LeftOver")
    except Fault as fault:
        return f" {fault}"
    return "".join(" " + shown(it) for it in parts) + " ."


# messages that no conversation of the tests has: values of both formats, null and empty ones, types, limits, questions, and the lengths
# of a value next to null, the least and the greatest
MORE = [
    (("client", b"B"), b"p\0s\0\0\2\0\1\0\0\0\3\xff\xff\xff\xff\0\0\0\0\0\0\0\2ab\0\1\0\1"),
    (("client", b"P"), b"s\0SELECT $1\0\0\2\0\0\0\x17\0\0\0\x19"),
    (("client", b"D"), b"Ss\0"),
    (("client", b"D"), b"Pp\0"),
    (("client", b"C"), b"S\0"),
    (("client", b"C"), b"Pp\0"),
    (("client", b"E"), b"p\0\xff\xff\xff\xff"),
    (("client", b"p"), b"secret\0"),
    (("server", b"R"), b"\0\0\0\5salt"),
    (("server", b"R"), b"\0\0\0\nSCRAM-SHA-256\0\0"),
    (("server", b"Z"), b"T"),
    (("server", b"Z"), b"E"),
    (("server", b"D"), b"\0\3\xff\xff\xff\xff\0\0\0\0\0\0\0\2ab"),
    (("server", b"T"), b"\0\2a\0\0\0\0\1\0\2\0\0\0\x19\xff\xff\xff\xff\xff\xff\0\0b\0\0\0\0\0\0\0\0\0\0\x17\0\4\0\0\0\7\0\1"),
    (("server", b"D"), b"\0\1\xff\xff\xff\xfe"),
    (("server", b"D"), b"\0\1\x80\0\0\0"),
    (("server", b"D"), b"\0\1\x7f\xff\xff\xff"),
    (("server", b"N"), b"SNOTICE\0VNOTICE\0C00000\0Mhello\0\0"),
]


def framed(kind, body):
    side, letter = kind
    if side == "first":
        return (8 + len(body)).to_bytes(4, "big") + PROTOCOL_3_0.to_bytes(4, "big") + body
    return message(letter, body)


def behind_first(data):
    """The StartupMessage's body, if there is one, and what follows the first packets."""
    while len(data) >= 8:
        length, code = int.from_bytes(data[:4], "big"), int.from_bytes(data[4:8], "big")
        if not 8 <= length <= len(data):
            break
        packet, data = data[8:length], data[length:]
        if code == PROTOCOL_3_0:
            return [packet], data
        if code not in CODES:
            break
    return [], b""


def frames_of(side, data):
    found = []
    while len(data) >= 5:
        end = 1 + int.from_bytes(data[1:5], "big")
        if not 5 <= end <= len(data):
            break
        found.append(((side, data[:1]), data[5:end]))
        data = data[end:]
    return found


def answers(data):
    """What a server says behind the byte by which it refuses encryption."""
    while data[:1] == b"N" and data[1:2] != b"\0":
        data = data[1:]
    return data


def bodies():
    """The bodies of all messages of the tests that a view reads, each once."""
    found = list(MORE)
    for folder in ("tests/rows", "tests/clients"):
        for file in sorted((TOP / folder).glob("*.in")):
            started, rest = behind_first(file.read_bytes())
            found += [(("first", b""), it) for it in started if len(it) <= MAX_STARTUP] + frames_of("client", rest)
        for file in sorted((TOP / folder).glob("*.out")):
            found += frames_of("server", answers(file.read_bytes()))
    return [it for it in dict.fromkeys(found) if it[0] in READERS]


def changed(body):
    """The body itself; with each byte set to 00 and to ff; and cut at each length."""
    yield body
    places = range(len(body)) if len(body) <= 2 * FEW else [*range(FEW), *range(len(body) - FEW, len(body))]
    for at in places:
        yield body[:at]
        for byte in (b"\0", b"\xff"):
            yield body[:at] + byte + body[at + 1:]


def main(parts):
    cases = collections.defaultdict(list)
    for kind, body in bodies():
        cases[kind[0]] += [(kind, it) for it in dict.fromkeys(changed(body))]
    faults, counts = [], collections.Counter()
    for side, tried in cases.items():
        data = b"".join(framed(*it) for it in tried)
        said = subprocess.run([parts, side], input=data, capture_output=True, timeout=SECONDS)
        lines = said.stdout.decode().splitlines()
        if said.returncode or said.stderr or len(lines) != len(tried):
            faults.append(f"{side}: status {said.returncode}, {said.stderr!r}, {len(lines)} lines for {len(tried)} messages")
        for (kind, body), told in zip(tried, lines):
            wanted = line(kind, body)
            counts[wanted.rsplit(" ", 1)[1]] += 1
            if told != wanted:
                faults.append(f"{kind} {body[:80]!r}: {told} for {wanted}")
    for fault in faults[:20]:
        print("FAILED", fault)
    said = ", ".join(f"{counts[it]} {it}" for it in ("NoZero", "TooShort", "BadLength", "LeftOver"))
    kinds = len({kind for it in cases.values() for kind, _ in it})
    print(f"views: {sum(counts.values())} bodies of {kinds} kinds, {counts['.']} read, {said}; {len(faults)} differ")
    return 1 if faults or min(counts[it] for it in (".", "NoZero", "TooShort", "BadLength", "LeftOver")) == 0 else 0


if __name__ == "__main__":
    sys.exit(main(*words(1)))
