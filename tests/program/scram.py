#!/usr/bin/env python3
"""What `scram` and `sasl_prep` answer, by the tool PARTS (scram_parts), beside Python's hashlib, hmac, base64 and stringprep.

Usage: scram.py PARTS             a part, as the gate has it: texts by chance, and the characters of Unicode's first plane
       scram.py PARTS --whole     ten times as many texts, every character, and a PostgreSQL: the verifiers that it makes of passwords
                                  by chance, and logins to it whose every text PARTS made

The plain readers stand in tests/lib/scram_reader.py. What is read is drawn by a seed that
stands below, so each run has the same cases, but for salts and nonces of PostgreSQL.
"""
import base64
import collections
import pathlib
import random
import subprocess
import sys

sys.path.insert(0, str(pathlib.Path(__file__).resolve().parents[1] / "lib"))
from cluster import Cluster, Place, set_up
from passes import words
from scram_reader import (MAX_KEPT, MAX_ROUNDS, another, challenge, digest, exchange, first, initial, keys, last, mac, prepared, salted,
                          verifier)
from wire import ASKS_SASL, CONTINUES, ENDS, MECHANISM, Client, Refused, Strange, message, startup

SEED = 1
SECONDS = 600


# ---- the tool

def hexed(it):
    return it.to_bytes(4, "big").hex() if isinstance(it, int) else it.hex()


def shown(parts):
    """The line of an answer: bytes in hex, numbers in digits."""
    if parts is None or None in parts:
        return " none"
    return "".join(" " + (str(it) if isinstance(it, int) else it.hex()) for it in parts)


class Tool:
    def __init__(self, program):
        self.program = program

    def answers(self, questions):
        """Of each question, its word and its values, the line that it is answered by."""
        lines = "".join(" ".join([word, *map(hexed, values)]) + "\n" for word, *values in questions)
        said = subprocess.run([self.program], input=lines.encode(), stdout=subprocess.PIPE, check=True, timeout=SECONDS)
        found = said.stdout.decode().split("\n")[:-1]
        if len(found) != len(questions):
            sys.exit(f"{len(found)} answers to {len(questions)} questions")
        return found

    def ask(self, word, *values):
        """The answer's parts, as bytes."""
        return [bytes.fromhex(it) for it in self.answers([(word, *values)])[0].split()]


# ---- cases by chance

def data(chance, size):
    return bytes(chance.randrange(256) for _ in range(size))


def printing(chance, size):
    return bytes(chance.randrange(45, 127) for _ in range(size))


def spoiled(chance, text):
    """With no byte changed, put in, left out or cut off, or with one or two."""
    text = bytearray(text)
    for _ in range(chance.choice((0, 0, 1, 1, 2))):
        at, byte = chance.randrange(len(text) + 1), chance.choice(b",=:$nprvsicm0159AZ+/ \x00\x7f\xff!")
        kind = chance.randrange(4)
        if kind == 0:
            text[at:at + 1] = bytes([byte])
        elif kind == 1:
            text[at:at] = bytes([byte])
        elif kind == 2:
            del text[at:at + 1]
        else:
            del text[at:]
    return bytes(text)


def keyed(chance):
    """HMAC, Hi, the keys of a salted password, a nonce, an exchange."""
    key, text = data(chance, chance.choice((0, 1, 31, 32, 55, 63, 64, 65, 66, 100, 200))), data(chance, chance.randrange(300))
    yield ("hmac", key, text), [mac(key, text)]
    password, salt, rounds = data(chance, chance.randrange(100)), data(chance, chance.randrange(1, 65)), chance.choice((1, 2, 3, 10))
    yield ("salted", password, salt, rounds), [salted(password, salt, rounds)]
    under = data(chance, 32)
    yield ("keys", under), keys(under)[1:]
    yield ("nonce", key), [base64.b64encode(digest(key)[:18])]
    own = printing(chance, chance.randrange(1, 100))
    joint = own + printing(chance, chance.randrange(1, 90))
    yield ("exchange", password, salt, rounds, own, joint), exchange(password, salt, rounds, own, joint)


def texts(chance):
    """A verifier, each message that is read, and a frame, most of them spoiled."""
    encoded = {size: base64.b64encode(data(chance, size)) for size in (0, 1, 16, 31, 32, 33, 64, 65)}
    short, long = (encoded[chance.choice(sizes)] for sizes in ((0, 1, 16, 64, 65), (32, 32, 32, 31, 33)))
    text = spoiled(chance, b"%s$%d:%s$%s:%s" % (MECHANISM, chance.choice((1, 4096, 0, MAX_KEPT, MAX_KEPT + 1)), short, long, encoded[32]))
    yield ("verifier", text), verifier(text)
    nonce = printing(chance, chance.choice((0, 1, 24, 127, 128, 129)))
    header = chance.choice((b"n,,", b"y,,", b"p=tls-unique,,", b"n,a=ann,", b"n,"))
    text = spoiled(chance, header + chance.choice((b"n=,", b"n=ann,", b"n=*,", b"m=x,n=,", b"")) + b"r=" + nonce
                   + chance.choice((b"", b",x=1", b",")))
    yield ("first", text), first(text)
    own = printing(chance, 24)
    rounds = chance.choice((0, 1, 4096, MAX_ROUNDS, MAX_ROUNDS + 1, 4_000_000_000))
    text = spoiled(chance, b"r=%s%s,s=%s,i=%d" % (own, printing(chance, chance.choice((0, 1, 24, 168, 169))), short, rounds))
    yield ("challenge", own, text), challenge(own, text)
    joint, header = printing(chance, 48), chance.choice((b"n,,", b"y,,"))
    bound = base64.b64encode(chance.choice((header, b"n,,")))
    text = spoiled(chance, b"c=%s,r=%s%s,p=%s" % (bound, joint, chance.choice((b"", b"", b",x=1")), long))
    yield ("last", header, joint, text), last(header, joint, text)
    name = chance.choice((MECHANISM, MECHANISM, MECHANISM + b"-PLUS", b"SCRAM-SHA-1"))
    size = (len(text) + chance.choice((0, 0, 0, 1, -1))) % 2**32
    body = name + b"\0" + size.to_bytes(4, "big") + text
    yield ("initial", body), initial(body)


# of both directions, digits, spaces, marks, what vanishes, what form KC changes, and what isn't assigned
STRANGE = [0x5d0, 0x627, 0x628, 0x660, 0x301, 0x308, 0x327, 0xad, 0x34f, 0x200b, 0x200d, 0xa0, 0x3000, 0xfb01, 0xaa, 0x2168, 0x212b, 0x221,
           0x1d400, 0xac00, 0x1100, 0x1161, 0xe000, 0x2028, 0x1f600]


def password(chance):
    """A password of some characters, in UTF-8 or nearly so."""
    letters = [chance.randrange(1, 127), chance.randrange(0xa0, 0x250), chance.choice(STRANGE), chance.choice(STRANGE),
               chance.randrange(0x80, 0x30000)]
    text = "".join(chr(it) for it in chance.choices(letters, k=chance.randrange(1, 7)) if not 0xd800 <= it < 0xe000)
    return text.encode() + (data(chance, 1) if chance.random() < 0.05 else b"")


def cases(count, characters):
    """Questions with their answers."""
    chance = random.Random(SEED)
    for _ in range(count):
        yield from keyed(chance)
        yield from texts(chance)
    for _ in range(4 * count):
        text = password(chance)
        yield ("prepared", text), [prepared(text)]
    for it in characters:
        if not 0xd800 <= it < 0xe000:
            # alone, and behind a character that form KC changes, so that a refusal shows
            for text in (chr(it).encode(), ("\u00aa" + chr(it)).encode()):
                yield ("prepared", text), [prepared(text)]
    text, salt = b"pencil", data(chance, 16)
    yield ("salted", text, salt, 4096), [salted(text, salt, 4096)]


def compare(tool, count, characters):
    """How many of each kind, and those that differ."""
    asked, wanted = zip(*cases(count, characters))
    counts, faults = collections.Counter(), []
    for question, parts, found in zip(asked, wanted, tool.answers(asked)):
        counts[question[0]] += 1
        counts["read" if found != " none" else "not read"] += 1
        if found != shown(parts):
            faults.append(f"{question}: {found[:200]} for {shown(parts)[:200]}")
    return counts, faults


# ---- a real server

def logged_in(tool, port, user, own_password, spoils=False):
    """Logs in by texts that the tool makes; the SQLSTATE of the refusal, or "" where the client is let in."""
    client = Client(port)
    try:
        client.send(startup(user, "postgres"))
        question = client.until(b"R")[1]
        if question != ASKS_SASL.to_bytes(4, "big") + MECHANISM + b"\0\0":
            raise Strange(question)
        own = base64.b64encode(random.randbytes(18))
        text = b"n,,n=,r=" + own
        client.send(message(b"p", MECHANISM + b"\0" + len(text).to_bytes(4, "big") + text))
        question = client.until(b"R")[1]
        joint, salt, rounds = tool.answers([("challenge", own, question[4:])])[0].split()
        wanted = tool.ask("exchange", *tool.ask("prepared", own_password), bytes.fromhex(salt), int(rounds), own, bytes.fromhex(joint))
        if [text, question] != [wanted[0], CONTINUES.to_bytes(4, "big") + wanted[1]]:
            raise Strange(question)
        client.send(message(b"p", another(wanted[2]) if spoils else wanted[2]))
        question = client.until(b"R")[1]
        if question != ENDS.to_bytes(4, "big") + wanted[3] or client.until(b"R")[1] != bytes(4):
            raise Strange(question)
        return ""
    except Refused as error:
        return error.code
    finally:
        client.socket.close()


def made(chance):
    """A password that a PostgreSQL in UTF-8 takes."""
    while True:
        try:
            text = password(chance).decode()
        except UnicodeDecodeError:
            continue
        if text and "\0" not in text:
            return text


def with_server(tool, count):
    """A PostgreSQL that asks for SCRAM: its verifiers, and logins to it. What was tried, and what differs."""
    chance, counts, faults = random.Random(SEED), collections.Counter(), []
    set_up()
    with Place() as place:
        cluster = Cluster(place, "password_encryption = 'scram-sha-256'\n")
        for number in range(count):
            text, user = made(chance), f"made{number}"
            quoted = text.replace("'", "''")
            cluster.tell(f"CREATE ROLE {user} LOGIN PASSWORD '{quoted}'", "postgres")
            [[kept]] = cluster.tell(f"SELECT rolpassword FROM pg_authid WHERE rolname = '{user}'", "postgres")
            rounds, salt, stored, server = tool.answers([("verifier", kept.encode())])[0].split()
            [own] = tool.ask("prepared", text.encode())
            found = tool.answers([("keys", *tool.ask("salted", own, bytes.fromhex(salt), int(rounds)))])[0].split()
            counts["changed"] += own != text.encode()
            if found != [stored, server]:
                faults.append(f"{text!a}: {found} for {kept}")
            # the same password in other characters lets in too
            tries = [(text.encode(), False, ""), (own, False, ""), (text.encode() + b"x", False, "28P01"), (text.encode(), True, "28P01")]
            for given, spoils, wanted in tries[:4 if number % 8 == 0 else 1]:
                counts["logins"] += 1
                code = logged_in(tool, cluster.port, user, given, spoils)
                if code != wanted:
                    faults.append(f"{given!r}: {code!r} for {wanted!r}")
        cluster.stop()
    return counts, faults


def main(program, whole):
    tool = Tool(program)
    characters = range(0x80, 0x110000) if whole else range(0x80, 0x10000)
    counts, faults = compare(tool, 3000 if whole else 300, characters)
    kinds = {it: count for it, count in counts.items() if it not in ("read", "not read")}
    print(f"scram: {sum(kinds.values())} answers to {len(kinds)} kinds of questions, {counts['not read']} texts not read; {len(faults)} "
          f"differ")
    if whole:
        tried, more = with_server(tool, 300)
        print(f"scram: 300 verifiers of a PostgreSQL, {tried['changed']} of prepared passwords, {tried['logins']} logins to it; "
              f"{len(more)} differ")
        faults += more
    for fault in faults[:20]:
        print("FAILED", fault)
    return 1 if faults else 0


if __name__ == "__main__":
    program, *more = words(1, further=1)
    if more not in ([], ["--whole"]):
        sys.exit(__doc__)
    sys.exit(main(program, bool(more)))
