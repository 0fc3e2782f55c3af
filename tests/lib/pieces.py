"""Clients that send what they have to say in pieces, to `pgsess serve` with `pgsess stub` behind it, and what each is to be given."""
import random
import socket
import time

from cluster import HERE, until
from wire import TERMINATE, Client
from worked import KEY, differs

# a client waits for others, but nobody for an event that the system has told already
SECONDS = 8
MAX_REST = 0.003


class Way:
    """How a client sends and reads."""

    def __init__(self, seed, size):
        chance = random.Random(f"way {seed}")
        places = sorted(chance.randrange(size + 1) for _ in range(chance.choice([0, 1, 2, 5, 20])))
        self.borders = list(zip([0, *places], [*places, size]))
        self.rests = [chance.choice([0, 0, chance.random() * MAX_REST]) for _ in self.borders]
        # some are cut off after a share of what they are to be given, or sooner
        self.reads = chance.random() if chance.random() < 0.15 else 1


def receive(it, size):
    """So many bytes, or all that come before the connection is closed."""
    got = b""
    while len(got) < size and (piece := it.recv(min(65536, size - len(got)))):
        got += piece
    return got


def masked(got, wanted):
    """The key word of a client is its own."""
    return got[:KEY.start] + wanted[KEY][:max(0, len(got) - KEY.start)] + got[KEY.stop:]


def borders(answer):
    """Where its messages end."""
    at, found = 0, [0]
    while at < len(answer):
        at += 1 + int.from_bytes(answer[at + 1:at + 5], "big")
        found.append(at)
    return found


def fault_of_front(got, wanted, refused, is_cut):
    """What is wrong with what a client is given that left, was refused or was cut off before it was answered."""
    answer = wanted.removesuffix(refused)
    for border in borders(answer):
        front, last = got[:border], got[border:]
        if answer.startswith(front) and (last in (b"", refused) or is_cut and refused.startswith(last)):
            return ""
    return "" if is_cut and answer.startswith(got) else differs(got, wanted)


def played(port, sent, wanted, refused, way, is_whole):
    """What is wrong with what a client is given that sends this, or nothing; `wanted` ends with what it is refused by, if it is."""
    try:
        with socket.create_connection((HERE, port), SECONDS) as it:
            it.setsockopt(socket.IPPROTO_TCP, socket.TCP_NODELAY, 1)
            for (start, end), rest in zip(way.borders, way.rests):
                it.sendall(sent[start:end])
                time.sleep(rest)
            if way.reads < 1:
                got = receive(it, int(way.reads * len(wanted)))
                return fault_of_front(masked(got, wanted), wanted, refused, True)
            got = receive(it, len(wanted))
            if not is_whole:
                return fault_of_front(masked(got, wanted), wanted, refused, False)
            if got == wanted[:len(got)] or len(got) == len(wanted):
                it.sendall(TERMINATE)
                got += receive(it, 65536)
            return differs(masked(got, wanted), wanted)
    except (TimeoutError, socket.timeout):
        return f"nothing came for {SECONDS} s"
    except (ConnectionResetError, BrokenPipeError):
        # it was refused before all was sent
        return ""


def is_whole(data):
    """Whether its last message is, and none is a Terminate or a fault."""
    while len(data) >= 5:
        length = int.from_bytes(data[1:5], "big")
        if data[:1] not in b"QPBEDCSHFpdcf" or not 4 <= length < 1 << 31 or length + 1 > len(data):
            return False
        data = data[length + 1:]
    return not data


def rest_of(port):
    """What is wrong once all clients have gone: each link is idle, and each was given back or lost."""
    def figures():
        console = Client(port, "root", "pgbouncer")
        rows = console.ask("SHOW POOLS")
        console.leave()
        return [[int(it) for it in row[2:6]] for row in rows]

    idle = until(lambda: all(row[0] == row[1] == row[2] == 0 for row in figures()), 10)
    return "" if idle else f"clients and links are left: {figures()}"
