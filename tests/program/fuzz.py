#!/usr/bin/env python3
"""Plays conversations by chance through `pgsess serve` with `pgsess stub` behind it, several clients at a time over two links.

Usage: fuzz.py PROGRAM TRIALS [SEED [COUNT]]: those of so many seeds, from SEED on.

Each client sends its conversation (talks.py) in pieces, with and without rests between them. Some are garbled: bytes of a message are
others or missing, or garbage stands between two. Each is given what a session alone answers to the same bytes (`trials solo`), but for its
key word. A client that leaves, or sends what is no message, before it was answered is given a beginning of that, up to the end of a
message, and the refusal if it is refused; and one that is cut off before it has read all any beginning. Where one fails, its seed is told,
and what is left of its conversation once each message is dropped without which it still fails alone.
"""
import pathlib
import random
import sys
import threading
import time
from concurrent.futures import ThreadPoolExecutor

sys.path.insert(0, str(pathlib.Path(__file__).resolve().parents[1] / "lib"))
import frames
from cluster import Place, Pooler, Stub
from passes import seeded
from pieces import Way, is_whole, played, rest_of
from talks import Said, Talk, shrunk
from worked import CATALOGUE, START, alone, refusal

SEED, COUNT = 1, 1_000
# so many of them are garbled
GARBLED = 0.3
CLIENTS, LINKS = 8, 2
ALONE = 5
MAX_TOLD = 3


def garbled(said, chance):
    """Some messages, of which some are garbled."""
    made = [it.data for it in said]
    for _ in range(chance.choice([1, 1, 2, 5])):
        number = chance.randrange(len(made))
        data, at = made[number], chance.randrange(max(1, len(made[number])))
        made[number:number + 1] = chance.choice([
            [data[:at] + chance.randbytes(1) + data[at + 1:]],
            [data[:at] + bytes([data[at] ^ 1 << chance.randrange(8)]) + data[at + 1:]] if data else [data],
            [data[:at] + data[at + 1:]],
            [data[:at] + chance.randbytes(chance.choice([1, 4])) + data[at:]],
            [data, chance.randbytes(chance.choice([1, 5, 40]))],
            [data, data],
        ])
    return [Said(data, None) for data in made]


def talk_of(seed):
    """The conversation of a seed."""
    talk, chance = Talk(seed), random.Random(f"garbled {seed}")
    if chance.random() < GARBLED:
        talk.said = garbled(talk.said, chance)
    return talk


class Fuzz:
    def __init__(self, trials, port):
        self.trials, self.port = trials, port
        self.lock, self.done, self.longest = threading.Lock(), 0, 0.0

    def fault(self, seed, talk):
        data = b"".join(it.data for it in talk.said)
        wanted, fault = alone(self.trials, data)
        if fault:
            return fault
        began = time.monotonic()
        sent = START + data
        fault = played(self.port, sent, wanted, refusal(data), Way(seed, len(sent)), is_whole(data))
        with self.lock:
            self.done += 1
            self.longest = max(self.longest, time.monotonic() - began)
        return fault

    def fails_alone(self, seed, talk):
        return next((fault for _ in range(ALONE) if (fault := self.fault(seed, talk))), "")

    def tell(self, seed, fault):
        print(f"FAILED seed {seed}: {fault}", flush=True)
        talk = talk_of(seed)
        size = len(talk.said)
        if self.fails_alone(seed, talk):
            talk = shrunk(talk, lambda it: self.fails_alone(seed, it))
        data = START + b"".join(it.data for it in talk.said)
        print(f"{len(talk.said)} of its {size} messages: {self.fails_alone(seed, talk) or 'they pass alone'}\n{data.hex()}", flush=True)
        frames.show("client", data)


def main():
    program, trials, seed, count = seeded(SEED, COUNT)
    seeds = range(seed, seed + count)
    with Place("nobody") as place:
        stub = Stub(place, program, pathlib.Path(CATALOGUE).read_bytes())
        pooler = Pooler(place, stub, program, size=LINKS)
        fuzz, began = Fuzz(trials, pooler.port), time.monotonic()
        with ThreadPoolExecutor(CLIENTS) as pool:
            found = list(pool.map(lambda it: (it, fuzz.fault(it, talk_of(it))), seeds))
        failed = [(it, fault) for it, fault in found if fault]
        for it, fault in failed[:MAX_TOLD]:
            fuzz.tell(it, fault)
        left = rest_of(pooler.port)
        if left:
            print(f"FAILED {left}")
        said = [b"".join(part.data for part in talk_of(it).said) for it in seeds]
        print(f"fuzz: {count - len(failed)} passed, {len(failed) + bool(left)} failed (seeds {seed} to {seed + count - 1}; "
              f"{sum(map(bool, map(refusal, said)))} to be refused, {sum(map(is_whole, said))} whole; the longest took {fuzz.longest:.2f} "
              f"s; "
              f"{time.monotonic() - began:.0f} s)")
        pooler.stop()
    sys.exit(bool(failed or left or not count))


if __name__ == "__main__":
    main()
