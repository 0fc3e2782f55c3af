#!/usr/bin/env python3
"""How long each SHOW of the console keeps others from the desk, and from the table of connections, with 1,000 clients and with many, in
front of a stand-in server: the processor's time inside the functions that hold those locks, by the kernel's uprobes, and of several that
hold one the longest. Time in which the console's thread doesn't run isn't counted: it waits for the lock then, which is no hold, or other
processes have its processor. The SHOWs are asked for in turn, so that what else the machine does falls on all alike. It wants root, and a
kernel that has uprobes.

Usage: shows.py PROGRAM [MOST]: MOST clients (9,900: two files each)
"""
import functools
import pathlib
import re
import resource
import statistics
import subprocess
import sys

sys.path.insert(0, str(pathlib.Path(__file__).resolve().parent.parent / "tests/lib"))
from cluster import TOP, Place, Pooler, free_port, is_open, set_up, until
from passes import words
from wire import Client, startup

FEW, MOST, LINKS, ROUNDS = 1_000, 9_900, 40, 51
SHOWS = ("CLIENTS", "SERVERS", "POOLS", "STATS", "LISTS", "ACTIVITY", "DATABASES")
# what holds a lock while it copies what is shown, by symbols: the desk's, and that of the table of connections
COPYING = ("begin_copy", "copy_some", "end_copy", "databases")
HOLDERS = {"desk": ("desk::DeskLinkDesk::view",), "table": tuple(f"watch::Watch::{name}" for name in COPYING)}
TRACING = pathlib.Path("/sys/kernel/tracing")
SECONDS = 120


def said(*words):
    return subprocess.run(words, capture_output=True, check=True, text=True).stdout


class Probes:
    """Marks at the beginning and the end of these functions of a program."""

    def __init__(self, program):
        if not (TRACING / "uprobe_events").exists():
            subprocess.run(["mount", "-t", "tracefs", "none", TRACING], check=True)
        parts = re.findall(r"LOAD\s+(0x\w+)\s+(0x\w+)\s+0x\w+\s+(0x\w+)", said("readelf", "-lW", program))
        self.parts = [tuple(int(it, 16) for it in part) for part in parts]
        self.clear()
        for name, symbol in ((f"{name}{count}", it) for name, symbols in HOLDERS.items() for count, it in enumerate(symbols)):
            at = next(int(line.split()[0], 16) for line in said("nm", program).splitlines() if re.search(symbol, line))
            for kind in "pr":
                # appended by a shell, since Python seeks in what can't be sought
                subprocess.run(["sh", "-c", f"echo '{kind}:shows/{name}_{kind} {program}:{self.place(at):#x}' >> {TRACING}/uprobe_events"],
                               check=True)
        self.switch(1)

    def place(self, at):
        return next(at - memory + file for file, memory, size in self.parts if memory <= at < memory + size)

    def switch(self, on):
        for events in ("shows", "sched/sched_switch"):
            (TRACING / f"events/{events}/enable").write_text(str(on))

    def clear(self):
        self.keep("")
        (TRACING / "uprobe_events").write_text("")

    def keep(self, thread):
        """Of this thread alone is anything traced; of all, where none is named."""
        (TRACING / "set_event_pid").write_text(thread)

    def traced(self, work):
        """What is traced while this is done: the thread, the moment in milliseconds, the event, and what is said of it."""
        (TRACING / "trace").write_text("")
        work()
        lines = re.findall(r"-(\d+)\s+\[\d+\]\s+\S+\s+([\d.]+): (\w+): (.*)", (TRACING / "trace").read_text())
        return [(thread, float(moment) * 1e3, event, rest) for thread, moment, event, rest in lines]

    def thread(self, work):
        """The thread that is in the probed functions while this is done."""
        self.keep("")
        return statistics.mode(thread for thread, _, event, _ in self.traced(work) if event != "sched_switch")

    def holds(self, thread, work):
        """How many milliseconds this thread runs inside each probed function while this is done, for each call of it."""
        found, begun, left, away = {}, {}, None, 0.0
        for _, moment, event, rest in self.traced(work):
            if event == "sched_switch":
                if f"prev_pid={thread} " in rest:
                    left = moment
                elif left is not None:
                    away, left = away + moment - left, None
            elif event.endswith("_p"):
                begun[event[:-2]] = moment - away
            elif event[:-2] in begun:
                found.setdefault(event[:-2], []).append(moment - away - begun.pop(event[:-2]))
        return found

    def times(self, thread, shows):
        """For each of these, the longest hold of each lock, by the medians of what holds it."""
        found = {show: {} for show in shows}
        self.keep(thread)
        for _ in range(ROUNDS):
            for show, work in shows.items():
                for name, it in self.holds(thread, work).items():
                    found[show].setdefault(name, []).extend(it)
        medians = {show: {name: statistics.median(it) for name, it in names.items()} for show, names in found.items()}
        return {show: {lock: max(it for name, it in names.items() if name.rstrip("0123456789") == lock) for lock in HOLDERS}
                for show, names in medians.items()}


class Served:
    """A pool before a stand-in server, with so many clients: some have its links, the others wait for them."""

    def __init__(self, program, count):
        self.place = Place()
        self.port = free_port()
        catalogue = self.place.write("catalogue.tsv", (TOP / "examples/catalogue.tsv").read_bytes())
        self.server = self.place.start(program, "stub", "--port", self.port, "--catalogue", catalogue)
        until(lambda: is_open(self.port))
        self.pooler = Pooler(self.place, self, program, size=LINKS, clients=10_000, wait=0)
        self.clients = [Client(self.pooler.port) for _ in range(count)]
        for it in self.clients:
            it.send(startup("ann", "shop"))
        self.console = Client(self.pooler.port, "root", "pgbouncer", "r")
        self.count = count
        if not until(self.has_all, SECONDS):
            sys.exit(f"{count} clients aren't there in {SECONDS} s")

    def has_all(self):
        return len(self.console.ask("SHOW CLIENTS")) >= self.count

    def end(self):
        self.pooler.process.kill()
        self.server.kill()
        for it in self.clients:
            it.socket.close()
        self.place.end()


def main(program, most=MOST):
    most = int(most)
    set_up()
    resource.setrlimit(resource.RLIMIT_NOFILE, (resource.getrlimit(resource.RLIMIT_NOFILE)[1],) * 2)
    probes, found = Probes(program), {}
    try:
        for count in (FEW, most):
            served = Served(program, count)
            asked = {show: functools.partial(served.console.ask, f"SHOW {show}") for show in SHOWS}
            found[count] = probes.times(probes.thread(asked["CLIENTS"]), asked)
            if not served.has_all():
                sys.exit(f"not all of the {count} clients have stayed")
            served.end()
    finally:
        probes.switch(0)
        probes.clear()
    print(f"{'SHOW':10} " + "  ".join(f"{f'{name}: ms, {FEW}; {most}; times':32}" for name in HOLDERS))
    for show in SHOWS:
        cells = [(found[FEW][show][name], found[most][show][name]) for name in HOLDERS]
        print(f"{show:10} " + "  ".join(f"{f'{few:.2f}; {many:.2f}; {many / few:.1f}':32}" for few, many in cells))
    return 0


if __name__ == "__main__":
    sys.exit(main(*words(1, further=1)))
