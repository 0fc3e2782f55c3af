#!/usr/bin/env python3
"""Runs a command that proves crates, as `rt ci`, and tells once it has ended what each crate took of processor time, slowest first.

Usage: times.py COMMAND [WORD..]

The command writes where this program would, so its lines come as it writes them; its status is this one's. Once a second the processes
below it are looked at: the prover's name their crate. What one takes behind the last look is told in the system's count alone.
"""
import collections
import contextlib
import os
import pathlib
import resource
import signal
import subprocess
import sys

TICKS = os.sysconf("SC_CLK_TCK")


def processes():
    """Each process's parent, its seconds of processor time, and when it began."""
    found = {}
    for name in filter(str.isdigit, os.listdir("/proc")):
        with contextlib.suppress(OSError):
            fields = pathlib.Path(f"/proc/{name}/stat").read_text(errors="replace").rpartition(")")[2].split()
            found[int(name)] = int(fields[1]), (int(fields[11]) + int(fields[12])) / TICKS, fields[19]
    return found


def below(top, every):
    """The processes below this one."""
    children = {pid for pid, it in every.items() if it[0] == top}
    return children.union(*(below(it, every) for it in children))


def work_of(pid):
    """Which crate a process proves, and what of it; nothing of the others."""
    with contextlib.suppress(OSError):
        words = pathlib.Path(f"/proc/{pid}/cmdline").read_text(errors="replace").split("\0")
        if "--crate-name" in words:
            kind = "edits" if "/rt-edit" in os.readlink(f"/proc/{pid}/cwd") else "tests" if "--test" in words else "proof"
            return words[words.index("--crate-name") + 1], kind
    return None


def look(top, seen):
    """Notes what the processes below this one are at, and what each has taken so far."""
    every = processes()
    for pid in below(top, every):
        _, seconds, began = every[pid]
        work = seen[pid, began][0] if (pid, began) in seen else None
        seen[pid, began] = work or work_of(pid), seconds


def tell(seen, counted):
    crates = collections.defaultdict(collections.Counter)
    for (name, kind), seconds in (it for it in seen.values() if it[0]):
        crates[name][kind] += seconds
    for name, kinds in sorted(crates.items(), key=lambda it: -it[1].total()):
        print(f"{kinds.total():8,.0f} s  {name:18}", ", ".join(f"{it} {kinds[it]:,.0f}" for it in sorted(kinds)))
    proving = sum(it.total() for it in crates.values())
    print(f"{proving:8,.0f} s of processor time proved {len(crates)} crates; {counted:,.0f} s with all else", flush=True)


def main(words):
    child, seen, status = subprocess.Popen(words, env={**os.environ, "PYTHONUNBUFFERED": "1"}), {}, None
    # a terminal's Ctrl-C reaches the command itself, which clears up
    signal.signal(signal.SIGINT, lambda *_: None)
    signal.signal(signal.SIGTERM, lambda *_: child.terminate())
    while status is None:
        look(child.pid, seen)
        with contextlib.suppress(subprocess.TimeoutExpired):
            status = child.wait(1)
    tell(seen, sum(resource.getrusage(resource.RUSAGE_CHILDREN)[:2]))
    return status if status >= 0 else 128 - status


if __name__ == "__main__":
    sys.exit(main(sys.argv[1:]) if sys.argv[1:] else __doc__)
