"""Programs that run with a preloaded library of tests/program which refuses calls, as the numbers of a shared page say."""
import ctypes
import mmap

from cluster import TOP


def library_of(place, source):
    """The library that gcc makes of a file of tests/program."""
    library = place.folder / "refuse.so"
    place.run("gcc", "-O1", "-Wall", "-Wextra", "-shared", "-fPIC", "-o", library, TOP / "tests/program" / source)
    return library


class Page:
    """So many numbers of eight bytes that the library shares."""

    def __init__(self, place, name, count):
        self.file = place.write(name, bytes(mmap.PAGESIZE))
        self.file.chmod(0o666)
        with open(self.file, "r+b") as file:
            self.memory = mmap.mmap(file.fileno(), 8 * count)
        self.words = (ctypes.c_uint64 * count).from_buffer(self.memory)


def preloaded(place, name, library, page, program):
    """A program of that one that runs with the library and this page."""
    script = place.write(f"{name}.sh", f"#!/bin/sh\nLD_PRELOAD={library} REFUSE_PAGE={page.file} exec {program} \"$@\"\n")
    script.chmod(0o755)
    return script
