"""The processor time that a program takes for an input, and what it is judged by."""
import os
import pathlib
import subprocess
import tempfile

HERE = pathlib.Path(__file__).resolve().parent


def compiled(work, name):
    """The program that gcc makes of a file of C beside this one, in a folder."""
    made = pathlib.Path(work) / name
    subprocess.run(["gcc", "-O2", "-Wall", "-Wextra", "-o", made, HERE / f"{name}.c"], check=True)
    return str(made)


def seconds(words, data, times):
    """The least processor time of several runs, their output thrown away."""
    best = None
    with tempfile.TemporaryFile() as given, open(os.devnull, "wb") as nowhere:
        given.write(data)
        for _ in range(times):
            given.seek(0)
            child = subprocess.Popen(words, stdin=given, stdout=nowhere)
            _, status, used = os.wait4(child.pid, 0)
            child.returncode = os.waitstatus_to_exitcode(status)
            if child.returncode != 0:
                raise SystemExit(f"{words} ended with status {child.returncode}")
            taken = used.ru_utime + used.ru_stime
            best = taken if best is None else min(best, taken)
    return best


def answer(words, data):
    return subprocess.run(words, input=data, stdout=subprocess.PIPE, check=True).stdout


def judged(name, ratio, most):
    """Says whether a ratio is within its bound."""
    print(f"{name}: {ratio:.2f}, wanted at most {most}: {'met' if ratio <= most else 'MISSED'}")
    return ratio <= most
