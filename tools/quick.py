#!/usr/bin/env python3
"""Tries all that can be tried before a proof: the layout of the files, the scripts by lint.sh, what is said of the settings by settings.py,
what wrong versions quote, what crates.txt says that crates use, and every crate of tests by `rt try`.

Usage: quick.py [CRATE..]      crates of tests; none: all of them

It proves nothing: a call that breaks a `requires` may pass. As many crates are tried side by side as tools/jobs.sh says, with a line for
each; of one that fails, the end of what was said. The status is 1 where anything fails.
"""
import concurrent.futures
import pathlib
import shutil
import subprocess
import sys
import tempfile
import time

import crates

SHOWN = 15


def layout(names):
    """The files that `rt fmt` would change: it works on a copy."""
    with tempfile.TemporaryDirectory(prefix="pgsess-layout-") as folder:
        for name in names:
            for part in crates.PARTS:
                if (crates.ROOT / "crates" / name / part).is_dir():
                    shutil.copytree(crates.ROOT / "crates" / name / part, pathlib.Path(folder) / part / name)
        ran = subprocess.run(["rt", "fmt"], cwd=folder, stdout=subprocess.PIPE, stderr=subprocess.STDOUT, text=True, errors="replace")
    return ran.returncode == 0 and "formatted" not in ran.stdout, ran.stdout


def named(listed):
    """Whether each crate's files name all that its line of crates.txt does."""
    lacking = {name: crates.in_vain(name, listed) for name in listed if (crates.ROOT / "crates" / name).is_dir()}
    said = [f"{name} lists {' '.join(names)}, which no file of it names" for name, names in lacking.items() if names]
    return not said, "\n".join(said)


def is_content(tool, *words):
    """Whether a tool finds no fault: lint.sh in the scripts, settings.py in what is said of the settings, wrong.py in what wrong versions
    quote."""
    ran = subprocess.run([crates.ROOT / "tools" / tool, *words], stdout=subprocess.PIPE, stderr=subprocess.STDOUT, text=True,
                         errors="replace")
    return ran.returncode == 0, ran.stdout


def tested(name):
    """Whether a crate's tests pass unproved."""
    ran = subprocess.run(["rt", "try", "--test"], cwd=crates.ROOT / "crates" / name, stdin=subprocess.DEVNULL, stdout=subprocess.PIPE,
                         stderr=subprocess.STDOUT, text=True, errors="replace")
    return ran.returncode == 0, ran.stdout


def main(names):
    listed = crates.listed()
    lacking = [it for it in names if it not in listed]
    if lacking:
        sys.exit(f"quick: crates.txt has no crate {' '.join(lacking)}")
    tests = names or [it for it in listed if it.endswith("_tests")]
    jobs = int(subprocess.run([crates.ROOT / "tools/jobs.sh"], stdout=subprocess.PIPE, text=True, check=True).stdout)
    failed, began = [], time.monotonic()
    print(f"the layout of {len(listed)} crates, the scripts, and {len(tests)} crates of tests UNPROVED, {jobs} at a time", flush=True)
    with concurrent.futures.ThreadPoolExecutor(jobs) as pool:
        runs = {pool.submit(layout, listed): "the layout (rt fmt)", pool.submit(is_content, "lint.sh"): "the scripts (lint.sh)",
                pool.submit(is_content, "settings.py"): "the settings (settings.py)",
                pool.submit(is_content, "wrong.py", "--fits"): "what wrong versions quote (wrong.py)",
                pool.submit(named, listed): "what crates use (crates.txt)", **{pool.submit(tested, it): it for it in tests}}
        for number, run in enumerate(concurrent.futures.as_completed(runs), 1):
            passed, said = run.result()
            print(f"{time.monotonic() - began:5.0f} s  {number} of {len(runs)}: {runs[run]} {'ok' if passed else 'FAILED'}", flush=True)
            if not passed:
                failed.append(runs[run])
                print(*said.splitlines()[-SHOWN:], sep="\n", flush=True)
    print(f"quick: {len(runs) - len(failed)} passed, {len(failed)} failed; nothing is proved", flush=True)
    return 1 if failed else 0


if __name__ == "__main__":
    sys.exit(main(sys.argv[1:]))
