"""The crates of crates.txt, which stand on which, and what the kit's rt makes of them."""
import importlib.machinery
import importlib.util
import pathlib
import re
import shutil
import sys

ROOT = pathlib.Path(__file__).resolve().parent.parent
PARTS = ("src", "specs", "proofs")


def listed():
    """By a crate's name the crates of the repository that it names in crates.txt, and its line."""
    lines = [it.partition("#")[0].strip() for it in (ROOT / "crates.txt").read_text().splitlines()]
    rows = {it.split(":")[0].split()[0]: it for it in lines if it}
    return {name: ([it for it in row.partition(":")[2].split() if it in rows], row) for name, row in rows.items()}


def in_vain(name, crates):
    """What a crate's line names, of the repository or of the kit, and none of its files does."""
    files = [it for part in PARTS for it in (ROOT / "crates" / name / part).rglob("*.*") if it.suffix in (".rt", ".antt")]
    named = set(re.findall(r"\w+", re.sub(r"(//|-- )[^\n]*", "", "\n".join(it.read_text() for it in files))))
    return [it for it in crates[name][1].partition(":")[2].split() if it not in named]


def below(name, crates):
    """The crates below a crate, lowest first."""
    found = []
    for it in crates[name][0]:
        found += [deeper for deeper in [*below(it, crates), it] if deeper not in found]
    return found


def inside_of_rt(name):
    """A module of the kit that rt is made of: `rtlib`, or `rt` itself."""
    found = shutil.which("rt")
    if not found:
        sys.exit("rt isn't in PATH: install the Rattle kit first (rt version)")
    folder = pathlib.Path(found).resolve().parent
    path = next(it for it in (folder / f"{name}.py", folder / name) if it.exists())
    loader = importlib.machinery.SourceFileLoader(name, str(path))
    module = importlib.util.module_from_spec(importlib.util.spec_from_loader(name, loader))
    sys.modules[name] = module
    sys.path.insert(0, str(folder))
    sys.dont_write_bytecode = True
    loader.exec_module(module)
    return module
