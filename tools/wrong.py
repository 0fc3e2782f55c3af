#!/usr/bin/env python3
"""Tries the wrong versions of functions that stand in crates/*/wrong/*.edit: the prover must refuse each.

Usage: wrong.py [CRATE..]      all crates with a folder wrong/, or these alone
       wrong.py --fits         proves nothing: tells which edits, also of must-fail/, quote a text that doesn't stand once in its file

An edit has the form of those in must-fail/: a line `file: src/lib.rt`, and then pairs of lines `old: TEXT` and `new: TEXT`, each old
text standing once in that file. `rt ci` checks a crate once for each edit of must-fail/. Here edits of different functions are packed
into one check of a copy of the crate, and each edited function must be refused by its own name: by a goal at its own lines, since what
it calls is known to it by contract alone. Where a function isn't refused so, its edit goes into a second pack, of functions that don't
call one another. Tried alone is an edit that is in no function or in several, that touches a text of another edit, or whose function
only waits for another's proof.

There is one line an edit. It ends in how the contract is missed: `goal false` (values are known at which it doesn't hold), `goal open`
(it can't be shown), or `old proof only` (nothing but a proof written by hand no longer fits, which says little of the contract).
The last line is `N refused, M not refused`; the status is 1 unless M is 0.

The libraries are those that `rt ci` left, where they are newer than their sources; others are built.

RT_JOBS says how many checks run side by side; else tools/jobs.sh does.
"""
import collections
import concurrent.futures
import os
import pathlib
import re
import shutil
import subprocess
import sys
import tempfile
import time

from crates import ROOT, below, inside_of_rt, listed

PARTS = ("src", "specs", "proofs")
# where an item begins: how far in, its name if it is a function, and whether functions stand in it
ITEM = re.compile(
    r"^([ \t]*)(?:pub(?:\([^)]*\))?[ ])?"
    r"(?:(?:const[ ])?(fn)[ ](\w+)|(impl|trait)\b|(?:const|static|struct|enum|mod|use|type|ghost|macro_rules!)\b)",
    re.M,
)

Function = collections.namedtuple("Function", "file name first last full")
Edit = collections.namedtuple("Edit", "crate name pairs fault")


# ---- the functions of a crate

def owner_of(head):
    """The type's or the trait's name in the head of an `impl` or a `trait`."""
    words = re.sub(r"<[^<>]*(?:<[^<>]*>[^<>]*)*>", " ", head)
    named = re.search(r"\bfor\s+(?:&\s*)?(?:'\w+\s+)?(?:mut\s+)?(\w+)", words) or re.search(r"(?:impl|trait)\s+(\w+)", words)
    return named[1] if named else ""


def functions_of(crate, file, text):
    """The functions of a file, each from its comment on to the next item, with a pattern of the name by which rt tells of it."""
    module = re.sub(r"/", "::", re.sub(r"(?:^|/)(?:lib|main|mod)$", "", file.removeprefix("src/").removesuffix(".rt")))
    before = "".join(f"{it}::" for it in [crate, module] if it)
    found, owners, items = [], [], list(ITEM.finditer(text))
    starts = [start_of(text, it.start()) for it in items] + [len(text)]
    for item, first, last in zip(items, starts, starts[1:]):
        depth = len(item[1])
        owners = [it for it in owners if it[0] < depth]
        if item[4]:
            owners.append((depth, owner_of(text[item.start():text.find("{", item.start())])))
        if item[2]:
            holder = rf"{owners[-1][1]}\w*(?:\+\w+)*::" if owners else ""
            own = re.compile(rf"{before}(?:(?:[a-z_0-9]+::)*{holder}{item[3]}|(?:\w+::)*fn::(?:\w+::)*{item[3]}::.*)")
            found.append(Function(file, item[3], first, last, own))
    return found


def start_of(text, at):
    """Where the comments and attributes above an item begin."""
    while at > 0:
        above = text.rfind("\n", 0, at - 1) + 1
        if not text[above:at].strip().startswith(("//", "#[")):
            break
        at = above
    return at


def reaches(functions, texts):
    """By a function's name the names of all functions that it may call, and that these may call, and so on."""
    names = {it.name for it in functions}
    calls = collections.defaultdict(set)
    for it in functions:
        calls[it.name] |= names & set(re.findall(r"\w+", texts[it.file][it.first:it.last]))
    reached = {}
    for name in names:
        seen, left = set(), [name]
        while left:
            for called in calls[left.pop()] - seen:
                seen.add(called)
                left.append(called)
        reached[name] = seen
    return reached


# ---- the edits of a crate

def texts_of(folder):
    """The texts of a crate's files, by their places in it."""
    files = (it for part in PARTS for it in (folder / part).rglob("*") if it.is_file())
    return {str(it.relative_to(folder)): it.read_text(encoding="utf-8") for it in files}


def read_edit(crate, path):
    """An edit's pairs, or why it is none."""
    file, old, pairs = "", "", []
    for line in path.read_text(encoding="utf-8").splitlines():
        if line.startswith("file: "):
            file = line[6:].strip()
        elif line.startswith("old: "):
            old = line[5:]
        elif line.startswith("new:") and file and old:
            pairs.append((file, old, line[4:].removeprefix(" ")))
            old = ""
    return Edit(crate, path.stem, tuple(pairs), "" if pairs else "it has no file with a pair of old and new")


def applied(edit, texts):
    """The texts of the crate's files with the edit made, or why it can't be made."""
    made = dict(texts)
    for file, old, new in edit.pairs:
        if file not in made:
            return None, f"there is no file {file}"
        if made[file].count(old) != 1:
            return None, f"its old text stands in {file} {made[file].count(old)} times"
        made[file] = made[file].replace(old, new)
    return made, ""


def function_of(edit, functions, texts):
    """The one function in which an edit lies, if it does."""
    held = set()
    for file, old, _ in edit.pairs:
        at = texts[file].find(old)
        held.add(next((it for it in functions if it.file == file and it.first <= at < it.last), None))
    return held.pop() if len(held) == 1 else None


def packs_of(edits, owns, is_apart):
    """Packs of edits whose functions are apart. An edit in no one function is alone."""
    packs = []
    for edit in edits:
        own = owns[edit.name]
        others = ([owns[it.name] for it in pack] for pack in packs)
        fits = (pack for pack, held in zip(packs, others) if own and all(it and is_apart(own.name, it.name) for it in held))
        pack = next(fits, None)
        if pack is None:
            packs.append([edit])
        else:
            pack.append(edit)
    return packs


# ---- a check of a copy

def linked(source, target):
    """A file of a built library in the copy: the same file where the file system allows it."""
    try:
        os.link(source, target)
    except OSError:
        shutil.copy2(source, target)


class Copy:
    """A copy of a crate in a small repository of its own, over the built libraries below it."""

    def __init__(self, room, name, crates, rtlib):
        self.name, self.folder = name, room / "crates" / name
        for it in below(name, crates):
            for part in (*PARTS, "out/rlib"):
                self.take(it, room, part, linked)
        for part in (*PARTS, "out/incremental"):
            self.take(name, room, part, shutil.copy2)
        if (ROOT / "HANDLES").exists():
            shutil.copy2(ROOT / "HANDLES", room)
        (room / "crates.txt").write_text("".join(f"{crates[it][1]}\n" for it in [*below(name, crates), name]))
        self.texts = texts_of(self.folder)
        self.functions = [it for file, text in self.texts.items() if file.startswith("src/") for it in functions_of(name, file, text)]
        # the words of `rt check`, which would first sum up all that is below, by each way down to it, before each check
        crate = next(it for it in rtlib.crates_below(str(room)) if it.name == name)
        self.words = [rtlib.RATTLE, "check", *crate.words(["--jobs", "1"]), *rtlib.KEPT]

    @staticmethod
    def take(name, room, part, copy):
        if (ROOT / "crates" / name / part).is_dir():
            shutil.copytree(ROOT / "crates" / name / part, room / "crates" / name / part, copy_function=copy)

    def check(self, texts):
        """What the check of the copy with these texts says."""
        changed = [it for it in texts if texts[it] != self.texts[it]]
        try:
            for file in changed:
                (self.folder / file).write_text(texts[file], encoding="utf-8")
            ran = subprocess.run(self.words, cwd=self.folder, stdin=subprocess.DEVNULL, stdout=subprocess.PIPE, stderr=subprocess.STDOUT,
                                 errors="replace", text=True)
        finally:
            for file in changed:
                (self.folder / file).write_text(self.texts[file], encoding="utf-8")
        return ran.stdout


# ---- what a check says

def is_proved(said):
    return bool(re.search(r"^logic=proved ", said, re.M))


def fault_of(said, files):
    """Why the prover wasn't reached, or couldn't read an edited text, if that is so: then no contract was tried."""
    if not re.search(r"^logic=(not-)?proved\b", said, re.M):
        told = [it for it in said.splitlines() if re.match(r"error|.*: error", it)] or said.splitlines()[-3:] or ["nothing was said"]
        return told[0]
    for line in said.splitlines():
        at = re.match(r"(?:\./)?(\S+?):\d+:\d+: error: (?:(`[^`]*`): )?(.*)", line)
        if at and (at[1] in files or at[1].startswith(("src/", "specs/"))):
            if not at[2] or re.search(r"is not in scope|has no field|is no name|operand is missing|expected the end|cannot continue",
                                      re.sub(r"`[^`]*`", "", at[3])):
                return line
    return ""


def refused_in(said):
    """The full names of the functions that are refused for themselves, and not only because they wait for others."""
    told = re.findall(r"^fn (\S+): (not proved|no proof)(.*)", said, re.M)
    return [name for name, word, more in told if word == "not proved" or not re.match(r": it (calls|passes|waits)", more)]


def reason(said, places):
    """How a contract is missed, by what is said of these lines of files."""
    notes = [it for it in re.finditer(r"^note: (\S+?):(\d+):\d+: it is not proved that.*", said, re.M) if is_at(it, places)]
    if any("allow values at which this goal is false" in it[0] for it in notes):
        return "goal false"
    return "goal open" if notes else "old proof only"


def is_at(note, places):
    return places is None or any(note[1] == file and first <= int(note[2]) <= last for file, first, last in places)


def lines_of(function, crate, texts):
    """The first and the last line of a function in edited texts."""
    text = texts[function.file]
    now = [it for it in functions_of(crate, function.file, text) if it.full.pattern == function.full.pattern]
    return [(it.file, text.count("\n", 0, it.first) + 1, text.count("\n", 0, it.last)) for it in now]


# ---- the work

class Crate:
    """The edits of one crate, and how they end."""

    def __init__(self, name, crates, rtlib):
        self.name, self.crates, self.rtlib = name, crates, rtlib
        paths = sorted((ROOT / "crates" / name / "wrong").glob("*.edit"))
        self.edits = [read_edit(name, it) for it in paths]
        self.refused = self.others = self.checks = 0

    def tell(self, edit, is_refused, why):
        self.refused += is_refused
        self.others += not is_refused
        print(f"{'refused    ' if is_refused else 'NOT REFUSED'} {self.name}/{edit.name}: {why}", flush=True)

    def run(self):
        with tempfile.TemporaryDirectory(prefix="wrong-") as room:
            self.copy = Copy(pathlib.Path(room), self.name, self.crates, self.rtlib)
            self.run_in_copy()

    def run_in_copy(self):
        began = time.monotonic()
        if not is_proved(self.check(self.copy.texts)):
            for edit in self.edits:
                self.tell(edit, False, "the crate isn't proved without it")
            return
        good = []
        for edit in self.edits:
            fault = edit.fault or applied(edit, self.copy.texts)[1]
            if fault:
                self.tell(edit, False, f"it can't be made: {fault}")
            else:
                good.append(edit)
        self.owns = {it.name: function_of(it, self.copy.functions, self.copy.texts) for it in good}
        reached = reaches(self.copy.functions, self.copy.texts)
        left = self.try_packs(good, lambda a, b: a != b, ["goal false", "goal open"])
        left = self.try_packs(left, lambda a, b: a != b and a not in reached[b] and b not in reached[a],
                              ["goal false", "goal open", "old proof only"])
        for edit in left:
            self.try_alone(edit)
        # what the checks keep for one another must not have gone astray
        if not is_proved(self.check(self.copy.texts)):
            self.others += 1
            print(f"NOT REFUSED {self.name}: the crate itself isn't proved over the work that its edits left, so their refusals count for "
                  f"nothing", flush=True)
        seconds = time.monotonic() - began
        print(f"{self.name}: {self.checks} checks in {seconds:.0f} s, {seconds / max(len(good), 1):.1f} s an edit ({time.strftime('%T')})",
              flush=True)

    def check(self, texts):
        self.checks += 1
        return self.copy.check(texts)

    def try_packs(self, edits, is_apart, reasons):
        """Tries edits in packs, and tells of those that are refused by name for one of these reasons. What is left isn't told."""
        packs = packs_of(edits, self.owns, is_apart)
        if packs:
            print(f"{self.name}: {len(edits)} edits in {len(packs)} packs ({time.strftime('%T')})", flush=True)
        return [edit for pack in packs for edit in self.try_pack(pack, reasons)]

    def try_pack(self, pack, reasons):
        """Tries edits in one check. What is left of them isn't told."""
        if len(pack) < 2:
            return pack
        texts, made, left = self.copy.texts, [], []
        for edit in pack:
            more, fault = applied(edit, texts)
            if fault:
                left.append(edit)
            else:
                texts, made = more, [*made, edit]
        said = self.check(texts)
        if fault_of(said, {file for edit in made for file, _, _ in edit.pairs}):
            half = len(made) // 2
            return left + self.try_pack(made[:half], reasons) + self.try_pack(made[half:], reasons)
        names = refused_in(said)
        for edit in made:
            own = self.owns[edit.name]
            why = reason(said, lines_of(own, self.name, texts))
            if why in reasons and any(own.full.fullmatch(it) for it in names):
                self.tell(edit, True, why)
            else:
                left.append(edit)
        return left

    def try_alone(self, edit):
        texts = applied(edit, self.copy.texts)[0]
        said = self.check(texts)
        self.tell_of_one(edit, said, fault_of(said, {file for file, _, _ in edit.pairs}))

    def tell_of_one(self, edit, said, fault):
        if fault:
            self.tell(edit, False, f"no contract was tried: {fault[:200]}")
        elif is_proved(said):
            self.tell(edit, False, "the crate is proved with it")
        else:
            self.tell(edit, True, f"{reason(said, None)} (alone)")


# ---- the libraries below

def made_at(crate):
    """When a library was made, if it was."""
    made = pathlib.Path(crate.rlib) / "format"
    return made.stat().st_mtime if made.exists() else 0


def take_over(rtlib):
    """Lets `rt lib` take the libraries that `rt ci` left. These have no stamp, without which it would build them anew; each gets one
    that is newer than its sources and than the libraries below it."""
    stamps, stamp = {}, rtlib.Crate.stamp

    def stamp_once(crate):
        if crate.name not in stamps:
            stamps[crate.name] = stamp(crate)
        return stamps[crate.name]

    rtlib.Crate.stamp = stamp_once
    taken = set()
    for crate in sorted(rtlib.crates_below(str(ROOT)), key=lambda it: len(it.below())):
        newest = max([os.stat(it).st_mtime for it in rtlib.files_of(crate.folder)] + [made_at(it) for it in crate.deps])
        if made_at(crate) > newest and all(it.name in taken for it in crate.deps):
            taken.add(crate.name)
            pathlib.Path(crate.folder, "out/rlib/stamp").write_text(crate.stamp(), encoding="utf-8")
    return taken


def misfits(crate):
    """Which of a crate's edits can't be made, and why."""
    folder = ROOT / "crates" / crate
    texts = texts_of(folder)
    for path in sorted([*folder.glob("wrong/*.edit"), *folder.glob("must-fail/*.edit")]):
        edit = read_edit(crate, path)
        why = edit.fault or applied(edit, texts)[1]
        if why:
            yield f"{path.relative_to(ROOT)}: {why}"


def fit():
    """Tells of the edits that can't be made."""
    told = [it for crate in listed() for it in misfits(crate)]
    print(*told, f"{len(told)} wrong versions can't be made", sep="\n")
    return 1 if told else 0


def main(names):
    if names == ["--fits"]:
        return fit()
    crates = listed()
    unknown = [it for it in names if it not in crates]
    if unknown:
        sys.exit(f"wrong: crates.txt names no crate {unknown[0]}")
    jobs = int(subprocess.run([ROOT / "tools/jobs.sh"], stdout=subprocess.PIPE, text=True, check=True).stdout)
    rtlib = inside_of_rt("rtlib")
    tried = [Crate(it, crates, rtlib) for it in names or crates]
    tried = [it for it in tried if it.edits]
    taken = take_over(rtlib)
    lower = {deep for it in tried for deep in below(it.name, crates)} - taken
    for name in crates:
        if name in lower and not any(name in below(it, crates) for it in lower):
            print(f"building {name} and what is below it, unless it is built ({time.strftime('%T')})", flush=True)
            ran = subprocess.run(["rt", "lib", "--jobs", str(jobs)], cwd=ROOT / "crates" / name, stdin=subprocess.DEVNULL,
                                 stdout=subprocess.PIPE, stderr=subprocess.STDOUT, errors="replace", text=True)
            if ran.returncode:
                sys.exit(f"{ran.stdout}\nwrong: {name} isn't proved, so nothing was tried")
    tried.sort(key=lambda it: -len(it.edits) * len(below(it.name, crates)))
    with concurrent.futures.ThreadPoolExecutor(jobs) as pool:
        for it in [pool.submit(it.run) for it in tried]:
            it.result()
    refused, others = sum(it.refused for it in tried), sum(it.others for it in tried)
    print(f"{refused} refused, {others} not refused")
    return 1 if others else 0


if __name__ == "__main__":
    sys.exit(main(sys.argv[1:]))
