"""The table of the settings, crates/ini_config/settings.toml, and the defaults that it names."""
import collections
import itertools
import pathlib
import re
import sys
import tomllib

TOP = pathlib.Path(__file__).resolve().parents[1]
TABLE = "crates/ini_config/settings.toml"

# what the table may say of a setting, beside the words of kinds
WORDS = set("""name kind default choices getter note limit bounded first tried wrong_reader at_start shown shown_behind own pgbouncer
unlike silences meaning zero example proposed comment arm begins_line""".split())

# what most numbers are: of them `pgsess check` needn't say what they take
MAX_NUMBERS = (0, 2 ** 31 - 1)


class Setting:
    """What the table says of a setting, or else of its kind, or what is usual; None where nobody says anything."""

    def __init__(self, row, kinds, bounds):
        kind = kinds[row["kind"]]
        said = {**kinds.get(kind.get("like"), {}), **kind, **row}
        choices = said.get("choices", {})
        usual = {
            "Name": row["name"].title().replace("_", ""), "held": "", "given": "{held}", "word": "{letter}", "kept": "{word}",
            "told": "{held}", "body": "self.{name}", "equals": "self.now.{name}", "letter": "n", "proof_letter": "n", "changed": "{letter}",
            "low": bounds.get(said.get("least"), said.get("least")), "high": bounds.get(said.get("most"), said.get("most")),
            "values": ", ".join(f"`{it}`" for it in choices), "takes": ", ".join(choices),
        }
        self.said = {**usual, **said}
        self.said = {key: self.filled(word) for key, word in self.said.items()}

    def filled(self, word):
        """A text in one line, with other words in the place of their names in braces."""
        if not isinstance(word, str):
            return word
        while re.search(r"\{\w+\}", word):
            word = word.format(**self.said)
        return " ".join(word.split())

    def needs(self):
        """The words without which nothing is written of it."""
        needs = ["default", "getter", "first", "tried", "meaning", "values"]
        for words, has in (("read means", self.held), ("value cell", self.shown is not False), ("differs", self.at_start),
                           ("within", self.bounded), ("choices", self.kind == "choice")):
            needs += words.split() if has else []
        return needs

    def __getattr__(self, key):
        return self.said.get(key)


class Table:
    """The settings: all, those that are kept in a field, those whose bounds are stated, those that the lease book decides by, and all in
    the order of the pages; and the keys that are read over."""

    def __init__(self):
        said = tomllib.loads((TOP / TABLE).read_text())
        names = [it["name"] for it in said["setting"]]
        if sorted(names) != sorted(said["pages"]):
            sys.exit(f"settings: not once in `pages` and once among the settings: {' '.join(set(names) ^ set(said['pages']))}")
        if unknown := {key for row in said["setting"] for key in row} - WORDS.union(*said["kind"].values()):
            sys.exit(f"settings: words that nothing reads: {' '.join(unknown)}")
        self.bounds, self.over, self.read_over = said["bound"], said["over"], said["read_over"]
        if twice := set(names) & {*self.read_over["any"], *(key for row in self.read_over["at"] for key in row["keys"])}:
            sys.exit(f"settings: served, and read over: {' '.join(twice)}")
        bounds = {it["name"]: it["value"] for it in self.bounds}
        self.all = [Setting(row, said["kind"], bounds) for row in said["setting"]]
        for it in self.all:
            if lacking := [key for key in it.needs() if getattr(it, key) is None]:
                sys.exit(f"settings: {it.name} lacks {' '.join(lacking)}")
        self.kept = [it for it in self.all if it.held]
        self.bounded = [it for it in self.all if it.bounded]
        self.limits = [it for it in self.all if it.limit]
        self.paged = sorted(self.all, key=lambda it: said["pages"].index(it.name))

    def shown(self):
        """Those of which SHOW CONFIG has a row, in its order."""
        rows = [it for it in self.all if it.shown is not False and not it.shown_behind]
        for it in self.all:
            if it.shown_behind:
                rows.insert([row.name for row in rows].index(it.shown_behind) + 1, it)
        return rows

    def unlike(self):
        """The keys whose default isn't PgBouncer's, each with what is said where a file doesn't set it."""
        rows = [(it.name, it.unlike or f"it is {on_page(it)}; PgBouncer's is {it.pgbouncer} then") for it in self.paged if it.pgbouncer]
        rows += [(it["name"], it["unlike"]) for it in self.over]
        return [(name, f"{name} is not set: {words}") for name, words in rows]

    def taking(self, *kinds):
        """What settings of these kinds take, by one name or two, in the order of the kinds."""
        names = collections.defaultdict(list)
        for kind, it in itertools.product(kinds, self.paged):
            if it.kind == kind and it.takes and (it.low, it.high) != MAX_NUMBERS:
                names[it.takes].append(it.name)
        return [(some[at:at + 2], f"takes {takes}") for takes, some in names.items() for at in range(0, len(some), 2)]


def number(n):
    """A number as code has it."""
    return f"{n:_}" if n >= 10_000 else str(n)


def in_code(it):
    """A default as code makes it; None where it is made before."""
    if it.held == "Names":
        return None if it.default else "Names::new(alloc)"
    if it.held == "Text":
        return f'Text::copy(alloc, b"{it.default}")?'
    if it.kind == "mode":
        return f"0o{it.default.lstrip('0')}"
    if it.choices:
        return f"{it.Name}::{it.choices[it.default]}"
    return str(it.default).lower() if it.held == "bool" else number(it.default)


def in_definition(it):
    """A default as the definition has it."""
    if it.held == "Names":
        return " ∷ ".join([*(f'codes "{name}"' for name in it.default), "[]"])
    if it.held == "Text":
        return f'codes "{it.default}"' if it.default else "[]"
    if it.kind == "mode":
        return str(int(it.default, 8))
    return it.choices[it.default] if it.choices else str(it.default).lower()


def on_page(it):
    """A default as a file says it."""
    if it.held == "Names":
        return ", ".join(it.default)
    return str(int(it.default) if it.held == "bool" else it.default)
