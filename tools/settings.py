#!/usr/bin/env python3
"""Every setting of pgbouncer.ini stands in one table, crates/ini_config/settings.toml. This compares with it what is said of settings
elsewhere: the code that reads, keeps and shows them, its definitions and proofs, wrong versions of it, tests, and four pages. All of that
is read and proved like what is written by hand; the table spares the writing.

Usage: settings.py             names each file that says something else, with the first such line; the status is 1 then
       settings.py --write     writes these files
       settings.py --list      tells all files that are compared, and the table
"""
import collections
import itertools
import re
import string
import sys
import textwrap

from settings_table import MAX_NUMBERS, TABLE, TOP, Table, in_code, in_definition, number, on_page

# how long a line may be: of code, of a pair in it, of definitions, of the man page and of the example; and a cell of a page's table
CODE, PAIR, DEFINITION, MAN, EXAMPLE, CELL = 100, 60, 140, 78, 118, 300

# What some lines of a file are by the table: those from the one that `path` leads to, or behind it where that one `stays`, up to the next
# line `last`, or without that to the end. A path is beginnings of lines, each of them sought behind the one before.
Block = collections.namedtuple("Block", "file path last lines stays", defaults=[False])


# What the table says within lines that are written by hand: `changed` makes the file's text of what it says there.
Change = collections.namedtuple("Change", "file changed")


# ---- layout

def arm(head, body, pad):
    """An arm of a match, in three lines where it is too long for one."""
    line = f"{pad}{head} => {body},"
    return [line] if len(line) <= CODE else [f"{pad}{head} => {{", f"{pad}    {body}", f"{pad}}}"]


def pair(one, two, pad):
    """A pair of an array, in four lines where it is too long for one."""
    is_short = len(f"{one}, {two}") <= PAIR
    return [f"{pad}({one}, {two}),"] if is_short else [f"{pad}(", f"{pad}    {one},", f"{pad}    {two},", f"{pad}),"]


def array(head, items):
    """An array, in one line where its items are short."""
    items = list(items)
    is_short = len(", ".join(items)) <= PAIR
    return [f"{head} [{', '.join(items)}];"] if is_short else [f"{head} [", *(f"    {it}," for it in items), "];"]


def comment(text, pad=""):
    """A comment of code, if there is anything to say."""
    return [f"{pad}/// {text}"] if text else []


def lines_of(items):
    """The items of a list in a definition, a line each."""
    return [f"    {items[0]}", *(f"    ∷ {it}" for it in items[1:])]


def ended(items):
    """The items, the last with the list's end behind it."""
    return [*items[:-1], f"{items[-1]} ∷ []"]


def under(file, path, last, lines):
    """The lines behind the one that the path leads to."""
    return Block(file, path, last, lines, stays=True)


def joined(lists):
    """The lines of all."""
    return list(itertools.chain.from_iterable(lists))


# ---- keys, and how their values are read

def keys(table):
    """The keys, what their values change, and how these are read."""
    file = "crates/ini_config/src/option_keys.rt"
    yield under(file, ["pub(crate) enum Key {"], "    /// A key of PgBouncer that is read over at its value.",
                [f"    {it.Name}," for it in table.all])
    yield under(file, ["pub(crate) enum Setting<'a> {"], "    Nothing,", [f"    {it.Name}({it.given})," for it in table.kept])
    served = joined(pair(f'"{it.name}"', f"Key::{it.Name}", "    ") for it in table.all)
    yield Block(file, ["static SERVED: "], "];", [f"static SERVED: [(&str, Key); {len(table.all)}] = [", *served])
    consts = ([*comment(it.get("note")), f"const {it['name']}: u32 = {number(it['value'])};", ""] for it in table.bounds)
    yield under(file, ["static SERVED: ", "];"], "/// The key at the name in a table.", ["", *joined(consts)])
    yield under(file, ["pub(crate) fn read_setting", "    match key {"], "    }", joined(readings(table)))


def readings(table):
    """How each setting's value is read: all that aren't kept in one arm, where the first of them stands."""
    fixed, pad = [it for it in table.all if not it.held], " " * 8
    for it in table.all:
        if it.held:
            yield it.arm or arm(f"Key::{it.Name}", f"Some(Setting::{it.Name}({it.read}))", pad)
        elif it is fixed[0]:
            yield arm(" | ".join([*(f"Key::{it.Name}" for it in fixed), "Key::Unused"]), "Some(Setting::Nothing)", pad)


# ---- what is kept of them

def values(table):
    """The fields, what an empty file says, how a value changes them, and the functions that tell them."""
    file = "crates/ini_config/src/option_values.rt"
    yield under(file, ["pub struct Settings {", "    pub rows: Rows,"], "}",
                joined([*comment(it.note, "    "), f"    pub {it.name}: {it.held},"] for it in table.kept))
    yield under(file, ["        let Settings {", "            rows: _,"], "        } = self;",
                [f"            {it.name}: _," for it in table.kept])
    lists = [it for it in reversed(table.kept) if it.held == "Names" and it.default]
    yield under(file, ["    pub fn defaults", "    {"], "        Ok(Settings {",
                [f'        let {it.name} = Names::one(alloc, b"{on_page(it)}")?;' for it in lists])
    yield under(file, ["        Ok(Settings {", "            rows: Rows::new(alloc),"], "        })",
                [f"            {it.name}{f': {in_code(it)}' if in_code(it) else ''}," for it in table.kept])
    yield under(file, ["    pub(crate) fn apply", "        match setting {"], "            Setting::Nothing => {}",
                joined(arm(f"Setting::{it.Name}({it.word})", f"self.{it.name} = {it.kept}", " " * 12) for it in table.kept))
    yield under(file, ["    pub fn untracks", "    }"], "}", joined(map(getter, table.all)))


def getter(it):
    """The function that tells a setting."""
    result = "result.now" if it.told.startswith("&") else "result"
    return ["", *comment(it.getter, "    "), f"    pub fn {it.name}(&self) -> {it.told}", f"        ensures {{ {result} ≡ {it.equals} }}",
            "    {", f"        {it.body}", "    }"]


def definitions(table):
    """The definitions of all these."""
    file = "crates/ini_config/specs/OptionValues.antt"
    yield under(file, ["served ="], "", keys_of_names(table))
    yield under(file, ["unfoldable pub change_of"], "change_of key.Unused text = Some (λ s. s)", [change(it) for it in table.all])
    yield under(file, ["defaults = record {", "  rows = [];"], "}", [f"  {it.name} = {in_definition(it)};" for it in table.kept])
    seen = {it: it.word if it.given.startswith("&") else it.letter for it in table.kept}
    yield under(file, ["abbrev pub changed_by"], "changed_by setting.Nothing s = s",
                [f"changed_by (setting.{it.Name} {seen[it]}) s = record s {{ {it.name} = {it.changed} }}" for it in table.kept])


def keys_of_names(table):
    """The names of the keys with the keys, as many in a line as it takes."""
    lines = []
    for it in table.all:
        item = f'(codes "{it.name}", key.{it.Name})'
        if lines and not it.begins_line and len(f"{lines[-1]} ∷ {item}") <= DEFINITION:
            lines[-1] += f" ∷ {item}"
        else:
            lines.append(f"    ∷ {item}" if lines else f"    {item}")
    return [*lines[:-1], f"{lines[-1]} ∷ []"]


def change(it):
    """What a value makes of the settings."""
    if not it.held:
        return f"change_of key.{it.Name} text = Some (λ s. s)"
    if it.total:
        return f"change_of key.{it.Name} text = Some (λ s. record s {{ {it.name} = {it.means} }})"
    return f"change_of key.{it.Name} text = option_map (λ {it.letter} s. record s {{ {it.name} = {it.letter} }}) ({it.means})"


# ---- their bounds

def bounds(table):
    """Which bounds are stated, and that each value keeps them."""
    within = [f"{it.within} s.{it.name}" for it in table.bounded]
    yield under("crates/ini_config/specs/Bounds.antt", ["pub record AreWithinBounds", "  pub rows"], "",
                [f"  pub {it.name} : {bound}" for it, bound in zip(table.bounded, within)])
    file = "crates/ini_config/proofs/Bounds.antt"
    letters = [it for it in string.ascii_lowercase if it not in "hs"]
    fields = "; ".join(f"{it} = {letter}" for it, letter in zip(["rows", *(it.name for it in table.bounded)], letters))
    rows = "AllByRecursion IsServedRow s.rows"
    yield Block(file, ["made : "], "", [f"made : (s : Settings) → {' → '.join([rows, *within])} → AreWithinBounds s",
                                        f"made s {' '.join(letters[:len(within) + 1])} = record {{ {fields} }}"])
    yield Block(file, ["rows-on s row h k ="], "  where", [f"rows-on s row h k = {made(table, rows='(go s.rows h.rows)')}"])
    yield under(file, ["change-keeps : ", "unfolding change_of"], "change-keeps key.Unused text s h = h",
                [keeps(table, it) for it in table.all])
    between = "".join(f" (between {it.low} {it.default} {it.high} refl refl)" for it in table.bounded)
    yield Block(file, ["defaults-within = "], "", [f"defaults-within = made defaults tt{between}"])


def made(table, rows="h.rows", **others):
    """The bounds of changed settings, by those of the settings before but for these."""
    return " ".join(["made _", rows, *(others.get(it.name, f"h.{it.name}") for it in table.bounded)])


def keeps(table, it):
    """That what a value makes of the settings keeps their bounds."""
    head = f"change-keeps key.{it.Name} text s h ="
    if not it.held:
        return f"{head} h"
    if it.total:
        return f"{head} {made(table)}"
    letter, own = ("a", {it.name: f"(number-within {it.low} {it.high} text a e)"}) if it.bounded else (it.proof_letter, {})
    return f"{head} mapped s _ _ (λ {letter} e. {made(table, **own)})"


# ---- those that the lease book decides by

def limits(table):
    """The limits of a book: their fields, those under the settings, and those of an empty file."""
    code, pages = "crates/book_model/src", "crates/book_model/specs"
    some = table.limits
    yield under(f"{code}/limits.rt", ["pub struct Limits {"], "    /// The database rows, which tell how many links a pool may have.",
                joined([*comment(it.getter, "    "), f"    pub {it.name}: {it.held},"] for it in some))
    yield under(f"{code}/limits.rt", ["impl Drop for Limits {", "        let Limits {"], "            rows: _,",
                [f"            {it.name}: _," for it in some])
    yield under(f"{code}/limits.rt", ["    ghost view = { λ l. record {", "      rows = l.rows;"], "    } };",
                [f"      {it.limit} = l.{it.name};" for it in some])
    yield under(f"{code}/limits.rt", ["    pub fn usual(", "        Limits {"], "            rows,",
                [f"            {it.name}: {in_code(it)}," for it in some])
    yield under(f"{code}/settings.rt", ["    Ok(Limits {"], "        rows: DatabaseRows::new(alloc, rows_of(alloc, settings)?)?,",
                [f"        {it.name}: settings.{it.name}()," for it in some])
    yield under(f"{pages}/Book.antt", ["pub record Limits", "  pub rows : "], "", [f"  pub {it.limit} : ℕ" for it in some])
    yield under(f"{pages}/Limits.antt", ["limits_in s = record {", "  rows = "], "}", [f"  {it.limit} = s.{it.name};" for it in some])
    yield under(f"{pages}/Limits.antt", ["usual rows = record {", "  rows = "], "}",
                [f"  {it.limit} = {in_definition(it)};" for it in some])


# ---- what is shown and said of them

def config(table):
    """SHOW CONFIG."""
    file, shown = "crates/console_core/src/config.rt", table.shown()
    yield Block(file, ["fn settings_of("], "    ensures { map setting_view result ≡ spec.config s.now }",
                [f"fn settings_of(s: &Settings) -> [Setting<'_>; {len(shown)}]"])
    yield under(file, ["fn settings_of(", "    ["], "    ]", joined(pair(f'"{it.name}"', it.value, "        ") for it in shown))
    rows = [f'setting (codes "{it.name}") {it.cell}' for it in shown]
    yield under("crates/console_core/specs/Config.antt", ["config s ="], "", lines_of([*rows, "[]"]))


def notices(table):
    """What `pgsess check` says where a file doesn't set a key whose default isn't PgBouncer's."""
    unlike = table.unlike()
    yield Block("crates/settings_check/src/notices.rt", ["static UNLIKE: "], "];", [
        f"static UNLIKE: [(&str, &str); {len(unlike)}] = [", *joined(pair(f'"{name}"', f'"{said}"', "    ") for name, said in unlike)])
    pairs = [f'(codes "{name}", codes "{said}")' for name, said in unlike]
    yield under("crates/settings_check/specs/Notices.antt", ["unlike ="], "", lines_of(ended(pairs)))


def words(table):
    """What `pgsess check` says of a value that is none."""
    numbers, choices, others = table.taking("port", "count", "number"), table.taking("choice", "mode"), table.taking("addresses", "names")
    most = "takes a number from {} to {}".format(*MAX_NUMBERS)
    yield from chain("numbers_of", numbers, f'b"{most}"', f'codes "{most}"')
    yield from chain("choices_of", choices, "numbers_of(name)", "numbers_of name")
    yield from chain("values_of", others, "choices_of(name)", "choices_of name")


def chain(name, cases, code, definition):
    """A function that tells case by case what a name takes; what code and definition say of all other names stands behind."""
    arms = ([f"    if {is_in_code(names)} {{", f'        return b"{takes}";', "    }"] for names, takes in cases)
    yield under("crates/settings_check/src/words.rt", [f"fn {name}(", "{"], f"    {code}", joined(arms))
    lines = [f'    if {is_in_definition(names)} then codes "{takes}" else (' for names, takes in cases]
    yield under("crates/settings_check/specs/Words.antt", [f"{name} name ="], "",
                [*lines[:-1], lines[-1].removesuffix(" ("), f"    {definition}{')' * (len(cases) - 1)}"])


def is_in_code(names):
    """Whether a name is this one, or one of these two, as code asks."""
    return f'name == b"{names[0]}".as_slice()' if len(names) == 1 else f'is_one_of(name, b"{names[0]}", b"{names[1]}")'


def is_in_definition(names):
    """The same as the definition asks."""
    texts = " ".join(f'(codes "{it}")' for it in names)
    return f"bytes_eq name {texts}" if len(names) == 1 else f"is_one_of name {texts}"


def staying(table):
    """What of them a RELOAD doesn't change: of listeners and keys, and of clients' connections."""
    file = "crates/pool_run/src/staying.rt"
    for which, of in (("listeners", ""), ("clients", " of clients' connections")):
        name, rows = f"of_{which}", [it for it in table.all if it.at_start == which]
        yield Block(file, [f"pub(crate) fn {name}("], f"    ensures {{ map spec.setting_view result ≡ spec.{name} start.now now.now }}",
                    [f"pub(crate) fn {name}(start: &Settings, now: &Settings) -> [(&'static [u8], bool); {len(rows)}]"])
        pairs = (pair(f'b"{it.name}{of}"', differing(it), " " * 8) for it in rows)
        yield under(file, [f"pub(crate) fn {name}(", "    ["], "    ]", joined(pairs))
        items = [f'(codes "{it.name}{of}", {it.differs} s.{it.name} t.{it.name})' for it in rows]
        yield under("crates/pool_run/specs/Telling.antt", [f"{name} s t ="], "", lines_of(ended(items)))


def differing(it):
    """Whether a setting of now is another than that of the start, as code asks."""
    return f"names_differ(start.{it.name}(), now.{it.name}())" if it.held == "Names" else f"start.{it.name}() != now.{it.name}()"


def wrong(table):
    """A wrong body for the functions that tell settings."""
    for it in table.all:
        if it.wrong_reader:
            yield Block(f"crates/ini_config/wrong/reader_of_{it.name}.edit", [], None, [
                "file: src/option_values.rt", f"old:         {it.body}", f"new:         {it.wrong_reader}", ""])


# ---- tests

def tests(table):
    """What the tests compare: of an empty file, and of one with every setting."""
    file = "".join(f"{it.name} = {it.tried[0]}".rstrip() + "\n" for it in table.all)
    rows = [("DEFAULTS", "What `SHOW CONFIG` shows of an empty file.", [data_row(it.name, it.first) for it in table.shown()]),
            ("CHANGED", "And of the file with every setting.", [data_row(it.name, it.tried[1]) for it in table.shown()])]
    numbers, switches = [[it for it in table.all if it.held in held] for held in (("u16", "u32"), ("bool",))]
    lines = [
        "//! What every setting is in an empty file, and in one that has them all: `tools/settings.py` writes this from the table.",
        "use ini_config::{Settings, read_settings};",
        "use std::test::Fail;",
        "",
        "/// A file with every setting.",
        "pub(crate) const FILE: &[u8] =",
        f"    {literal(f'[pgbouncer]{chr(10)}{file}'.encode('latin-1'))};",
        "",
    ]
    for name, what, pieces in rows:
        lines += [f"/// {what}", f"pub(crate) const {name}: &[&[u8]] = &[", *(f"    {it}," for it in pieces), "];", ""]
    lines += told("numbers", "Those that are a number each.", "u32", numbers, number_told, number_of)
    lines += told("switches", "Those that are on or off.", "bool", switches, lambda it: f"settings.{it.name}()", switch_of)
    lines += [
        "#[test]",
        "fn every_number_and_switch(rt: HostRuntime) -> Result<(), Fail> {",
        '    let first = read_settings(rt.alloc(), b"")?;',
        "    assert!(rt; numbers(&first) == NUMBERS_AT_FIRST);",
        "    assert!(rt; switches(&first) == SWITCHES_AT_FIRST);",
        "    let changed = read_settings(rt.alloc(), FILE)?;",
        "    assert!(rt; numbers(&changed) == NUMBERS_CHANGED);",
        "    assert!(rt; switches(&changed) == SWITCHES_CHANGED);",
        "    Ok(())",
        "}",
        "",
    ]
    yield Block("crates/app_tests/src/every_setting.rt", [], None, lines)


def told(name, what, held, some, tell, of):
    """A function that tells settings, and what it tells of both files."""
    lines = []
    for when, words in (("AT_FIRST", [it.first for it in some]), ("CHANGED", [it.tried[1] for it in some])):
        lines += [*array(f"pub(crate) const {name.upper()}_{when}: [{held}; {len(some)}] =", map(of, some, words)), ""]
    return [*lines, f"/// {what}", f"pub(crate) fn {name}(settings: &Settings) -> [{held}; {len(some)}] {{", "    [",
            *(f"        {tell(it)}," for it in some), "    ]", "}", ""]


def number_told(it):
    """How code asks for a number, as wide as all are."""
    return f"u32::from(settings.{it.name}())" if it.held == "u16" else f"settings.{it.name}()"


def number_of(it, word):
    """A number as code has it, which SHOW CONFIG shows so."""
    return f"0o{word.lstrip('0') or '0'}" if it.kind == "mode" else number(int(word))


def switch_of(_, word):
    """Whether a switch is on that SHOW CONFIG shows so."""
    return {"0": "false", "1": "true"}[word]


def data_row(*columns):
    """A DataRow of these texts, each with its length before it (PostgreSQL manual, "Message Formats"), as code has its bytes."""
    texts = [it.encode("latin-1") for it in columns]
    length = 6 + sum(4 + len(it) for it in texts)
    parts = "".join(f"{as_number(len(it))}{escaped(it)}" for it in texts)
    return f'b"D{as_number(length)}{as_number(len(texts), 2)}{parts}"'


def as_number(n, size=4):
    """The bytes of a number, in the order of the network, as code has them."""
    return "".join("\\0" if it == 0 else f"\\x{it:02x}" for it in n.to_bytes(size, "big"))


def escaped(text):
    """Bytes of a text as code has them within quotes."""
    marks = {ord("\n"): "\\n", ord("\""): "\\\"", ord("\\"): "\\\\"}
    return "".join(marks.get(it) or (chr(it) if 32 <= it < 127 else f"\\x{it:02x}") for it in text)


def literal(text):
    """Bytes of a text as code has them."""
    return f'b"{escaped(text)}"'


# ---- keys that are read over

def read_over(table):
    """The keys of PgBouncer that are read over: in code, in its definition, and on two pages."""
    code, definition = "crates/neutral_keys/src/lib.rt", "crates/neutral_keys/specs/ReadOver.antt"
    any_value, pairs = table.read_over["any"], [(key, it) for row in table.read_over["at"] for key in row["keys"] for it in row["values"]]
    yield Block(code, ["static AT_ANY_VALUE: "], "];", [
        f"static AT_ANY_VALUE: [&str; {len(any_value)}] = [", *(f'    "{it}",' for it in any_value)])
    yield Block(code, ["static AT_ONE_VALUE: "], "];", [
        f"static AT_ONE_VALUE: [(&str, &str); {len(pairs)}] = [", *joined(pair(f'"{one}"', f'"{two}"', "    ") for one, two in pairs)])
    yield under(definition, ["at_any_value ="], "", in_lines([f'codes "{it}"' for it in any_value]))
    yield under(definition, ["at_one_value ="], "", in_lines([f'(codes "{one}", codes "{two}")' for one, two in pairs]))
    said = {it: f" ({where})" for it, where in table.read_over["where"].items()}
    rows = [(["any"], any_value), *((row["values"], row["keys"]) for row in table.read_over["at"])]
    yield under("docs/OPERATING.md", ["### `[pgbouncer]`: read over", "| Keys | Values |", "|---|---|"], "", joined(
        rows_of([f"`{it}`{said.get(it, '')}" for it in keys], ", ".join(map(value_on_page, values))) for values, keys in rows))
    lines = []
    for values, keys in rows:
        head = " or ".join(it or "no value" for it in values)
        names = ", ".join(it + said.get(it, "").replace("option `--users`", "option --users") for it in keys)
        lines += [f".It at {head.replace('any', 'any value')}", *textwrap.wrap(names, MAN, break_on_hyphens=False)]
    yield under("man/pgsess.ini.5", ["These keys of PgBouncer 1.24 are read over", ".Bl "], ".El", lines)


def value_on_page(value):
    """A value at which keys are read over, in Markdown."""
    return value if value == "any" else f"`{value}`" if value else "empty"


def rows_of(keys, text):
    """Rows of a page's table with these keys in its first cell, and the text in the second of the first of them."""
    cells = textwrap.wrap(", ".join(keys), CELL, break_on_hyphens=False)
    return [f"| {cell.rstrip(',')} | {text if at == 0 else ''}".rstrip() + " |" for at, cell in enumerate(cells)]


def in_lines(items):
    """The items of a list in a definition, as many in a line as it takes, with its end."""
    lines = []
    for it in [*items, "[]"]:
        if lines and len(f"{lines[-1]} ∷ {it}") <= DEFINITION:
            lines[-1] += f" ∷ {it}"
        else:
            lines.append(f"    ∷ {it}" if lines else f"    {it}")
    return lines


# ---- pages

def migrating(table):
    """The keys of PgBouncer by what becomes of them: those that are served first, and nowhere else."""
    file, names = "docs/MIGRATING.md", [it.name for it in table.paged if not it.own]
    yield Change(file, lambda text: without_keys(text, "| `auth_file` | ", names))
    rows = rows_of([f"`{it}`" for it in names], "[served](OPERATING.md#pgbouncer-served)")
    behind = next(it for it in text_of(file).split("\n") if it.startswith("| `auth_file` | "))
    yield under(file, ["| Keys | Here |", "|---|---|"], behind, rows)


def without_keys(text, beginning, names):
    """A text without these keys in the first cells of its table from a row on; a row whose keys are all gone goes too, but leaves what it
    says to a next one that says nothing of its own."""
    lines = text.split("\n")
    at = next(it for it, line in enumerate(lines) if line.startswith(beginning))
    end = lines.index("", at)
    rows, orphaned = [], ""
    for line in lines[at:end]:
        _, keys, said, *others = line.split("|")
        left = [it.strip() for it in keys.split(",") if it.strip().strip("`") not in names]
        said, orphaned = said if said.strip() else orphaned or said, ""
        if any(left):
            rows.append("|".join(["", f" {', '.join(filter(None, left))} ", said, *others]))
        else:
            orphaned = said
    return "\n".join([*lines[:at], *rows, *lines[end:]])


def silenced(table):
    """Which lines of the log there are by which switch alone, on the page that tells of them."""
    for it in table.all:
        for line in it.silences or []:
            yield Change("docs/OPERATING.md", lambda text, it=it, line=line: with_switch(text, it, line))


def with_switch(text, it, line):
    """A text in which a line of the log is told with the switch that silences it."""
    lines = text.split("\n")
    at = next((at for at, row in enumerate(lines) if row.startswith(f"| {line} |")), None)
    if at is None:
        sys.exit(f"settings: docs/OPERATING.md has no line of the log {line}")
    _, name, when, *others = lines[at].split("|")
    when = re.sub(r"(, unless `\w+ = 0`|; with `\w+ = 1` alone) $", " ", when).rstrip()
    by = f", unless `{it.name} = 0` " if it.default else f"; with `{it.name} = 1` alone "
    lines[at] = "|".join(["", name, when + by, *others])
    return "\n".join(lines)


def sayings(it, *more):
    """What the man page and the example say of a setting: what it is, its values, and more."""
    meaning = re.sub(r"\[(.*?)\]\(.*?\)", r"\1", it.meaning)
    return [f"{meaning[0].upper()}{meaning[1:]}", f"Values: {values_of(it)}", *more]


def values_of(it):
    """Which values a setting may have."""
    return f"{it.values}; 0: {it.zero}" if it.zero else it.values


def own(it):
    """That PgBouncer doesn't have it, if that is so."""
    return ["Not a key of PgBouncer"] if it.own else []


def operating(table):
    """The table of docs/OPERATING.md."""
    rows = []
    for it in table.paged:
        meaning = ". ".join([it.meaning, *own(it), *([f"PgBouncer's default is {it.pgbouncer}"] if it.pgbouncer else [])])
        rows.append(f"| `{it.name}` | {on_page(it) or 'none'} | {values_of(it)} | {meaning} |")
    yield under("docs/OPERATING.md", ["### `[pgbouncer]`: served", "| Key | Default |", "|---|---|---|---|"], "", rows)


def manual(table):
    """The list of the man page."""
    lines, names = [], {it.name for it in table.all}
    for it in table.paged:
        default = f"Default: {on_page(it) or 'none'}" + (f"; PgBouncer's is {it.pgbouncer}" if it.pgbouncer else "")
        sentences = ". ".join([*sayings(it, *own(it), default), ""]).strip()
        lines += [f".It Cm {it.name}", *joined(mdoc(sentence, names) for sentence in re.split(r"(?<=\.) (?=[A-Z])", sentences))]
    yield under("man/pgsess.ini.5", [".Sh SETTINGS", ".Bl "], ".El", lines)


def mdoc(sentence, names):
    """A sentence as lines of a man page; what is marked as code has a line of its own, with the punctuation that stands at it."""
    for part in re.split(r"([^\s`]*`[^`]+`[^\s`]*)", sentence):
        if "`" in part:
            before, code, behind = part.split("`")
            yield " ".join([".Cm" if code in names else ".Ql", *before, code, *behind])
        else:
            yield from textwrap.wrap(part.strip(), MAN, break_on_hyphens=False)


def example(table):
    """The example's section [pgbouncer]. A setting that it doesn't set has a line that is a comment."""
    lines = []
    for it in table.paged:
        said = it.comment or ". ".join([*sayings(it), ""]).replace("`", "").strip()
        lines += ["", *textwrap.wrap(said, EXAMPLE, initial_indent="; ", subsequent_indent="; ")]
        line = f";{it.name} = {it.proposed or on_page(it)}" if it.example is None else f"{it.name} = {it.example}"
        lines.append(line.strip())
    yield under("examples/pgsess.ini", ["[pgbouncer]"], None, [*lines[1:], ""])


# ---- files

def text_of(file):
    """What a file says, which may not be there yet."""
    path = TOP / file
    return path.read_text() if path.exists() else ""


def replaced(text, block):
    """A file's text with a block as it is by the table."""
    if isinstance(block, Change):
        return block.changed(text)
    lines, at = text.split("\n"), 0
    for beginning in block.path:
        at = next((it for it in range(at, len(lines)) if lines[it].startswith(beginning)), None)
        if at is None:
            sys.exit(f"settings: {block.file} has no line {beginning!r}")
    if block.last is not None and block.last not in lines[at + 1:]:
        sys.exit(f"settings: {block.file} has no line {block.last!r}")
    end = len(lines) if block.last is None else lines.index(block.last, at + 1)
    return "\n".join([*lines[:at + block.stays], *block.lines, *lines[end:]])


def texts(table):
    """By each file's name what it says, and what it says by the table."""
    found = {}
    for makes in (keys, values, definitions, bounds, limits, config, notices, words, staying, wrong, tests, read_over, operating, manual,
                  example, migrating, silenced):
        for block in makes(table):
            old, new = found.get(block.file) or [text_of(block.file)] * 2
            found[block.file] = (old, replaced(new, block))
    return found


def first_difference(old, new):
    """The number of the first line in which two texts differ, and that line in both."""
    pairs = itertools.zip_longest(old.split("\n"), new.split("\n"), fillvalue="the end of the file")
    return next((line, *texts) for line, texts in enumerate(pairs, 1) if texts[0] != texts[1])


def main(given):
    """Compares, or writes."""
    if given not in ([], ["--write"], ["--list"]):
        sys.exit(__doc__.strip())
    found = texts(Table())
    if given == ["--list"]:
        print(*found, TABLE, sep="\n")
        return 0
    others = {file: (old, new) for file, (old, new) in found.items() if old != new}
    for file, (old, new) in others.items():
        if given:
            (TOP / file).write_text(new)
            print(f"wrote {file}")
        else:
            line, said, wanted = first_difference(old, new)
            print(f"{file} line {line} isn't what {TABLE} says\n  there:        {said}\n  by the table: {wanted}")
    if others and not given:
        print(f"{len(others)} files say something else; after a change of the table: tools/settings.py --write")
    return 1 if others and not given else 0


if __name__ == "__main__":
    sys.exit(main(sys.argv[1:]))
