"""What a session of the stand-in server answers to simple queries, by its rules in words: another reading of them than the definitions.

A statement comes as a tuple, its kind and its parts, in place of its text; an answer is a list of lines, for each message its type and
what it tells.
"""
import re

# in the order in which they are reported
REPORTED = {
    "application_name": "", "client_encoding": "UTF8", "DateStyle": "ISO, MDY", "integer_datetimes": "on", "IntervalStyle": "postgres",
    "server_encoding": "UTF8", "server_version": "16.0", "standard_conforming_strings": "on", "TimeZone": "UTC",
}
DEFAULTS = {**REPORTED, "extra_float_digits": "1", "search_path": "public", "statement_timeout": "0"}
FIXED = ["integer_datetimes", "server_encoding", "server_version"]
ENCODINGS = {"utf8": "UTF8", "unicode": "UTF8", "sqlascii": "SQL_ASCII"}
INTERVALS = ["postgres", "postgres_verbose", "sql_standard", "iso_8601"]
STYLES = {"iso": "ISO", "sql": "SQL", "german": "German"}
SWITCHES = {"on": "on", "true": "on", "yes": "on", "1": "on", "off": "off", "false": "off", "no": "off", "0": "off"}
OUTSIDE, INSIDE, FAILED = "I", "T", "E"


class Refused(Exception):
    """A statement's error, by its SQLSTATE."""


def parameter(name):
    """The parameter of a name, whose case doesn't matter."""
    for known in DEFAULTS:
        if known.lower() == name.lower():
            return known
    raise Refused("42704")


def date_style(text):
    style = re.fullmatch("(iso|sql|german), ?(mdy|dmy|ymd)", text.lower())
    if style:
        return f"{STYLES[style[1]]}, {style[2].upper()}"
    return "ISO, MDY" if text.lower() == "iso" else None


def is_whole(text, low, high):
    return bool(re.fullmatch("-?[0-9]+", text)) and low <= int(text) <= high


def accepted(name, text):
    """What a parameter keeps of a value, or None where it doesn't take it."""
    if name == "client_encoding":
        return ENCODINGS.get(re.sub("[^a-z0-9]", "", text.lower()))
    if name == "DateStyle":
        return date_style(text)
    if name == "standard_conforming_strings":
        return SWITCHES.get(text.lower())
    takes = {
        "application_name": len(text) <= 63,
        "IntervalStyle": text in INTERVALS,
        "TimeZone": bool(re.fullmatch("[A-Za-z0-9/_+-]{1,63}", text)),
        "extra_float_digits": is_whole(text, -15, 3),
        "search_path": len(text) <= 255,
        "statement_timeout": is_whole(text, 0, 2147483647),
    }
    return text if takes[name] else None


def new_value(name, text):
    """What SET of a parameter makes of a value. None: its default."""
    if name in FIXED:
        raise Refused("55P02")
    value = DEFAULTS[name] if text is None else accepted(name, text)
    if value is None:
        raise Refused("22023")
    return value


class Session:
    """A session over a catalogue: the columns and the rows of each table."""

    def __init__(self, catalogue):
        self.catalogue, self.tables, self.block = catalogue, {}, OUTSIDE
        self.values, self.told = dict(DEFAULTS), dict(REPORTED)
        # of each parameter that SET LOCAL changed, the value that a commit gives back
        self.local = {}
        # values and temporary tables, as a roll back gives them back
        self.saved = None
        # of each cursor the columns, the rows that are left, and whether a commit has made it stay
        self.cursors = {}

    def query(self, statement, struck=False):
        """The answer to a Query, which a cancel strikes or not."""
        if self.block == OUTSIDE:
            self.saved = dict(self.values), dict(self.tables)
        try:
            lines = self.run(struck, *statement)
            if self.block == OUTSIDE:
                self.commit()
        except Refused as refused:
            lines = [f"E {refused}"]
            self.roll_back()
            self.block = OUTSIDE if self.block == OUTSIDE else FAILED
        return [*lines, *self.reports(), f"Z {self.block}"]

    def run(self, struck, kind, *parts):
        if struck:
            raise Refused("57014")
        if kind == "broken":
            raise Refused("42601")
        if self.block == FAILED and kind not in ("empty", "commit", "rollback"):
            raise Refused("25P02")
        return getattr(self, f"run_{kind}")(*parts)

    def reports(self):
        changed = [name for name in REPORTED if self.values[name] != self.told[name]]
        self.told = {name: self.values[name] for name in REPORTED}
        return [f"S {name}={self.values[name]}" for name in changed]

    def commit(self):
        """What SET LOCAL changed is given back, and each cursor stays from now on."""
        self.values.update(self.local)
        self.local, self.saved = {}, None
        self.cursors = {name: (columns, rows, True) for name, (columns, rows, _) in self.cursors.items()}

    def roll_back(self):
        """The cursors that don't stay go. What was fetched from the others stays fetched, and what was closed stays closed."""
        if self.saved:
            self.values, self.tables = self.saved
        self.local, self.saved = {}, None
        self.cursors = {name: cursor for name, cursor in self.cursors.items() if cursor[2]}

    def run_empty(self):
        return ["I"]

    def run_placeholder(self, _text):
        raise Refused("42P02")

    def run_begin(self):
        notices = ["N 25001"] if self.block == INSIDE else []
        self.block = INSIDE
        return [*notices, "C BEGIN"]

    def run_commit(self):
        block, self.block = self.block, OUTSIDE
        if block == FAILED:
            return ["C ROLLBACK"]
        self.commit()
        return ["N 25P01", "C COMMIT"] if block == OUTSIDE else ["C COMMIT"]

    def run_rollback(self):
        block, self.block = self.block, OUTSIDE
        self.roll_back()
        return ["N 25P01", "C ROLLBACK"] if block == OUTSIDE else ["C ROLLBACK"]

    def run_set(self, name, text, tag="SET"):
        name = parameter(name)
        self.values[name] = new_value(name, text)
        # no longer is it a local one
        self.local.pop(name, None)
        return [f"C {tag}"]

    def run_local(self, name, text):
        if self.block == OUTSIDE:
            return ["N 25P01", "C SET"]
        name = parameter(name)
        value = new_value(name, text)
        self.local.setdefault(name, self.values[name])
        self.values[name] = value
        return ["C SET"]

    def run_reset(self, name):
        return self.run_set(name, None, "RESET")

    def run_reset_all(self):
        self.values, self.local = dict(DEFAULTS), {}
        return ["C RESET"]

    def run_show(self, name):
        name = parameter(name)
        return [f"T {[name]}", f"D {[self.values[name]]}", "C SHOW"]

    def run_discard(self):
        if self.block != OUTSIDE:
            raise Refused("25001")
        self.values, self.local, self.saved = dict(DEFAULTS), {}, None
        self.tables, self.cursors = {}, {}
        return ["C DISCARD ALL"]

    def run_create(self, table, columns):
        if table in self.tables:
            raise Refused("42P07")
        if len(set(columns)) < len(columns):
            raise Refused("42701")
        self.tables[table] = columns, ()
        return ["C CREATE TABLE"]

    def changed(self, table):
        """A table that may be changed: a temporary one."""
        if table not in self.tables:
            raise Refused("0A000" if table in self.catalogue else "42P01")
        return self.tables[table]

    def run_drop(self, table):
        self.changed(table)
        del self.tables[table]
        return ["C DROP TABLE"]

    def run_insert(self, table, values):
        columns, rows = self.changed(table)
        if len(values) > len(columns):
            raise Refused("42601")
        self.tables[table] = columns, (*rows, (*values, *[None] * (len(columns) - len(values))))
        return ["C INSERT 0 1"]

    def selected(self, columns, table, where):
        """The columns and rows of a SELECT. No columns: all of them."""
        if table not in self.tables and table not in self.catalogue:
            raise Refused("42P01")
        have, rows = self.tables.get(table) or self.catalogue[table]
        columns = columns or have
        if not set(columns) | set(where[:1]) <= set(have):
            raise Refused("42703")
        rows = [dict(zip(have, row)) for row in rows]
        # null equals nothing
        rows = [row for row in rows if not where or row[where[0]] == where[1] is not None]
        return columns, [[row[column] for column in columns] for row in rows]

    def given(self, word, columns, rows):
        return [f"T {[*columns]}", *[f"D {row}" for row in rows], f"C {word} {len(rows)}"]

    def run_select(self, columns, table, where):
        return self.given("SELECT", *self.selected(columns, table, where))

    def run_declare(self, cursor, columns, table, where):
        columns, rows = self.selected(columns, table, where)
        if cursor in self.cursors:
            raise Refused("42P03")
        self.cursors[cursor] = columns, rows, False
        return ["C DECLARE CURSOR"]

    def found(self, cursor):
        if cursor not in self.cursors:
            raise Refused("34000")
        return self.cursors[cursor]

    def run_fetch(self, count, cursor):
        """So many rows, or for None all that are left."""
        columns, rows, stays = self.found(cursor)
        count = len(rows) if count is None else count
        self.cursors[cursor] = columns, rows[count:], stays
        return self.given("FETCH", columns, rows[:count])

    def run_close(self, cursor):
        self.found(cursor)
        del self.cursors[cursor]
        return ["C CLOSE CURSOR"]
