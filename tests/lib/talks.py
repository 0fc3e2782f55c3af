"""What clients may say behind their login, by chance: simple and extended queries, rich in SET LOCAL and in cursors.

A statement is a tuple of its kind and its parts, as session_model.py takes it, and is spelled in many ways. Some messages are strays,
some are broken, and some clients leave in the middle.
"""
import collections
import copy
import random
import re

from wire import TERMINATE, message, query

# a conversation is cut at so many places
CUTS = 3
SYNC, FLUSH = message(b"S"), message(b"H")

# ---- statements

# the last value of each is mostly refused
SETTINGS = {
    "TimeZone": ["A", "B/C_1", "Europe/Oslo", "UTC", "no zone"],
    "application_name": ["x", "it's", "y" * 63, "", "y" * 64],
    "DateStyle": ["iso", "sql, dmy", "German,YMD", "ISO, mdy", "bogus"],
    "client_encoding": ["utf-8", "SQL_ASCII", "latin1"],
    "IntervalStyle": ["iso_8601", "postgres", "ISO_8601"],
    "standard_conforming_strings": ["off", "Yes", "2"],
    "extra_float_digits": ["3", "-15", "4"],
    "statement_timeout": ["100", "2147483647", "-1"],
    "search_path": ["a, b", "public"],
    "server_version": ["17"],
    "nosuch": ["1"],
}
USUAL = ["TimeZone", "application_name", "DateStyle"]
COLUMNS = {"city": ["name", "country"], "t": ["a", "b"], "u": ["a", "name"], "nowhere": ["a"]}
TEXTS = ["Bern", "Oslo", "it's", "", None]
CURSORS = ["k", "k", "k", "cursor_2"]
BROKEN = [
    "SELEC", "BEGIN;;", "SET LOCAL TimeZone", "SET LOCAL TimeZone 'A'", "SET SESSION LOCAL TimeZone TO 'A'", "SET LOCAL TimeZone TO 'A",
    "DECLARE k CURSOR FOR SELECT name FROM city", "DECLARE k CURSOR WITHOUT HOLD FOR SELECT name FROM city",
    "DECLARE k SCROLL CURSOR WITH HOLD FOR SELECT name FROM city", "DECLARE k CURSOR WITH HOLD FOR SHOW TimeZone",
    "DECLARE k CURSOR WITH HOLD FOR SELECT name FROM city WHERE name = $1", "FETCH 0 FROM k", "FETCH -1 FROM k", "FETCH 2147483648 FROM k",
    "FETCH FROM k", "FETCH k", "FETCH NEXT FROM k", "FETCH 1 IN k", "FETCH ALL", "FETCH 1 FROM 'k'", "CLOSE", "CLOSE 'k'", "CLOSE k, k",
]
PLACEHOLDERS = ["INSERT INTO t VALUES ($1)", "SELECT * FROM nowhere WHERE a = $2"]
KINDS = """begin commit commit rollback set set local local local reset reset_all show show discard create create drop insert insert
    select select declare declare declare fetch fetch fetch fetch close empty broken placeholder""".split()
GIVES_ROWS = ["select", "show", "fetch"]
# those that mean something one after the other
PHRASES = [line.split() for line in """
    begin local show commit show
    begin local local commit
    set begin local local commit
    begin local set commit
    begin set local commit
    set begin local reset commit
    set begin local reset_all commit
    begin set local rollback show
    begin local rollback show
    set begin local local rollback
    begin local broken commit
    begin local discard rollback
    local show
    declare fetch fetch close fetch
    declare fetch fetch fetch
    begin declare fetch fetch rollback
    begin declare fetch commit fetch fetch
    begin declare fetch rollback fetch
    declare begin fetch rollback fetch
    declare begin close rollback fetch
    declare begin close declare commit fetch
    declare fetch begin broken rollback fetch
    begin declare local commit fetch
    declare declare close declare
    declare discard fetch
    create insert insert declare drop fetch fetch
    create insert declare insert fetch
    begin create insert declare commit fetch
    begin create insert declare rollback fetch select
    create insert begin insert rollback select
    create insert select declare discard fetch select
""".strip().splitlines()]


def literal(text):
    return "'" + text.replace("'", "''") + "'"


def operand(value):
    """A text, null, or a parameter by its number."""
    return "NULL" if value is None else f"${value}" if isinstance(value, int) else literal(value)


def selection(columns, table, where):
    """The words of a SELECT, whose condition is a column and a value, or nothing."""
    return ["SELECT", ", ".join(columns) or "*", "FROM", table, *(["WHERE", where[0], "=", operand(where[1])] if where else [])]


class Statements:
    """Statements by chance. Those of a phrase mostly speak of one cursor, one parameter and one table."""

    def __init__(self, chance, with_parameters):
        self.chance, self.with_parameters = chance, with_parameters
        self.cursor = self.parameter = self.table = ""

    def often(self, share):
        return self.chance.random() < share

    def phrase(self):
        """A few statements that follow one another."""
        kinds = self.chance.choice(PHRASES) if self.often(0.75) else self.chance.choices(KINDS, k=self.chance.randint(1, 4))
        self.cursor = self.chance.choice(CURSORS)
        self.parameter = self.chance.choice(USUAL if self.often(0.75) else [*SETTINGS])
        self.table = self.chance.choice(["t", "t", "t", "u", "city"]) if "create" in kinds else "city"
        for kind in kinds:
            yield (kind, *self.parts(kind))

    def mostly(self, usual, all_of_them):
        return self.chance.choice(all_of_them) if self.often(0.1) else usual

    def setting(self):
        name = self.mostly(self.parameter, [*SETTINGS])
        return name, None if self.often(0.1) else self.chance.choice(SETTINGS[name])

    def value(self, with_parameters=True):
        return self.chance.randint(1, 2) if with_parameters and self.with_parameters and self.often(0.2) else self.chance.choice(TEXTS)

    def rows_of(self, with_parameters=True):
        table = self.mostly(self.table, [*COLUMNS])
        own = self.mostly(COLUMNS[table], [["b", "country"]])
        columns = [] if self.often(0.4) else self.chance.choices(own, k=self.chance.randint(1, 3))
        return columns, table, (self.chance.choice(own), self.value(with_parameters)) if self.often(0.3) else ()

    def parts(self, kind):
        """The parts of a statement of this kind."""
        pick = self.chance.choice
        if kind in ("set", "local"):
            return self.setting()
        if kind in ("reset", "show"):
            return self.setting()[:1]
        if kind == "create":
            return self.table, self.mostly(COLUMNS[self.table], [["a"], ["a", "a"]])
        if kind == "drop":
            return (self.mostly(self.table, [*COLUMNS]),)
        if kind == "insert":
            return self.mostly(self.table, [*COLUMNS]), [self.value() for _ in range(self.mostly(2, [1, 3]))]
        if kind == "select":
            return self.rows_of()
        if kind == "declare":
            return (self.mostly(self.cursor, CURSORS), *self.rows_of(with_parameters=False))
        if kind == "fetch":
            return pick([1, 1, 2, 2, 3, 2147483647, None, None]), self.mostly(self.cursor, CURSORS)
        if kind == "close":
            return (self.mostly(self.cursor, CURSORS),)
        texts = {"broken": BROKEN, "placeholder": PLACEHOLDERS}
        return (pick(texts[kind]),) if kind in texts else ()

    def given(self, text):
        """A value of SET."""
        if text is None:
            return "DEFAULT"
        return text if re.fullmatch("-?[0-9]+|[a-z]{1,63}", text) and self.often(0.5) else literal(text)

    def words(self, kind, *parts):
        """The words of a statement."""
        pick = self.chance.choice
        if kind in ("begin", "commit", "rollback"):
            return [kind, *pick([[], [], ["WORK"], ["TRANSACTION"]])]
        if kind == "set":
            return ["SET", *pick([[], ["SESSION"]]), parts[0], pick(["TO", "="]), self.given(parts[1])]
        if kind == "local":
            return ["SET", "LOCAL", parts[0], pick(["TO", "="]), self.given(parts[1])]
        if kind == "create":
            return ["CREATE", pick(["TEMP", "TEMPORARY"]), "TABLE", parts[0], "(", ", ".join(f"{it} text" for it in parts[1]), ")"]
        if kind == "insert":
            return ["INSERT", "INTO", parts[0], "VALUES", "(", ", ".join(map(operand, parts[1])), ")"]
        if kind == "select":
            return selection(*parts)
        if kind == "declare":
            return ["DECLARE", parts[0], "CURSOR", "WITH", "HOLD", "FOR", *selection(*parts[1:])]
        if kind == "fetch":
            return ["FETCH", "ALL" if parts[0] is None else self.mostly(str(parts[0]), [f"00{parts[0]}"]), "FROM", parts[1]]
        first = {"reset": "RESET", "reset_all": "RESET ALL", "show": "SHOW", "discard": "DISCARD ALL", "drop": "DROP TABLE",
                 "close": "CLOSE"}
        return [*first.get(kind, "").split(), *parts]

    def text(self, statement):
        """A statement's text, in some case and with some white space."""
        words = self.words(*statement)
        if statement[0] == "broken":
            return words[0]
        if self.often(0.3):
            turned = self.chance.choice([str.lower, str.upper, str.swapcase])
            words = [word if "'" in word else turned(word) for word in words]
        gap = self.chance.choice([" "] * 6 + ["  ", "\n", "\t \r\n"])
        return gap.join(words) + self.chance.choice(["", "", "", "", ";", " ;\n"])


# ---- messages

# what is sent at once, and of a Query alone its statement
Said = collections.namedtuple("Said", "data statement")


def zero_ended(text):
    return text.encode() + b"\0"


def counted(numbers, size):
    """Numbers of so many bytes, behind how many there are."""
    return len(numbers).to_bytes(2, "big") + b"".join(number.to_bytes(size, "big") for number in numbers)


def parse(name, text, oids=()):
    return message(b"P", zero_ended(name) + zero_ended(text) + counted(oids, 4))


def bind(portal, name, formats=(), given=(), results=()):
    found = b"".join(b"\xff" * 4 if it is None else len(it).to_bytes(4, "big") + it for it in given)
    return message(b"B", zero_ended(portal) + zero_ended(name) + counted(formats, 2) + len(given).to_bytes(2, "big") + found
                   + counted(results, 2))


def execute(portal, limit=0):
    return message(b"E", zero_ended(portal) + limit.to_bytes(4, "big", signed=True))


def describe(what, name):
    return message(b"D", what + zero_ended(name))


def close(what, name):
    return message(b"C", what + zero_ended(name))


# of every kind, for names that others may have made; some can't be read
STRAY = [
    SYNC, FLUSH, execute("q", 1), execute("q"), execute(""), bind("q", "s"), bind("", "s"), describe(b"P", "q"), describe(b"S", "s"),
    close(b"P", "q"),
    close(b"S", "s"), message(b"d", b"x"), message(b"c"), message(b"f", b"no\0"), message(b"F", b"\0" * 9), message(b"p", b"secret\0"),
    message(b"Q", b"SHOW TimeZone"), message(b"P", b"s\0SHOW TimeZone\0"), message(b"B", b"q\0"), message(b"E", b"q\0\0"),
    describe(b"x", "q"), message(b"C"),
]
# heads that no message has
FAULTY = [b"Q\0\0\0\x03", b"z\0\0\0\x04", b"\0" * 9, b"S\xff\xff\xff\xff", b"Q\x80\0\0\0"]


class Talk:
    """What a client says behind its login, and how it is played."""

    def __init__(self, seed):
        self.chance = random.Random(seed)
        self.is_simple = self.often(0.5)
        self.statements = Statements(self.chance, with_parameters=not self.is_simple)
        self.said = self.simple() if self.is_simple else self.mixed()
        # where it is cut, as shares of its bytes; and before which message a cancel comes
        self.cuts = [self.chance.random() for _ in range(CUTS)]
        self.struck = self.chance.randrange(len(self.said) + 1)

    def often(self, share):
        return self.chance.random() < share

    def told(self, phrases):
        return (statement for _ in range(phrases) for statement in self.statements.phrase())

    def simple(self):
        return [Said(query(self.statements.text(it)), it) for it in self.told(self.chance.randint(1, 4))]

    def mixed(self):
        said = []
        for statement in self.told(self.chance.randint(1, 3)):
            text = self.statements.text(statement)
            said += [query(text)] if self.often(0.4) else self.extended(text, statement[0] in GIVES_ROWS)
            if self.often(0.07):
                said.append(self.chance.choice(STRAY))
        if self.often(0.05):
            said.insert(self.chance.randrange(len(said) + 1), TERMINATE)
        if self.often(0.1):
            said.append(self.chance.choice(FAULTY))
        elif self.often(0.1):
            said[-1] = said[-1][:self.chance.randrange(len(said[-1]))]
        return [Said(data, None) for data in said]

    def extended(self, text, gives_rows):
        """The messages that prepare a statement and run it."""
        pick = self.chance.choice
        name, portal = pick([""] * 6 + ["s", "s2", "s3"]), pick([""] * 5 + ["q"])
        count = max(map(int, re.findall(r"\$(\d)", text)), default=0) + self.often(0.03)
        said = [] if self.often(0.05) else [parse(name, text, pick([(), (25,), (0, 25)]) if count else ())]
        if self.often(0.25):
            said.append(describe(b"S", name))
        formats = pick([()] * 6 + [(0,) * count, (1,)])
        results = pick([()] * 20 + [(0,), (1,), (0, 1), (2,)])
        said.append(bind(portal, name, formats, [pick([b"Bern", b"it's", b"", None]) for _ in range(count)], results))
        if self.often(0.3):
            said.append(describe(b"P", portal))
        times = pick([1, 2, 2, 3]) if gives_rows or self.often(0.05) else 1
        said += [execute(portal, pick([0, 0, 1, 1, 1, 2, -1, 2147483647])) for _ in range(times)]
        if self.often(0.1):
            said.append(pick([close(b"P", portal), close(b"S", name)]))
        return said + pick([[SYNC]] * 12 + [[FLUSH], [FLUSH, SYNC], []])


def without(talk, at, count):
    """A talk without so many messages from this one on."""
    fewer = copy.copy(talk)
    fewer.said = talk.said[:at] + talk.said[at + count:]
    fewer.struck -= max(0, min(at + count, talk.struck) - at)
    return fewer


def shrunk(talk, fails):
    """What is left of a talk that fails, once each message is dropped without which it still fails."""
    count = len(talk.said)
    while count:
        at = 0
        while at < len(talk.said):
            fewer = without(talk, at, count)
            if fails(fewer):
                talk = fewer
            else:
                at += count
        count //= 2
    return talk
