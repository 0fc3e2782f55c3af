#!/usr/bin/env python3
"""Shows what a database's row says of users (`user=`, `password=`): whoever proves to be itself is served as the row's user, over one pool
of that user's links; and neither the log nor a command of the console shows the password. In front of a PostgreSQL server of Debian, once
where it asks for MD5 digests and once as it is installed.

Usage: row_users.py PROGRAM
"""
import pathlib
import shutil
import sys

sys.path.insert(0, str(pathlib.Path(__file__).resolve().parents[1] / "lib"))
from asking import outcome_at
from cluster import HERE, USERS, Cluster, Installed, until
from passes import Show, play
from wire import Client

HIDDEN = "hid=den"
VERIFIER = f"SCRAM-SHA-256$4096:c2FsdHNhbHRzYWx0c2FsdA==${'A' * 43}=:{'A' * 43}="
TABLES = ("ACTIVITY", "CLIENTS", "CONFIG", "DATABASES", "DECISIONS", "LISTS", "POOLS", "SERVERS", "STATE", "STATS", "STATS_AVERAGES",
          "STATS_TOTALS", "TOTALS", "USERS")
WRONG_PASSWORD, NO_SERVER = "28P01", "08001"
ASK = "SELECT current_user, pg_backend_pid()"


class RowUsers(Show):
    def __init__(self, program):
        super().__init__(program, "row users")

    def rows(self):
        words = {"own": "", "app": f"user=app password={HIDDEN}", "filed": "user=ann", "unknown": "user=app",
                 "wrong": "user=app password=other", "proved": f"user=app password={VERIFIER}"}
        return "\n".join(f"{name} = host={HERE} port={self.cluster.port} dbname=shop {more}" for name, more in words.items())

    def served(self, user, database):
        """Whom a client is served as, and by which process."""
        client = Client(self.pooler.port, user, database, USERS[user][0])
        try:
            return client.ask(ASK)[0]
        finally:
            client.leave()

    def one_pool(self):
        """Clients of two names have the links of one user, one after the other and side by side."""
        self.passes.same("a row without user= serves a client as itself", self.served("ann", "own")[0], "ann")
        first = self.served("ann", "app")
        idle = lambda: [row[5] for row in self.console("SHOW POOLS") if row[0] == "app"]
        until(lambda: idle() == ["1"], 5)
        second = self.served("bc", "app")
        self.passes.same("user=app: a client of another name is served as that", first[0], "app")
        self.passes.same("and so is one of a third, by the same process", second, first)
        clients = [Client(self.pooler.port, user, "app", USERS[user][0]) for user in ("ann", "bc")]
        pids = {client.ask(ASK)[0][1] for client in clients}
        self.passes.same("two at a time have two", len(pids), 2)
        self.passes.same("of one pool", [row[:2] for row in self.console("SHOW POOLS") if row[0] == "app"], [["app", "app"]])
        for name in ("ann", "bc"):
            is_named = until(lambda: f" {name}@app from " in self.log()[self.before:], 5)
            self.passes.holds(f"the log names {name}", is_named, self.log()[-400:])
        self.passes.holds("and nobody as the row's user", " app@app from " not in self.log()[self.before:], self.log()[-400:])
        for client in clients:
            client.leave()
        self.passes.same("without password= by the user file's secret", self.served("root", "filed")[0], "ann")

    def secrets(self):
        """By whose secret a client logs in, and by whose its link is started."""
        refused = (("who gives the row's password for its own", "ann", HIDDEN), ("who gives it as the row's user", "app", HIDDEN))
        for what, user, password in refused:
            self.passes.same(f"{what} isn't let in", outcome_at(self.pooler.port, user, password, "app"), WRONG_PASSWORD)
        for database, what, code in (("wrong", "a password that is another", WRONG_PASSWORD), ("unknown", "none at all", NO_SERVER),
                                     ("proved", "a verifier", NO_SERVER)):
            before = len(self.log())
            self.passes.same(f"{what}: its clients", outcome_at(self.pooler.port, "ann", None, database), code)
            self.passes.holds("are told as refused", until(lambda: f"ann@{database}" in self.log()[before:], 5), self.log()[before:])

    def shown(self):
        """What commands and the log show of a row's password."""
        found = [(name, row) for name in TABLES for row in self.console(f"SHOW {name}") if any(HIDDEN in str(cell) for cell in row)]
        self.passes.same("no command shows the password", found, [])
        self.passes.holds("nor does the log", HIDDEN not in self.log())

    def over(self, cluster):
        self.cluster = cluster(self.place)
        self.cluster.tell(f"CREATE ROLE app LOGIN PASSWORD '{HIDDEN}'", "postgres")
        self.begin(auth="md5", more_rows=self.rows(), changes={"^log_connections = .*": "log_connections = 1"})
        self.before = len(self.log())
        self.one_pool()
        self.secrets()
        self.shown()
        self.pooler.stop()
        self.pooler = None
        self.cluster.stop("immediate")
        shutil.rmtree(self.cluster.data)

    def all(self):
        self.over(Cluster)
        self.over(Installed)


if __name__ == "__main__":
    play(RowUsers)
