#!/usr/bin/env python3
"""Shows what an operator sees of `pgsess serve`: statistics that are what went through, who does what, the last decisions, the log's rates
and the figures for Prometheus; and that the field's monitors run on it, where Debian's packages of them can be had. In front of a
PostgreSQL server of Debian.

Usage: monitors.py PROGRAM
"""
import json
import os
import pathlib
import re
import shutil
import socket
import subprocess
import sys
import threading
import time
import urllib.error
import urllib.request

sys.path.insert(0, str(pathlib.Path(__file__).resolve().parents[1] / "lib"))
from cluster import HERE, TOP, USERS, Cluster, free_port, until
from metrics import named, names_of
from passes import Show, play
from wire import Client, Refused, message, query, startup, values

CLIENTS, TOGETHER = 200, 20
# connections that say nothing, and rounds of clients beside them
SILENT, ROUNDS = 300, 25
POOL = 5
LOOKER = "bc"
TABLES = ["POOLS", "CLIENTS", "SERVERS", "CONFIG", "VERSION", "TOTALS", "STATS", "STATS_TOTALS", "STATS_AVERAGES", "LISTS", "DATABASES",
          "USERS", "STATE", "ACTIVITY", "DECISIONS"]
# what a session sends: a block, two statements alone, and one that fails
SENT = ["BEGIN", "SELECT 1", "COMMIT", "SELECT 'two'", "SELECT 1/0", "SHOW datestyle", ""]
TRANSACTIONS = 5
PACKAGES = {"exporter": "prometheus-pgbouncer-exporter", "check_postgres": "check-postgres", "DBD::Pg": "libdbd-pg-perl",
            "psycopg2": "python3-psycopg2", "psycopg 3": "python3-psycopg", "munin": "munin-plugins-core", "prometheus": "prometheus"}
SYSTEM_PYTHON = "/usr/bin/python3"


def table(port, name, user="root", database="pgbouncer"):
    """The rows of a table of the console, by their columns' names."""
    client = Client(port, user, database, USERS[user][0])
    client.send(query(f"SHOW {name}"))
    columns, rows, error = [], [], None
    while True:
        kind, body = client.next()
        if kind == b"T":
            at = 2
            for _ in range(int.from_bytes(body[:2], "big")):
                end = body.index(b"\0", at)
                columns.append(body[at:end].decode())
                at = end + 19
        elif kind == b"D":
            rows.append(dict(zip(columns, values(body))))
        elif kind == b"E":
            error = body
        elif kind == b"Z":
            break
    client.leave()
    if error:
        raise Refused(error)
    return rows


def row_of(rows, **wanted):
    for row in rows:
        if all(row.get(name) == value for name, value in wanted.items()):
            return row
    return {}


class Counted(Client):
    """A client that counts its bytes behind its login."""

    def __init__(self, port):
        self.sent = self.came = 0
        super().__init__(port, "ann", "shop", USERS["ann"][0])
        self.sent = self.came = 0

    def send(self, data):
        super().send(data)
        self.sent += len(data)

    def take(self, count):
        part = super().take(count)
        self.came += count
        return part


def fetched(port, path):
    """A page of this machine, or nothing while nobody gives it."""
    try:
        with urllib.request.urlopen(f"http://{HERE}:{port}/{path}", timeout=5) as answer:
            return answer.read().decode()
    except OSError:
        return ""


def installed(name):
    """Where a program is; of one that isn't there that is said."""
    found = shutil.which(name)
    if not found:
        print(f"not tried: {name} isn't installed", flush=True)
    return found


def side_by_side(work, count):
    """Does this so often at once, and waits for all."""
    threads = [threading.Thread(target=work) for _ in range(count)]
    for it in threads:
        it.start()
    for it in threads:
        it.join()


class Monitors(Show):
    def __init__(self, program):
        super().__init__(program, "monitors")
        self.cluster = Cluster(self.place)

    def begin(self, lines="", **more):
        self.metrics = free_port()
        lines += f"stats_users = {LOOKER}\nstats_period = 1\nmetrics_addr = {HERE}\nmetrics_port = {self.metrics}\n"
        super().begin(size=POOL, clients=1000, lines=lines, **more)
        self.port = self.pooler.port

    # ---- statistics

    def statistics(self):
        """Clients with known queries, then gone."""
        self.begin()
        sent = came = 0
        lock = threading.Lock()

        def session():
            nonlocal sent, came
            client = Counted(self.port)
            for text in SENT:
                try:
                    client.ask(text)
                except Refused:
                    pass
            client.send(message(b"X"))
            client.socket.recv(1)
            client.socket.close()
            with lock:
                sent, came = sent + client.sent, came + client.came
        for _ in range(CLIENTS // TOGETHER):
            side_by_side(session, TOGETHER)
        wanted = {"total_query_count": str(CLIENTS * len(SENT)), "total_xact_count": str(CLIENTS * TRANSACTIONS),
                  "total_received": str(sent), "total_server_assignment_count": str(CLIENTS)}
        shown = lambda: {name: row_of(table(self.port, "STATS"), database="shop").get(name) for name in wanted}
        until(lambda: shown() == wanted, 5)
        self.passes.same(f"STATS of {CLIENTS} clients that are gone: queries, transactions, bytes, leases", shown(), wanted)
        row = row_of(table(self.port, "STATS"), database="shop")
        # what went to clients has their welcomes, which they don't count
        self.passes.holds("bytes to clients are theirs and their welcomes'", int(row["total_sent"]) >= came,
                          f"{row['total_sent']} for {came}")
        totals = row_of(table(self.port, "STATS_TOTALS"), database="shop")
        self.passes.same("STATS_TOTALS agrees", (totals["query_count"], totals["bytes_received"]), (wanted["total_query_count"], str(sent)))
        lists = {it["list"]: it["items"] for it in table(self.port, "LISTS")}
        self.passes.same("LISTS", (lists["users"], lists["databases"], lists["used_clients"]), (str(len(USERS)), "3", "1"))
        self.passes.same("USERS", sorted(it["name"] for it in table(self.port, "USERS")), sorted(USERS))

    def one_query(self):
        client = Client(self.port, "ann", "shop", USERS["ann"][0])
        client.ask("SELECT 1")
        client.leave()

    def seen(self):
        """The queries that went over links to a database, as STATS has them now."""
        return int(row_of(table(self.port, "STATS"), database="shop").get("total_query_count", 0))

    def coming_and_going(self):
        """While clients come and go, figures never go back, and none is counted twice: STATS is asked for all the while. The silent ones
        are more than are copied at once, so clients go while others are being copied."""
        self.begin()
        silent = [socket.create_connection((HERE, self.port)) for _ in range(SILENT)]
        found, over = [], threading.Event()

        def look():
            while not over.is_set():
                found.append(self.seen())
        looking = threading.Thread(target=look)
        looking.start()
        for _ in range(ROUNDS):
            side_by_side(self.one_query, TOGETHER)
        over.set()
        looking.join()
        wanted = ROUNDS * TOGETHER
        until(lambda: self.seen() == wanted, 5)
        self.passes.same("STATS of clients that came and went while it was asked for", self.seen(), wanted)
        self.passes.holds("its figures never went back", found == sorted(found) and found[-1:] <= [wanted], found)
        for it in silent:
            it.close()

    # ---- who does what

    def activity(self):
        """What clients are at, beside what their servers say."""
        idle, block, failed, busy = (Client(self.port, "ann", "shop", USERS["ann"][0]) for _ in range(4))
        pids = [int(it.ask("SELECT pg_backend_pid()")[0][0]) for it in (idle, block, failed, busy)]
        block.ask("BEGIN")
        failed.ask("BEGIN")
        try:
            failed.ask("SELECT 1/0")
        except Refused:
            pass
        busy.send(query("SELECT pg_sleep(15)"))
        until(lambda: self.cluster.tell(f"SELECT state FROM pg_stat_activity WHERE pid = {pids[3]}") == [["active"]], 10)
        own = {int(pid): state for pid, state in self.cluster.tell("SELECT pid, state FROM pg_stat_activity WHERE usename = 'ann'")}
        shown = {int(it["server_pid"]): it["state"] for it in table(self.port, "ACTIVITY") if it["database"] == "shop"}
        self.passes.same("ACTIVITY has each server's process and state", shown, {pid: own[pid] for pid in pids})
        fifth = Client(self.port, "ann", "shop", USERS["ann"][0])
        waits = socket.create_connection((HERE, self.port))
        waits.sendall(startup("ann", "shop"))
        age, ages = lambda: int(row_of(table(self.port, "ACTIVITY"), state="waiting").get("state_ms", 0)), []
        until(age, 20)
        for _ in range(2):
            time.sleep(1.1)
            ages.append(age())
        self.passes.holds("one beyond the pool waits, longer and longer", 0 < ages[0] < ages[1], str(ages))
        waits.close()
        secrets = {str(int.from_bytes(it.key[4:8], "big")) for it in (idle, block, failed, busy, fifth)}
        cells = {cell for name in TABLES for row in table(self.port, name) for cell in row.values()}
        self.passes.same("no table has the secret of a key", secrets & cells, set())
        last = table(self.port, "DECISIONS")
        self.passes.holds("DECISIONS has the last ones", 0 < len(last) <= 256 and {"arrive", "ask", "take"} <= {it["event"] for it in last},
                          str(last[-3:]))
        numbers = [int(it["number"]) for it in last]
        self.passes.same("in their order", numbers, list(range(numbers[0], numbers[0] + len(numbers))))
        for it in (idle, block, failed, fifth):
            it.leave()
        busy.socket.close()

    # ---- who may look

    def lookers(self):
        """A user that may look, and do nothing."""
        self.passes.holds("stats_users: SHOW", table(self.port, "POOLS", LOOKER))
        for command in ("PAUSE", "RELOAD", "SHUTDOWN", "RECONNECT"):
            client = Client(self.port, LOOKER, "pgbouncer", USERS[LOOKER][0])
            try:
                client.ask(command)
                outcome = "done"
            except Refused as error:
                outcome = error.code
            client.leave()
            self.passes.same(f"stats_users: {command}", outcome, "42501")
        client = Client(self.port, "root", "pgbouncer", USERS["root"][0])
        client.ask("SET datestyle = 'ISO'")
        try:
            client.ask("SET max_client_conn = 5")
            outcome = "done"
        except Refused as error:
            outcome = error.code
        self.passes.same("SET of what is no parameter", outcome, "42601")
        client.leave()

    # ---- the log, and Prometheus

    def rates(self):
        """The log's line of each period."""
        before = len(self.log())
        client = Client(self.port, "ann", "shop", USERS["ann"][0])
        for _ in range(25):
            client.ask("SELECT 1")
            time.sleep(0.1)
        client.leave()
        found = re.findall(r"^pgsess: stats: (\d+) transactions/s, (\d+) queries/s", self.log()[before:], re.M)
        self.passes.holds("two lines of the log have the rates of what was sent", len([it for it in found if 5 <= int(it[1]) <= 12]) >= 2,
                          str(found))

    def fetch(self, path="/metrics", method="GET", host=None):
        request = urllib.request.Request(f"http://{HERE}:{self.metrics}{path}", method=method)
        if host:
            request.add_header("Host", host)
        try:
            with urllib.request.urlopen(request, timeout=5) as answer:
                return answer.status, answer.headers["Content-Type"], answer.read().decode()
        except urllib.error.HTTPError as error:
            return error.code, "", ""

    def scrapes(self):
        status, kind, text = self.fetch()
        self.passes.same("/metrics", (status, kind.split(";")[0], text.splitlines()[-1]), (200, "application/openmetrics-text", "# EOF"))
        self.passes.same("it is OpenMetrics, and has what the dashboard names",
                         named(TOP / "packaging/grafana/pgsess.json") - names_of(text), set())
        queries = re.search(r'^pgbouncer_stats_queries_pooled_total\{database="shop"\} (\d+)', text, re.M)
        row = row_of(table(self.port, "STATS"), database="shop")
        self.passes.same("it agrees with STATS", queries and queries[1], row["total_query_count"])
        statuses = [it[0] for it in (self.fetch("/"), self.fetch(method="POST"), self.fetch(host="evil.example"))]
        self.passes.same("other paths, methods and hosts", statuses, [404, 405, 421])
        stopped = [socket.create_connection((HERE, self.metrics)) for _ in range(3)]
        for it in stopped:
            it.sendall(b"GET /metrics HTTP/1.1\r\nHost: localhost\r\n\r\n")
        self.passes.same("readers that stop stop nobody", self.fetch()[0], 200)
        for it in stopped:
            it.close()

    # ---- the monitors of the field

    def install(self):
        """The packages that can be had."""
        if os.geteuid() == 0:
            quiet = {"stdout": subprocess.DEVNULL, "stderr": subprocess.DEVNULL, "env": {**os.environ, "DEBIAN_FRONTEND": "noninteractive"}}
            subprocess.run(["apt-get", "update", "-q"], **quiet)
            for package in PACKAGES.values():
                subprocess.run(["apt-get", "install", "-q", "-y", "--no-install-recommends", package], **quiet)

    def run_python(self, what, text):
        done = subprocess.run([SYSTEM_PYTHON, "-c", text], capture_output=True, text=True, timeout=60)
        if "ModuleNotFoundError" in done.stderr:
            print(f"not tried: {what} isn't installed", flush=True)
            return
        self.passes.same(what, (done.returncode, done.stdout.strip()), (0, "ok"))

    def drivers(self):
        words = f"host={HERE} port={self.port} user=root dbname=pgbouncer"
        two = (f"import psycopg2\nc = psycopg2.connect('{words}')\nc.autocommit = True\nk = c.cursor()\nk.execute('SHOW STATS')\n"
               "assert k.description[1].type_code == 1700\nassert any(r[0] == 'shop' for r in k.fetchall())\nprint('ok')")
        self.run_python("psycopg2 at the console", two)
        three = (f"import psycopg\nc = psycopg.connect('{words}', autocommit=True, cursor_factory=psycopg.ClientCursor)\n"
                 "assert c.execute('SHOW POOLS').fetchall()\nprint('ok')")
        self.run_python("psycopg 3 at the console", three)
        if shutil.which("perl") and subprocess.run(["perl", "-MDBD::Pg", "-e", "1"], stderr=subprocess.DEVNULL).returncode == 0:
            place = f"dbi:Pg:dbname=pgbouncer;host={HERE};port={self.port}"
            text = (f"use DBI; my $d = DBI->connect('{place}', 'root', '', {{RaiseError => 1}}); "
                    "my $r = $d->selectall_arrayref('SHOW POOLS'); print scalar(@$r) > 0 ? 'ok' : 'none';")
            done = subprocess.run(["perl", "-e", text], capture_output=True, text=True, timeout=60)
            self.passes.same("DBD::Pg at the console", (done.returncode, done.stdout), (0, "ok"))
        else:
            print("not tried: DBD::Pg isn't installed", flush=True)

    def exporter(self):
        """Debian's exporter, which can't run with Debian's own PgBouncer."""
        program = installed("prometheus-pgbouncer-exporter")
        if not program:
            return
        port = free_port()
        text = (f"exporter_host: {HERE}\nexporter_port: {port}\npgbouncers:\n  -\n    dsn: postgresql://root@{HERE}:{self.port}/pgbouncer\n"
                "    connect_timeout: 5\n    extra_labels:\n      pool_id: 1\n")
        config = self.place.write("exporter.yml", text)
        process = subprocess.Popen([program, "--config", str(config)], stdout=subprocess.DEVNULL, stderr=subprocess.DEVNULL)
        scraped = until(lambda: "pgbouncer_stats" in fetched(port, "metrics"), 20)
        self.passes.holds("Debian's exporter", scraped, fetched(port, "metrics")[-300:])
        process.terminate()
        process.wait(10)

    def prometheus(self):
        """Debian's Prometheus scrapes the figures, and then has each series that the dashboard names."""
        program = installed("prometheus")
        if not program:
            return
        port, wanted = free_port(), named(TOP / "packaging/grafana/pgsess.json")
        text = ("global:\n  scrape_interval: 1s\nscrape_configs:\n  - job_name: pgsess\n    static_configs:\n"
                f"      - targets: ['{HERE}:{self.metrics}']\n")
        config = self.place.write("prometheus.yml", text)
        process = self.place.start(program, f"--config.file={config}", f"--storage.tsdb.path={self.place.folder / 'prometheus'}",
                                   f"--web.listen-address={HERE}:{port}", stdout=subprocess.DEVNULL, stderr=subprocess.DEVNULL)

        def lacking():
            told = fetched(port, "api/v1/label/__name__/values")
            return wanted - set(json.loads(told)["data"] if told else [])
        has_all = until(lambda: not lacking(), 40)
        self.passes.holds("Debian's Prometheus has each series that the dashboard names", has_all, str(lacking()))
        process.terminate()
        process.wait(20)

    def check_postgres(self):
        program = installed("check_postgres")
        if not program:
            return
        self.begin("console_style = pgbouncer\n")
        told = {}
        for action in ("pgb_pool_cl_active", "pgb_pool_cl_waiting", "pgb_pool_sv_active", "pgb_pool_sv_idle", "pgb_pool_sv_used",
                       "pgb_pool_maxwait"):
            client = Client(self.port, "ann", "shop", USERS["ann"][0])
            done = subprocess.run([program, f"--action={action}", f"--host={HERE}", f"--port={self.port}", "--dbuser=root",
                                   "--dbname=pgbouncer", "--warning=90", "--critical=95"], capture_output=True, text=True, timeout=60)
            told[action] = done.returncode
            client.leave()
        self.passes.same("check_postgres' actions of a pooler", told, dict.fromkeys(told, 0))

    def munin(self):
        folder = "/usr/share/munin/plugins"
        for name, wanted in (("pgbouncer_connections", "cl_active"), ("pgbouncer_requests", "shop.value")):
            plugin = os.path.join(folder, name)
            if not os.path.exists(plugin):
                print(f"not tried: munin's {name} isn't installed", flush=True)
                continue
            link = self.place.folder / f"{name}_shop"
            if not link.exists():
                os.symlink(plugin, link)
            done = subprocess.run(["perl", str(link)], capture_output=True, text=True, timeout=60,
                                  env={**os.environ, "PGHOST": HERE, "PGPORT": str(self.port), "PGUSER": "root",
                                       "MUNIN_LIBDIR": "/usr/share/munin", "PERL5LIB": "/usr/share/perl5"})
            self.passes.holds(f"munin's {name}", done.returncode == 0 and wanted in done.stdout, (done.stdout + done.stderr)[-300:])

    def styled(self):
        """PgBouncer's columns, where they are asked for; the console's own by default."""
        own = list(table(self.port, "POOLS")[0]) if table(self.port, "POOLS") else []
        self.begin("console_style = pgbouncer\n")
        blocks = [Client(self.port, "ann", "shop", USERS["ann"][0]) for _ in range(POOL)]
        waits = socket.create_connection((HERE, self.port))
        waits.sendall(startup("ann", "shop"))
        until(lambda: int(row_of(table(self.port, "POOLS"), database="shop").get("maxwait", 0)) >= 1, 20)
        row = row_of(table(self.port, "POOLS"), database="shop")
        self.passes.holds("console_style = pgbouncer: maxwait of who waits",
                          int(row.get("maxwait", 0)) >= 1 and row.get("cl_waiting") == "1", str(row))
        self.passes.same("by default POOLS has the console's own columns", own,
                         ["database", "user", "cl_active", "cl_waiting", "sv_active", "sv_idle"])
        client = Client(self.port, "root", "pgbouncer", USERS["root"][0])
        self.passes.same("its welcome", client.reports.get("server_version"), "1.24.0/bouncer")
        try:
            client.ask("SHOW NOTHING")
            text = ""
        except Refused as error:
            text = error.text
        self.passes.holds("an unknown command's error names SHOW HELP", "SHOW HELP" in text, text)
        client.leave()
        waits.close()
        for it in blocks:
            it.leave()

    def all(self):
        for part in (self.statistics, self.coming_and_going, self.activity, self.lookers, self.rates, self.scrapes, self.styled):
            part()
        self.install()
        self.begin()
        Client(self.port, "ann", "shop", USERS["ann"][0]).leave()
        for part in (self.drivers, self.exporter, self.prometheus, self.munin, self.check_postgres):
            part()
        self.passes.tell("SHUTDOWN", self.pooler.shut())
        self.pooler.stop()
        self.cluster.stop()


if __name__ == "__main__":
    play(Monitors)
