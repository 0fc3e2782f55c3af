#!/usr/bin/env python3
"""Shows that `pgsess serve` asks clients for SCRAM-SHA-256, in front of a PostgreSQL of Debian as it is installed, and lets in those alone
that know their passwords.

Usage: scram_clients.py PROGRAM, at the top of the repository.

psql, pgbench, psycopg 3 and JDBC (where the system has them or they can be installed) log in by `auth_type = scram-sha-256`, with passwords
and with a verifier in the user file, and by `md5` and `plain` with the verifier; and once more where the user file has nothing but the
verifiers that the server keeps in pg_authid, so that what a client reveals starts its link. A verifier's text is no password. A name's salt
is the same at each try and behind RELOAD, whether there is such a user or not, and another under another seed. Spoiled messages by the
thousand come each to an end that has a name. At the end the log has no secret in it.
"""
import base64
import collections
import hashlib
import os
import pathlib
import random
import re
import shutil
import subprocess
import sys
import tempfile

sys.path.insert(0, str(pathlib.Path(__file__).resolve().parents[1] / "lib"))
from asking import UNREACHED, failures, outcome, run
from cluster import HERE, USERS, Installed, Pooler, until
from passes import play
from scram_reader import kept
from scram_talk import Told
from wire import ASKS_SASL, CONTINUES, MECHANISM, Client, Cut, Refused, Scram, initial, message, startup

SECONDS = 60
SEED = 1
SPOILED = 2000
SYSTEM_PYTHON = "/usr/bin/python3"
JDBC = pathlib.Path("/usr/share/java/postgresql.jar")
PACKAGES = ["python3-psycopg", "libpostgresql-jdbc-java"]
VERIFIED, DIGESTED = "kept-as-a-verifier", "only-digested"
VERIFIER = kept(VERIFIED, salt=b"a salt of its own", rounds=5000)
PEOPLE = {
    "ann": ("pencil-of-ann", "pencil-of-ann"),
    "bc": (DIGESTED, "md5" + hashlib.md5(f"{DIGESTED}bc".encode()).hexdigest()),
    "vera": (VERIFIED, VERIFIER),
    "root": ("root-of-the-pooler", "root-of-the-pooler"),
}
ROW = [["1"]]
WRONG, MALFORMED = "28P01 password authentication failed", "08P01 malformed client message"
OFFER = ASKS_SASL.to_bytes(4, "big") + MECHANISM + b"\0\0"
ASK_BY_JDBC = """import java.sql.*;
public class Ask {
    public static void main(String[] words) throws Exception {
        try (Connection it = DriverManager.getConnection(words[0], words[1], words[2])) {
            ResultSet rows = it.createStatement().executeQuery("SELECT current_user");
            rows.next();
            System.out.println(rows.getString(1));
        } catch (SQLException error) {
            System.out.println(error.getSQLState());
        }
    }
}
"""


def asked(port, user):
    """A client that was offered SCRAM."""
    client = Client(port)
    client.send(startup(user, "shop"))
    return client, client.until(b"R")[1]


def challenged(port, user):
    """What a name is asked behind its first message: its salt and its rounds."""
    client, offer = asked(port, user)
    scram = Scram("nobody's")
    client.send(initial(scram.first))
    text = client.until(b"R")[1]
    client.socket.close()
    joint, salt, rounds = (part[2:] for part in text[4:].split(b","))
    whole = offer == OFFER and text[:4] == CONTINUES.to_bytes(4, "big") and joint.startswith(scram.own) and len(joint) > len(scram.own)
    return (whole, base64.b64decode(salt), int(rounds))


def end_of(client):
    """What a client is told in the end."""
    try:
        kind, body = client.next()
    except (Cut, OSError):
        return "closed"
    if kind == b"E":
        error = Refused(body)
        return f"{error.code} {error.text}"
    return f"{kind.decode()} {int.from_bytes(body[:4], 'big')}"


LETTERS = b"ABCDEFGHIJKLMNOPQRSTUVWXYZabcdefghijklmnopqrstuvwxyz0123456789+/"


def spoiled(chance, text):
    """A text with some bytes changed, left out or put in; of every fourth it is a letter of its last part alone."""
    spoils = bytearray(text)
    if chance.randrange(4):
        for _ in range(chance.randint(1, 3)):
            at = chance.randrange(len(spoils) + 1)
            spoils[at:at + chance.randint(0, 2)] = chance.choice([b"", b",", b"=", b"\0", b"p=", chance.randbytes(1)])
    else:
        spoils[-chance.randint(3, 40)] = chance.choice(LETTERS)
    return bytes(spoils) if spoils != text else spoiled(chance, text)


def cut_proof(text):
    """A last message with a proof of 31 bytes."""
    front, mark, proof = text.rpartition(b"p=")
    return front + mark + base64.b64encode(base64.b64decode(proof)[:31])


class ScramClients(Told):
    def __init__(self, program):
        super().__init__(program, "scram clients", PEOPLE)
        self.forms = set()

    def pooler(self, **settings):
        return Pooler(self.place, self.cluster, self.program, **settings)

    def told(self, what, line):
        self.passes.holds(f"the log tells: {what}", until(lambda: re.search(line, self.log(), re.M), 5), self.log()[-400:])

    # ---- real clients

    def install(self):
        """What can be had of the drivers."""
        if os.geteuid() == 0:
            quiet = {"stdout": subprocess.DEVNULL, "stderr": subprocess.DEVNULL, "env": {**os.environ, "DEBIAN_FRONTEND": "noninteractive"}}
            subprocess.run(["apt-get", "update", "-q"], **quiet)
            for package in PACKAGES:
                subprocess.run(["apt-get", "install", "-q", "-y", "--no-install-recommends", package], **quiet)

    def psql(self, pooler, name, users):
        for user in users:
            told = run(["psql", "-X", "-A", "-t", "-c", "SELECT 1"], pooler.port, user)
            self.passes.same(f"{name}: psql of {user}", told, (0, b"1\n", ""))
            status, out, errors = run(["psql", "-X", "-A", "-t", "-c", "SELECT 1"], pooler.port, user, password="wrong")
            self.passes.same(f"{name}: psql of {user} by a wrong password",
                             (status, out, errors.strip().endswith("password authentication failed")), (2, b"", True))

    def pgbench(self, pooler, name):
        for what, words in {"pgbench -i": ["-i", "-q"], "pgbench -C": ["-C", "-c", "8", "-j", "8", "-t", "20"]}.items():
            status, out, errors = run(["pgbench", *words], pooler.port, "ann")
            self.passes.same(f"{name}: {what}", (status, failures(out, errors)), (0, []))

    def secure(self, pooler, name):
        """Who wants TLS, or a channel that TLS alone could bind, is refused by its own library, as before a server without TLS."""
        for wish, why in (("channel_binding=require", "channel binding"), ("sslmode=require", "SSL")):
            status, out, errors = run(["psql", "-X", "-c", "SELECT 1", f"{wish}"], pooler.port, "ann")
            self.passes.same(f"{name}: psql with {wish}", (status, out, why in errors), (2, b"", True))

    def psycopg(self, pooler, name, user, password, wanted):
        text = (f"import psycopg\ntry:\n    print(psycopg.connect(host='{HERE}', port={pooler.port}, user='{user}', password='{password}', "
                f"dbname='shop').execute('SELECT current_user').fetchone()[0])\nexcept psycopg.OperationalError as e:\n    print('refused' "
                f"if 'password authentication failed' in str(e) else e)")
        done = subprocess.run([SYSTEM_PYTHON, "-c", text], capture_output=True, text=True, timeout=SECONDS)
        if "ModuleNotFoundError" in done.stderr:
            print(f"not tried: psycopg 3 isn't installed ({name})", flush=True)
            return
        self.passes.same(f"{name}: psycopg 3 of {user}", (done.stdout.strip(), done.returncode), (wanted, 0))

    def jdbc(self, pooler, name, user, password, wanted):
        if not JDBC.exists() or not shutil.which("javac"):
            print(f"not tried: JDBC isn't installed ({name})", flush=True)
            return
        with tempfile.TemporaryDirectory() as folder:
            source = pathlib.Path(folder) / "Ask.java"
            source.write_text(ASK_BY_JDBC)
            words = ["java", "-cp", JDBC, source, f"jdbc:postgresql://{HERE}:{pooler.port}/shop?sslmode=disable", user, password]
            done = subprocess.run([str(it) for it in words], capture_output=True, text=True, timeout=SECONDS)
        self.passes.same(f"{name}: JDBC of {user}", (done.stdout.strip(), done.returncode), (wanted, 0))

    def drivers(self, pooler, name):
        for user in ("ann", "vera"):
            password = USERS[user][0]
            self.psycopg(pooler, name, user, password, user)
            self.jdbc(pooler, name, user, password, user)
        self.psycopg(pooler, name, "ann", "wrong", "refused")
        self.jdbc(pooler, name, "ann", "wrong", "28P01")

    # ---- passwords and secrets

    def plain_client(self, pooler, user, password, database="shop"):
        return outcome(lambda: Client(pooler.port, user, database, password))

    def secrets(self, pooler, name):
        rows = [
            ("a password", "ann", PEOPLE["ann"][0], ROW),
            ("a wrong password", "ann", "wrong", WRONG),
            ("no password", "ann", "", WRONG),
            ("a verifier's password", "vera", VERIFIED, ROW),
            ("a verifier's own text", "vera", VERIFIER, WRONG),
            ("another password for it", "vera", VERIFIED + "x", WRONG),
            ("nobody", "zed", "secret", WRONG),
        ]
        for what, user, password, wanted in rows:
            self.passes.same(f"{name}: {what}", self.plain_client(pooler, user, password), wanted)
        self.passes.same(f"{name}: a database that isn't there, behind a right password",
                         self.plain_client(pooler, "ann", PEOPLE["ann"][0], "nowhere"), "3D000 database does not exist")
        self.passes.same(f"{name}: and behind a wrong one", self.plain_client(pooler, "ann", "wrong", "nowhere"), WRONG)

    def console(self, pooler, name):
        console = Client(pooler.port, "root", "pgbouncer", USERS["root"][0])
        self.passes.same(f"{name}: the console", len(console.ask("SHOW VERSION")), 1)
        shown = dict(row[:2] for row in console.ask("SHOW CONFIG"))
        self.passes.same(f"{name}: SHOW CONFIG", shown["auth_type"], name)
        console.leave()
        self.passes.same(f"{name}: a wrong password at the console", self.plain_client(pooler, "root", "wrong", "pgbouncer"), WRONG)

    def reload(self):
        console = Client(self.reloaded.port, "root", "pgbouncer", USERS["root"][0])
        console.ask("RELOAD")
        console.leave()

    # ---- names

    def names(self):
        """What a name is asked tells nobody whether there is such a user."""
        first = self.reloaded = self.pooler(auth="scram-sha-256", seed=bytes(range(32)))
        names = ["ann", "bc", "zed", "yvonne"]
        salts = {name: challenged(first.port, name) for name in names}
        self.passes.same("known and unknown names: the form, the salt's length and the rounds",
                         {(whole, len(salt), rounds) for whole, salt, rounds in salts.values()}, {(True, 16, 4096)})
        self.passes.same("each has a salt of its own", len({salt for _, salt, _ in salts.values()}), len(names))
        self.passes.same("at each try the same", {name: challenged(first.port, name) for name in names}, salts)
        self.reload()
        self.passes.same("behind RELOAD too", {name: challenged(first.port, name) for name in names}, salts)
        self.passes.same("a verifier has its own", challenged(first.port, "vera"), (True, b"a salt of its own", 5000))
        self.ends(first, "names")
        second = self.pooler(auth="scram-sha-256", seed=bytes(range(1, 33)))
        others = {name: challenged(second.port, name) for name in names}
        self.passes.same("under another seed each has another", [name for name in names if others[name][1] == salts[name][1]], [])
        self.ends(second, "another seed")
        again = self.pooler(auth="scram-sha-256", seed=bytes(range(32)))
        self.passes.same("and under the first one again the same", {name: challenged(again.port, name) for name in names}, salts)
        self.ends(again, "the first seed")

    # ---- clients that send what nobody should

    def spoils(self, pooler):
        """Spoiled first and last messages: each is malformed or wrong, or still right where what was spoiled is passed over."""
        chance, ends = random.Random(SEED), collections.Counter()
        for number in range(SPOILED):
            client, _ = asked(pooler.port, "ann")
            scram = Scram("pencil-of-ann", name=b"*")
            if number % 2:
                client.send(initial(scram.first))
                text = scram.last(client.until(b"R")[1][4:])
                client.send(message(b"p", spoiled(chance, text)))
                ends["last", end_of(client)] += 1
            else:
                client.send(message(b"p", spoiled(chance, initial(scram.first)[5:])))
                ends["first", end_of(client)] += 1
            client.socket.close()
        allowed = {("first", MALFORMED), ("first", f"R {CONTINUES}"), ("last", MALFORMED), ("last", WRONG)}
        self.passes.same(f"{SPOILED} spoiled messages: {dict(ends)}", set(ends) - allowed, set())
        self.passes.holds("most of them are malformed, and some proofs wrong",
                          ends["first", MALFORMED] > SPOILED // 4 and ends["last", WRONG] > 100, str(ends))

    def odd_firsts(self, pooler):
        """First messages that are malformed in one place."""
        bare = b"n=,r=" + b"A" * 24
        firsts = {
            "another mechanism": initial(b"n,," + bare, b"SCRAM-SHA-1"),
            "the mechanism with a bound channel": initial(b"p=tls-server-end-point,," + bare, MECHANISM + b"-PLUS"),
            "a bound channel": initial(b"p=tls-server-end-point,," + bare),
            "somebody else's name": initial(b"n,a=bc," + bare),
            "an extension that must be known": initial(b"n,,m=x," + bare),
            "no nonce": initial(b"n,,n=,r="),
            "a nonce of 129 bytes": initial(b"n,,n=,r=" + b"A" * 129),
            "a password": message(b"p", b"pencil-of-ann\0"),
            "nothing": message(b"p"),
        }
        for what, said in firsts.items():
            client, _ = asked(pooler.port, "ann")
            client.send(said)
            self.passes.same(f"a first message with {what}", end_of(client), MALFORMED)
            client.socket.close()

    def odd_lasts(self, pooler):
        """And last ones."""
        own = b"A" * 24
        lasts = {
            "a proof of 31 bytes": cut_proof,
            "another header": lambda it: it.replace(b"c=biws", b"c=eSws"),
            "another nonce": lambda it: it.replace(b",p=", b"x,p="),
            "the client's nonce alone": lambda it: re.sub(rb"r=[^,]*", b"r=" + own, it),
            "no proof": lambda it: it.rpartition(b",p=")[0],
            "nothing in it": lambda it: b"",
        }
        for what, change in lasts.items():
            client, _ = asked(pooler.port, "ann")
            scram = Scram("pencil-of-ann", own=own)
            client.send(initial(scram.first))
            client.send(message(b"p", change(scram.last(client.until(b"R")[1][4:]))))
            self.passes.same(f"a last message with {what}", end_of(client), MALFORMED)
            client.socket.close()

    def odd(self, pooler):
        """Messages that nobody need send."""
        self.odd_firsts(pooler)
        self.odd_lasts(pooler)
        client, _ = asked(pooler.port, "ann")
        scram = Scram("pencil-of-ann", header=b"y,,")
        client.send(initial(scram.first))
        client.send(message(b"p", scram.last(client.until(b"R")[1][4:])))
        self.passes.same("a client that could bind a channel, if the server could", end_of(client), "R 12")
        client.socket.close()
        client, _ = asked(pooler.port, "ann")
        client.send(message(b"X"))
        self.passes.same("a client that leaves is told nothing", end_of(client), "closed")

    # ---- all

    def by_scram(self):
        name = "scram-sha-256"
        pooler = self.pooler(auth=name, changes={"^log_connections = .*": "log_connections = 1"})
        self.told("a digest lets nobody in", r"^pgsess: 1 secrets of the user file accept no password, the first that of bc$")
        self.psql(pooler, name, ["ann", "vera"])
        self.pgbench(pooler, name)
        self.secure(pooler, name)
        self.drivers(pooler, name)
        self.secrets(pooler, name)
        self.passes.same(f"{name}: a digest's password", self.plain_client(pooler, "bc", DIGESTED), WRONG)
        self.told("why", r"client \d+ bc@shop from .* failed after .*: its secret is an MD5 digest, by which SCRAM judges nobody$")
        self.console(pooler, name)
        self.odd(pooler)
        self.spoils(pooler)
        self.ends(pooler, name)

    def by_others(self):
        """A verifier beside passwords where these are asked for otherwise."""
        for name in ("md5", "plain"):
            pooler = self.pooler(auth=name)
            self.psql(pooler, name, ["ann", "vera"])
            self.secrets(pooler, name)
            self.passes.same(f"{name}: a digest's password", self.plain_client(pooler, "bc", DIGESTED), UNREACHED)
            self.console(pooler, name)
            self.ends(pooler, name)

    def verifiers_alone(self):
        """The user file is the server's own list, in which nobody's password stands."""
        self.forms |= {verifier for _, verifier in USERS.values()}
        for name, verifier in self.cluster.tell("SELECT rolname, rolpassword FROM pg_authid WHERE rolpassword LIKE 'SCRAM-SHA-256$%'"):
            USERS[name] = (USERS[name][0], verifier)
        self.forms |= {verifier for _, verifier in USERS.values()}
        for name in ("scram-sha-256", "md5", "plain"):
            what = f"verifiers alone by {name}"
            pooler = self.pooler(auth=name, changes={"^log_connections = .*": "log_connections = 1"})
            self.psql(pooler, what, ["ann", "bc", "vera"])
            self.pgbench(pooler, what)
            self.drivers(pooler, what)
            self.passes.same(f"{what}: a verifier's own text", self.plain_client(pooler, "ann", USERS["ann"][1]), WRONG)
            self.unlike(pooler, what)
            self.ends(pooler, what)
        self.unasked()

    def unlike(self, pooler, what):
        """The server has another verifier, or asks for the password itself: the client proves to know its password, and no server is
        had."""
        self.cluster.tell(f"ALTER ROLE bc PASSWORD '{kept(DIGESTED, salt=b'another salt')}'")
        self.reset(pooler)
        self.passes.same(f"{what}: a server with another verifier of the same password", self.plain_client(pooler, "bc", DIGESTED),
                         UNREACHED)
        self.told("another verifier", r"bc@shop from .* refused after .* answered its start by no message that belongs there")
        self.cluster.tell(f"ALTER ROLE bc PASSWORD '{USERS['bc'][1]}'")
        self.passes.same(f"{what}: with the same one again", self.plain_client(pooler, "bc", DIGESTED), ROW)
        for method, number in (("password", 3), ("trust", None)):
            self.asks("bc", method)
            self.reset(pooler)
            self.passes.same(f"{what}: a server by {method}", self.plain_client(pooler, "bc", DIGESTED), UNREACHED if number else ROW)
            if number:
                self.told("what it asks", rf"asks for .*authentication method {number}\b")
        self.asks("bc", "scram-sha-256")

    def asks(self, user, method):
        """The server asks this user so."""
        rules = self.cluster.data / "pg_hba.conf"
        rules.write_text(f"host all {user} {HERE}/32 {method}\n" + re.sub(rf"^host all {user} .*\n", "", rules.read_text(), flags=re.M))
        loaded = lambda: self.cluster.tell("SELECT pg_conf_load_time()")
        before = loaded()
        self.cluster.tell("SELECT pg_reload_conf()")
        until(lambda: loaded() != before)

    def reset(self, pooler):
        """No link that is there is lent again."""
        console = Client(pooler.port, "root", "pgbouncer", USERS["root"][0])
        console.ask("RECONNECT")
        console.leave()

    def unasked(self):
        """Who isn't asked reveals nothing, so nothing answers a server."""
        pooler = self.pooler(auth="trust")
        self.passes.same("verifiers alone by trust", self.plain_client(pooler, "ann", ""), UNREACHED)
        self.told("what the server asks", r"asks for SCRAM \(authentication method 10\)")
        self.ends(pooler, "verifiers alone by trust")

    def is_silent(self):
        forms = [it.encode() for it in self.forms.union(*PEOPLE.values())]
        found = {it for it in [*forms, b"SCRAM-SHA-256$", b"biws", b"v=", b"p="] if it in self.said}
        found |= set(re.findall(rb"[A-Za-z0-9+/]{43}=", self.said))
        self.passes.same(f"none of {len(forms)} secrets is in {len(self.said)} bytes of logs and output", found, set())

    def all(self):
        self.install()
        self.cluster = Installed(self.place)
        self.cluster.tell(f"ALTER ROLE vera PASSWORD '{VERIFIER}'")
        self.by_scram()
        self.by_others()
        self.names()
        self.verifiers_alone()
        self.is_silent()
        self.cluster.stop()
        self.passes.same("no process is left", self.place.left(), [])


if __name__ == "__main__":
    play(ScramClients)
