#!/usr/bin/env python3
"""Shows that `pgsess serve` does what it is told: by its seed, by addresses, by settings and users, also at RELOAD; and that its log tells
why a link is closed, which one a client was lent, where a client came from and how long it was there. In front of a PostgreSQL server of
Debian, and of servers of its own that say what no PostgreSQL would.

Usage: as_told.py PROGRAM
"""
import os
import pathlib
import re
import socket
import sys
import threading
import time

sys.path.insert(0, str(pathlib.Path(__file__).resolve().parents[1] / "lib"))
from asking import outcome_at
from cluster import HERE, USERS, Cluster, until
from friendly import DONE, KEY, OK, READY, Server
from passes import Show, play
from wire import RESET, TERMINATE, Client, Cut, Refused, md5_answer, message, query, startup

TOO = "127.0.0.2"
SECONDS = 20
STAY = 1.5
# so many seconds more a busy machine may take
SLACK = 8
# the first key word of the seed 00 01 .. 1f: ChaCha20 with a counter and a nonce of 64 bits, by another program
COUNTED, FIRST_WORD = bytes(range(32)), bytes.fromhex("7d2bfd396a19c5d9")
WRONG_PASSWORD, TOO_MANY, TOO_LONG = "28P01", "53300", "57P03"


class Breaking(Server):
    """One whose session breaks off behind an error."""

    def answer(self, connection, held):
        is_last = held[:1] == b"Q" and self.answers[held == RESET][:1] == b"E"
        left = super().answer(connection, held)
        if is_last:
            raise OSError("it breaks off")
        return left


class Ending(Server):
    """One whose session ends with its answer: what it says, and that it says no more, come at once."""

    def answer(self, connection, held):
        if held[:1] == b"Q":
            connection.setsockopt(socket.IPPROTO_TCP, socket.TCP_CORK, 1)
            connection.sendall(self.answers[held == RESET])
            connection.shutdown(socket.SHUT_WR)
            return b""
        return super().answer(connection, held)


class AsTold(Show):
    def __init__(self, program):
        super().__init__(program, "as told")
        self.cluster = Cluster(self.place)

    def begin(self, **more):
        super().begin(**{"auth": "md5", **more})
        self.before = len(self.log())

    def logs(self, what, line):
        found = lambda: re.search(line, self.log()[self.before:], re.M)
        until(found, 5)
        self.passes.holds(what, found(), self.log()[self.before:][-400:])
        return found()

    def reload(self, name, *changes):
        """Writes the file anew with these changes, and has it read."""
        text = (self.place.folder / name).read_text()
        for old, new in changes:
            text = re.sub(old, new, text, flags=re.M)
        self.place.write(name, text)
        self.console("RELOAD")

    def first_word(self, seed):
        self.begin(seed=seed)
        client = Client(self.pooler.port, "ann", "shop", USERS["ann"][0])
        client.leave()
        return client.key

    def seeds(self):
        self.passes.same("the first key word of a known seed", self.first_word(COUNTED), FIRST_WORD)
        self.passes.same("once more", self.first_word(COUNTED), FIRST_WORD)
        words = {self.first_word(os.urandom(32)) for _ in range(2)}
        self.passes.same("of two other seeds it is another", len(words - {FIRST_WORD}), 2)
        words = {self.first_word(None) for _ in range(2)}
        self.passes.same("and of the system's, at two starts without a file", len(words - {FIRST_WORD}), 2)

    def addresses(self):
        """A server at another address of this machine, and a cancel there; nothing listens at its port here."""
        there = Server(host=TOO)
        self.begin(more_rows=f"there = host={TOO} port={there.port} dbname=shop")
        client = Client(self.pooler.port, "ann", "there", USERS["ann"][0])
        self.passes.same("a row's host is dialled", client.ask("SELECT"), [])
        cancel = socket.create_connection((HERE, self.pooler.port))
        cancel.sendall((16).to_bytes(4, "big") + bytes.fromhex("04d2162e") + client.key)
        self.passes.same("a cancel is closed without a byte", cancel.recv(16), b"")
        cancel.close()
        until(lambda: there.cancels, 5)
        self.passes.same("and goes where its link leads, by the server's key", there.cancels, [KEY[5:]])
        client.leave()
        try:
            socket.create_connection((TOO, self.pooler.port), 5).close()
            refused = False
        except ConnectionRefusedError:
            refused = True
        self.passes.holds(f"listen_addr = {HERE}: {TOO} is refused", refused)

    def users(self):
        self.begin()
        self.passes.same("a user", outcome_at(self.pooler.port, "bc"), "served")
        self.reload("users.txt", (r'^"bc".*\n', ""))
        self.passes.same("taken out, RELOAD: is refused", outcome_at(self.pooler.port, "bc"), WRONG_PASSWORD)
        self.passes.same("others aren't", outcome_at(self.pooler.port), "served")
        self.reload("users.txt", (r'^"ann".*', '"ann" "other"'), (r"\Z", f'"bc" "{USERS["bc"][1]}"\n'))
        self.passes.same("put back: is served", outcome_at(self.pooler.port, "bc"), "served")
        self.passes.same("a password of before the RELOAD", outcome_at(self.pooler.port), WRONG_PASSWORD)
        self.cluster.tell("ALTER ROLE ann PASSWORD 'other'", "postgres")
        self.passes.same("the new one", outcome_at(self.pooler.port, password="other"), "served")
        self.cluster.tell("ALTER ROLE ann PASSWORD 'secret'", "postgres")

    def settings(self):
        self.begin(clients=2, size=1)
        port = self.pooler.port
        held = [Client(port, "ann", "shop", USERS["ann"][0]), Client(port, "bc", "shop", USERS["bc"][0])]
        self.passes.same("max_client_conn", outcome_at(port), TOO_MANY)
        self.reload("pgsess.ini", ("^max_client_conn = .*", "max_client_conn = 20"), ("^query_wait_timeout = .*", "query_wait_timeout = 3"))
        begin = time.monotonic()
        self.passes.same("RELOAD of it, and of query_wait_timeout", outcome_at(port), TOO_LONG)
        took = time.monotonic() - begin
        # the clock goes by whole seconds, so one of them may be short
        self.passes.holds("by the new time", 2 <= took < 3 + SLACK, f"{took:.1f} s")
        self.reload("pgsess.ini", ("^default_pool_size = .*", "default_pool_size = 2"))
        self.passes.same("RELOAD of default_pool_size", outcome_at(port), "served")
        self.reload("pgsess.ini", ("^max_client_conn = .*", "max_client_conn = 2"))
        self.passes.same("RELOAD with a lower max_client_conn", outcome_at(port), TOO_MANY)
        self.passes.same("keeps those who are there", [it.ask("SELECT") for it in held], [[[]]] * 2)
        for it in held:
            it.leave()

    def strange_servers(self):
        """A server that tells no key; one whose link is closed by the clock; and what the log says of links that are closed."""
        keyless, timed = Server(welcome=OK + READY), Server()
        foreign = Server(answers=(b"Z\0\0\0\3", b""))
        unreset = Server(answers=(DONE, message(b"E", b"SERROR\0C55000\0Mno\0\0") + READY))
        silent = Server(answers=(b"", b""))
        rows = "\n".join(f"{name} = host={HERE} port={it.port} dbname=shop" for name, it in
                         (("keyless", keyless), ("timed", timed), ("foreign", foreign), ("unreset", unreset), ("silent", silent)))
        self.begin(changes={"^server_idle_timeout = .*": "server_idle_timeout = 1"}, more_rows=rows)
        port = self.pooler.port
        for turn in ("a server that tells no key: its client is served", "over the same link, the next one"):
            self.passes.same(turn, outcome_at(port, database="keyless"), "served")
        self.passes.same("a client of a server that is given up by the clock", outcome_at(port, database="timed"), "served")
        self.passes.holds("its link is offered a Terminate", until(lambda: timed.sent.endswith(TERMINATE) and timed.ended, 10),
                          timed.sent[-20:].hex())
        link = r"link \d+ closed: "
        self.passes.same("a message of a length that none has", outcome_at(port, database="foreign"), "08P01")
        self.logs("is told", link + "malformed server message")
        self.passes.same("a reset that isn't answered as it has to be", outcome_at(port, database="unreset"), "served")
        self.logs("is told", link + "not reset by DISCARD ALL")
        client = Client(port, "ann", "silent", USERS["ann"][0])
        client.send(query("SELECT"))
        time.sleep(0.3)
        client.leave()
        self.logs("a client that left before all was answered is told", link + "left before all was answered")
        client = Client(port, "ann", "shop", USERS["ann"][0])
        has_recovered = self.cluster.crash(int(client.ask("SELECT pg_backend_pid()")[0][0]))
        self.logs("a server's process that is killed is told", link + "server connection ended")
        until(has_recovered)
        client.socket.close()

    def ended_sessions(self):
        """Sessions that their server ends while clients have them."""
        error = message(b"E", b"SERROR\0VERROR\0C42601\0Msyntax error\0\0")
        old = message(b"E", b"SFATAL\0C57P01\0Mold age\0\0")
        servers = {"broken": Breaking(answers=(error, b"")), "aged": Breaking(answers=(old, b"")),
                   "resetting": Breaking(answers=(DONE, old))}
        self.begin(more_rows="\n".join(f"{name} = host={HERE} port={it.port} dbname=shop" for name, it in servers.items()))
        port = self.pooler.port
        said = r"link \d+ closed: its server said "
        for what, ask in (("idles", None), ("works", "SELECT pg_sleep(20)")):
            client = Client(port, "ann", "shop", USERS["ann"][0])
            pid = client.ask("SELECT pg_backend_pid()")[0][0]
            if ask:
                client.send(query(ask))
            self.before = len(self.log())
            self.cluster.tell(f"SELECT pg_terminate_backend({pid})")
            self.logs(f"a session that is terminated while its client {what}",
                      said + "57P01 terminating connection due to administrator command$")
            client.socket.close()
        client = Client(port, "ann", "shop", USERS["ann"][0])
        client.ask("SET idle_in_transaction_session_timeout = 100")
        client.ask("BEGIN")
        self.logs("and one that idles in a transaction for too long",
                  said + "25P03 terminating connection due to idle-in-transaction timeout$")
        client.socket.close()
        clients = [Client(port, "ann", "shop", USERS["ann"][0]) for _ in range(2)]
        killed, _ = (client.ask("SELECT pg_backend_pid()")[0][0] for client in clients)
        # a session that is at work, be it with the end of its answer, isn't always told
        time.sleep(0.5)
        has_recovered = self.cluster.crash(int(killed))
        self.logs("sessions that end since another one was killed are told",
                  said + "57P02 terminating connection because of crash of another server process$")
        self.logs("and the one that was", r"link \d+ closed: server connection ended$")
        until(has_recovered)
        for client in clients:
            client.socket.close()
        self.broken_sessions(port, said)

    def broken_sessions(self, port, said):
        """The same of servers of its own."""
        self.before = len(self.log())
        self.passes.same("a session that breaks off behind an error", outcome_at(port, database="broken"), "08006")
        self.logs("is told as ended, without the error, by which no session ends", r"link \d+ closed: server connection ended$")
        self.passes.same("one of a server of before 9.6", outcome_at(port, database="aged"), "57P01")
        self.logs("is told with what that said", said + "57P01 old age$")
        self.before = len(self.log())
        self.passes.same("one that ends while it is reset", outcome_at(port, database="resetting"), "served")
        self.logs("is told as ended, and not as one that wasn't reset", r"link \d+ closed: server connection ended$")

    def last_answers(self):
        """A session that ends with its answer: that counts too."""
        server = Ending()
        self.begin(more_rows=f"ending = host={HERE} port={server.port} dbname=shop")
        client = Client(self.pooler.port, "ann", "ending", USERS["ann"][0], seconds=SECONDS)
        self.passes.same("a session that ends with its answer: that is given", client.ask("SELECT"), [])
        begin = time.monotonic()
        try:
            told = client.next()
        except Cut:
            told = None
        took = time.monotonic() - begin
        self.passes.holds("and then that its server has gone", told and told[0] == b"E" and b"C08006\0" in told[1], repr(told))
        # an end whose event was missed is found ten seconds later
        self.passes.holds("at once", took < 5, f"{took:.1f} s")
        client.socket.close()
        counted = lambda: [row[1:3] for row in self.console("SHOW STATS_TOTALS") if row[0] == "ending"]
        until(lambda: counted() == [["1", "1"]], 5)
        self.passes.same("the last answer counts as a transaction and as a query", counted(), [["1", "1"]])

    def leases(self):
        """Which link a client was lent, and to which process."""
        keyless = Server(welcome=OK + READY)
        row = f"keyless = host={HERE} port={keyless.port} dbname=shop"
        self.begin(size=1, more_rows=row, changes={"^log_connections = .*": "log_connections = 1"})
        port, shop = self.pooler.port, rf"127\.0\.0\.1:{self.cluster.port}"
        links = set()
        for turn in ("a client", "the next one over that link"):
            client = Client(port, "ann", "shop", USERS["ann"][0])
            pid, own = client.ask("SELECT pg_backend_pid()")[0][0], client.socket.getsockname()[1]
            came = rf"^pgsess: (client \d+ ann@shop from 127\.0\.0\.1:{own}) in\n"
            lent = rf"(?:.*\n)*?pgsess: \1 has link (\d+) to server {shop}, process {pid}$"
            found = self.logs(f"{turn} came in, and has its server's process", came + lent)
            links.add(found and found[2])
            client.leave()
        self.passes.same("both have the same link", len(links), 1)
        self.passes.same("a client of a server that tells no key", outcome_at(port, database="keyless"), "served")
        self.logs("has a link, and no process", rf"ann@keyless from .* has link \d+ to server 127\.0\.0\.1:{keyless.port}$")
        self.before = len(self.log())
        self.reload("pgsess.ini", ("^log_connections = .*", "log_connections = 0"))
        # what was told before that is in the log then
        until(lambda: re.search("^pgsess: reloaded$", self.log()[self.before:], re.M), 5)
        self.before = len(self.log())
        self.passes.same("log_connections = 0: a client", outcome_at(port), "served")
        self.passes.same("is told neither as in nor with its link", re.findall(" in$| has link ", self.log()[self.before:], re.M), [])

    def kept_settings(self):
        """Settings that a RELOAD doesn't change, each of which the log names, and no other."""
        self.begin()
        again = {"listen_addr": TOO, "listen_port": "1", "unix_socket_dir": "/nowhere", "unix_socket_mode": "0700",
                 "unix_socket_group": "ann",
                 "peer_id": "7", "metrics_addr": TOO, "metrics_port": "2"}
        kept_alive = {"tcp_keepalive": "0", "tcp_keepidle": "11", "tcp_keepintvl": "12", "tcp_keepcnt": "13", "tcp_user_timeout": "14"}
        wanted = sorted([*again, *(f"{it} of clients' connections" for it in kept_alive)])
        whole = (self.place.folder / "pgsess.ini").read_text()
        read_again = {"max_client_conn": "50", "max_links": "40", "default_pool_size": "2", "query_wait_timeout": "9"}
        for what, names, lines in (("no setting", [], {}), ("settings of clients and links", [], read_again),
                                   ("listen_port alone", ["listen_port"], {"listen_port": "1"}),
                                   ("all that are read at the start", wanted, {**again, **kept_alive})):
            text = whole
            for name, value in lines.items():
                text = re.sub(rf"^{name} *=.*\n", "", text, flags=re.M) + f"{name} = {value}\n"
            self.place.write("pgsess.ini", text)
            self.before = len(self.log())
            self.console("RELOAD")
            found = lambda: sorted(re.findall(r"^pgsess: not changed by RELOAD: (.*)$", self.log()[self.before:], re.M))
            self.logs(f"RELOAD with other values of {what}", "^pgsess: reloaded$")
            until(lambda: found() == names, 2)
            self.passes.same("tells those that stay as they were", found(), names)

    def asked(self):
        """A client that is asked for its password, and the salt."""
        client = Client(self.pooler.port)
        client.send(startup("ann", "shop"))
        return client, client.until(b"R")[1][4:8]

    def without_files(self):
        """A client that is there when no file is left: its server can't be reached."""
        self.begin()
        client, _ = self.asked()
        taken = {int(it) for it in os.listdir(f"/proc/{self.pooler.process.pid}/fd")}
        client.socket.close()
        self.begin(files=min(set(range(len(taken) + 1)) - taken))
        client, salt = self.asked()
        client.send(message(b"p", md5_answer("ann", USERS["ann"][0], salt).encode() + b"\0"))
        try:
            told = client.until(b"Z")
        except Refused as error:
            told = error.code
        self.passes.same("no file is left for a link: its client", told, "08001")
        server = rf"server 127\.0\.0\.1:{self.cluster.port}"
        self.logs("is told as a want of files", rf"^pgsess: no file left for a connection to {server}: Too many open files")
        self.passes.same("and not as a server that isn't reached", re.findall("not reached", self.log()[self.before:]), [])
        client.socket.close()

    def asking_again(self):
        """A client whose server has no place for its link until another is given back."""
        self.cluster.tell("ALTER ROLE ann CONNECTION LIMIT 1", "postgres")
        self.begin(size=2)
        first, told = Client(self.pooler.port, "ann", "shop", USERS["ann"][0]), []
        second = threading.Thread(target=lambda: told.append(outcome_at(self.pooler.port)))
        second.start()
        refused = "too many connections for role"
        until(lambda: refused in self.cluster.log.read_text(errors="replace"), 5)
        first.leave()
        second.join(SECONDS)
        self.passes.same("a client whose start was refused is served over the link that came back", told, ["served"])
        why = rf'server 127\.0\.0\.1:{self.cluster.port} refused the start: 53300 {refused} "ann"$'
        self.logs("and is told to ask again", rf"^pgsess: client \d+ ann@shop from .* asks again after \d+\.\d s: {why}")
        self.passes.same("and not to be refused", re.findall(" refused after ", self.log()[self.before:]), [])
        self.cluster.tell("ALTER ROLE ann CONNECTION LIMIT -1", "postgres")

    def left_waiting(self):
        """A client that goes while it waits for its link."""
        self.begin(size=1, changes={"^log_disconnections = .*": "log_disconnections = 1"})
        holder = Client(self.pooler.port, "ann", "shop", USERS["ann"][0])
        client, salt = self.asked()
        client.send(message(b"p", md5_answer("ann", USERS["ann"][0], salt).encode() + b"\0"))
        until(lambda: sum(int(row[3]) for row in self.console("SHOW POOLS")) == 1)
        client.socket.close()
        self.logs("a client that goes while it waits is told as gone", r"^pgsess: client \d+ ann@shop from .* out after [\d.]+ s$")
        self.passes.same("and not as refused", re.findall(" refused after ", self.log()[self.before:]), [])
        holder.leave()

    def visits(self):
        logs = {"^log_connections = .*": "log_connections = 1", "^log_disconnections = .*": "log_disconnections = 1"}
        self.begin(listen=f"{HERE}, {TOO}", changes=logs)
        near = socket.socket()
        near.bind((TOO, 0))
        near.settimeout(SECONDS)
        near.connect((TOO, self.pooler.port))
        own = near.getsockname()[1]
        client = Client.__new__(Client)
        client.socket, client.held, client.reports, client.key = near, b"", {}, None
        client.log_in("ann", "shop", USERS["ann"][0], {})
        time.sleep(STAY)
        client.leave()
        self.logs("where a client came from", rf"^pgsess: client \d+ ann@shop from {TOO}:{own} in$")
        found = self.logs("and how long it was there", rf"from {TOO}:{own} out after ([\d.]+) s$")
        if found:
            self.passes.holds("by the clock", STAY <= float(found[1]) < STAY + SLACK, found[0])

    def all(self):
        for part in (self.seeds, self.addresses, self.users, self.settings, self.strange_servers, self.ended_sessions, self.last_answers,
                     self.leases, self.kept_settings,
                     self.without_files, self.asking_again, self.left_waiting, self.visits):
            part()
        self.pooler.stop()
        self.cluster.stop()


if __name__ == "__main__":
    play(AsTold)
