"""A plain client of PostgreSQL's protocol 3.0, for what psql and pgbench can't do: half a message, a cut, many idle connections."""
import base64
import hashlib
import hmac
import os
import socket
import struct

SECONDS = 20
PROTOCOL_3_0 = 196608
CANCEL_REQUEST = 80877102
ASKS_NOTHING, ASKS_CLEARTEXT, ASKS_MD5, ASKS_SASL, CONTINUES, ENDS = 0, 3, 5, 10, 11, 12
MECHANISM = b"SCRAM-SHA-256"


def message(kind, body=b""):
    return kind + (4 + len(body)).to_bytes(4, "big") + body


def query(text):
    return message(b"Q", text.encode() + b"\0")


TERMINATE, RESET = message(b"X"), query("DISCARD ALL")


def startup(user, database, **parameters):
    pairs = {"user": user, "database": database, **parameters}
    body = b"".join(f"{name}\0{value}\0".encode() for name, value in pairs.items()) + b"\0"
    return (8 + len(body)).to_bytes(4, "big") + PROTOCOL_3_0.to_bytes(4, "big") + body


def cancel_request(key):
    """The packet that asks for the cancel of what the client of this BackendKeyData is at."""
    return (16).to_bytes(4, "big") + CANCEL_REQUEST.to_bytes(4, "big") + key


def md5_answer(user, password, salt):
    """The text that answers a question for the MD5 digest of a password."""
    inner = hashlib.md5((password + user).encode()).hexdigest()
    return "md5" + hashlib.md5(inner.encode() + salt).hexdigest()


def initial(text, mechanism=MECHANISM):
    """A SASLInitialResponse with this text."""
    return message(b"p", mechanism + b"\0" + len(text).to_bytes(4, "big") + text)


class Scram:
    """A client's side of SCRAM-SHA-256 (RFC 5802), with a password of ASCII."""

    def __init__(self, password, header=b"n,,", name=b"", own=None):
        self.password, self.header, self.own = password.encode(), header, own or base64.b64encode(os.urandom(18))
        self.bare = b"n=" + name + b",r=" + self.own
        self.first, self.final = header + self.bare, b""

    def last(self, challenge):
        """The last message; the server's own is then known too."""
        joint, salt, rounds = (part[2:] for part in challenge.split(b","))
        key = hashlib.pbkdf2_hmac("sha256", self.password, base64.b64decode(salt), int(rounds))
        client, server = (hmac.digest(key, name, "sha256") for name in (b"Client Key", b"Server Key"))
        unproved = b"c=" + base64.b64encode(self.header) + b",r=" + joint
        whole = b",".join([self.bare, challenge, unproved])
        proof = bytes(it ^ other for it, other in zip(client, hmac.digest(hashlib.sha256(client).digest(), whole, "sha256")))
        self.final = b"v=" + base64.b64encode(hmac.digest(server, whole, "sha256"))
        return unproved + b",p=" + base64.b64encode(proof)


def fields(body):
    """The fields of an ErrorResponse or a NoticeResponse."""
    return {part[:1].decode(): part[1:].decode() for part in body.split(b"\0") if part}


class Cut(Exception):
    """The other side closed the connection."""


class Strange(Exception):
    """What no server says that knows the password too."""


class Refused(Exception):
    """The server's error."""

    def __init__(self, body):
        parts = fields(body)
        self.code, self.text = parts.get("C", ""), parts.get("M", "")
        super().__init__(f"{self.code} {self.text}")


def connected(host, port, seconds):
    """A socket to this place: a host that begins with a slash is the folder of a Unix socket, as for libpq."""
    if not host.startswith("/"):
        it = socket.create_connection((host, port), seconds)
        it.setsockopt(socket.IPPROTO_TCP, socket.TCP_NODELAY, 1)
        return it
    it = socket.socket(socket.AF_UNIX)
    it.settimeout(seconds)
    try:
        it.connect(f"{host}/.s.PGSQL.{port}")
    except BaseException:
        it.close()
        raise
    return it


class Client:
    """A connection. What is unexpected is an exception."""

    def __init__(self, port, user=None, database="shop", password="", host="127.0.0.1", seconds=SECONDS, **parameters):
        self.socket = connected(host, port, seconds)
        self.held, self.reports, self.key = b"", {}, None
        if user is not None:
            try:
                self.log_in(user, database, password, parameters)
            except BaseException:
                self.socket.close()
                raise

    def send(self, data):
        self.socket.sendall(data)

    def take(self, count):
        while len(self.held) < count:
            try:
                piece = self.socket.recv(65536)
            except ConnectionResetError:
                piece = b""
            if not piece:
                raise Cut
            self.held += piece
        part, self.held = self.held[:count], self.held[count:]
        return part

    def next(self):
        """The next message: its kind and its body."""
        head = self.take(5)
        return head[:1], self.take(int.from_bytes(head[1:], "big") - 4)

    def until(self, *kinds):
        """The next message of these kinds; an error is raised once it is there."""
        while True:
            kind, body = self.next()
            if kind in kinds:
                return kind, body
            if kind == b"E":
                raise Refused(body)
            if kind == b"S":
                name, value = body.split(b"\0")[:2]
                self.reports[name.decode()] = value.decode()
            if kind == b"K":
                self.key = body

    def log_in(self, user, database, password, parameters):
        self.send(startup(user, database, **parameters))
        scram = Scram(password)
        while True:
            _, body = self.until(b"R")
            asked, text = int.from_bytes(body[:4], "big"), body[4:]
            if asked == ASKS_NOTHING:
                break
            if asked == ASKS_SASL:
                self.send(initial(scram.first))
            elif asked == CONTINUES:
                self.send(message(b"p", scram.last(text)))
            elif asked == ENDS:
                if text != scram.final:
                    raise Strange(text)
            else:
                answer = password if asked == ASKS_CLEARTEXT else md5_answer(user, password, text[:4])
                self.send(message(b"p", answer.encode() + b"\0"))
        self.until(b"Z")

    def ask(self, text):
        """The rows of a Query, each a list of texts and Nones. An error is raised once the server is ready again."""
        self.send(query(text))
        rows, error = [], None
        while True:
            kind, body = self.next()
            if kind == b"D":
                rows.append(values(body))
            elif kind == b"E":
                error = body
                if fields(body).get("S") == "FATAL":
                    raise Refused(error)
            elif kind == b"Z":
                if error:
                    raise Refused(error)
                return rows

    def leave(self):
        """Ends in the manner of clients."""
        self.send(message(b"X"))
        self.socket.close()

    def cut(self):
        """Ends by a reset."""
        self.socket.setsockopt(socket.SOL_SOCKET, socket.SO_LINGER, struct.pack("ii", 1, 0))
        self.socket.close()


def values(body):
    """The values of a DataRow."""
    found, at = [], 2
    for _ in range(int.from_bytes(body[:2], "big")):
        size = int.from_bytes(body[at:at + 4], "big", signed=True)
        at += 4
        found.append(None if size < 0 else body[at:at + size].decode())
        at += max(size, 0)
    return found


def packet(it, before):
    """A client's packet, whose length stands behind so many bytes; nothing where the connection ends first."""
    head = exactly(it, before + 4)
    rest = exactly(it, int.from_bytes(head[before:], "big") - 4) if head else b""
    return head + rest


def exactly(it, count):
    got = b""
    while len(got) < count:
        piece = it.recv(count - len(got))
        if not piece:
            return b""
        got += piece
    return got
