#!/usr/bin/env python3
"""Shows the messages of a PostgreSQL conversation, one a line: kind, length, parts.

Usage: frames.py client FILE   a client's bytes, which begin with a first packet
       frames.py server FILE   a server's bytes
FILE may be - for standard input. Lengths are those of the length field, which counts itself.
"""
import sys

CLIENT = {
    "B": "Bind", "C": "Close", "D": "Describe", "E": "Execute", "F": "FunctionCall", "H": "Flush",
    "P": "Parse", "Q": "Query", "S": "Sync", "X": "Terminate", "c": "CopyDone", "d": "CopyData",
    "f": "CopyFail", "p": "PasswordMessage",
}
SERVER = {
    "1": "ParseComplete", "2": "BindComplete", "3": "CloseComplete", "C": "CommandComplete",
    "D": "DataRow", "E": "ErrorResponse", "I": "EmptyQueryResponse", "K": "BackendKeyData",
    "N": "NoticeResponse", "R": "Authentication", "S": "ParameterStatus", "T": "RowDescription",
    "Z": "ReadyForQuery", "n": "NoData", "s": "PortalSuspended", "t": "ParameterDescription",
}
PROTOCOL_3_0, CANCEL_REQUEST, SSL_REQUEST, GSSENC_REQUEST = 196608, 80877102, 80877103, 80877104
CODES = {CANCEL_REQUEST: "CancelRequest", SSL_REQUEST: "SSLRequest", GSSENC_REQUEST: "GSSENCRequest"}
MAX_TEXT = 60


class Parts:
    """Takes parts off the front of a body."""

    def __init__(self, body):
        self.body = body

    def number(self, size, signed=True):
        if len(self.body) < size:
            raise ValueError
        part, self.body = self.body[:size], self.body[size:]
        return int.from_bytes(part, "big", signed=signed)

    def text(self):
        part, zero, self.body = self.body.partition(b"\0")
        if not zero:
            raise ValueError
        return quoted(part)

    def value(self):
        size = self.number(4)
        if size == -1:
            return "NULL"
        if size < 0 or len(self.body) < size:
            raise ValueError
        part, self.body = self.body[:size], self.body[size:]
        return quoted(part)

    def many(self, part):
        return [part() for _ in range(self.number(2, signed=False))]

    def rest(self):
        part, self.body = self.body, b""
        return quoted(part) if part else ""


def quoted(part):
    shown = "".join(chr(b) if 32 <= b < 127 and b not in b'"\\' else f"\\x{b:02x}" for b in part[:MAX_TEXT])
    return f'"{shown}"' + (f" and more, {len(part)} bytes in all" if len(part) > MAX_TEXT else "")


def listed(parts):
    return "(" + ", ".join(str(part) for part in parts) + ")"


def client_parts(kind, p):
    if kind == "Q" or kind == "p":
        return p.text()
    if kind == "P":
        name, sql = p.text(), p.text()
        return f"statement {name}: {sql}, types {listed(p.many(lambda: p.number(4)))}"
    if kind == "B":
        portal, name = p.text(), p.text()
        formats = p.many(lambda: p.number(2))
        values = p.many(p.value)
        results = p.many(lambda: p.number(2))
        return f"portal {portal} of statement {name}: values {listed(values)}, formats {listed(formats)}, result formats {listed(results)}"
    if kind in "CD":
        what = {"S": "statement", "P": "portal"}[chr(p.number(1))]
        return f"{what} {p.text()}"
    if kind == "E":
        return f"portal {p.text()}, at most {p.number(4)} rows (0: all)"
    return p.rest()


def column(p):
    name = p.text()
    p.number(4), p.number(2)
    oid = p.number(4)
    p.number(2), p.number(4), p.number(2)
    return f"{name} of type {oid}"


def server_parts(kind, p):
    if kind == "R":
        number = p.number(4)
        return "ok" if number == 0 and not p.body else f"number {number} {p.rest()}"
    if kind == "S":
        return f"{p.text()} = {p.text()}"
    if kind == "K":
        return f"pid {p.number(4, False)}, secret {p.number(4, False)}"
    if kind == "Z":
        return {"I": "idle", "T": "in a block", "E": "in a failed block"}[chr(p.number(1))]
    if kind == "C":
        return p.text()
    if kind == "T":
        return listed(p.many(lambda: column(p)))
    if kind == "D":
        return listed(p.many(p.value))
    if kind == "t":
        return "types " + listed(p.many(lambda: p.number(4)))
    if kind in "EN":
        fields = []
        while (letter := p.number(1)) != 0:
            fields.append(f"{chr(letter)} {p.text()}")
        return ", ".join(fields)
    return p.rest()


def message(names, parts, kind, length, body):
    """The line of a message."""
    p = Parts(body)
    try:
        text = parts(kind, p)
        if p.body:
            raise ValueError
    except (ValueError, KeyError):
        text = "malformed: " + quoted(body)
    return f"  {kind} {length:5} {names.get(kind, 'unknown kind'):20} {text}".rstrip()


def first_packet(data):
    """The line of a first packet, and what follows it."""
    if len(data) < 8:
        return f"    {len(data)} bytes of a first packet: {quoted(data)}", b""
    length, code = int.from_bytes(data[:4], "big"), int.from_bytes(data[4:8], "big")
    whole = data[8:length]
    if code == PROTOCOL_3_0:
        name, text = "StartupMessage", ""
        fields = whole.split(b"\0")
        if len(data) >= length and fields[-2:] == [b"", b""] and len(fields) % 2 == 0:
            text = ", ".join(f"{quoted(a)} = {quoted(b)}" for a, b in zip(fields[:-2:2], fields[1:-2:2]))
        else:
            text = quoted(whole)
    else:
        name, text = CODES.get(code, f"code {code}"), quoted(whole) if whole else ""
    unfinished = f" (only {len(data)} bytes came)" if len(data) < length else ""
    return f"    {length:5} {name:20} {text}{unfinished}".rstrip(), data[length:] if length >= 8 else b""


def show(side, data):
    first = side == "client"
    while first and data:
        first = int.from_bytes(data[4:8], "big") in (SSL_REQUEST, GSSENC_REQUEST)
        line, data = first_packet(data)
        print(line)
    names, parts = (CLIENT, client_parts) if side == "client" else (SERVER, server_parts)
    while len(data) >= 5:
        length = int.from_bytes(data[1:5], "big")
        if length < 4 or len(data) < 1 + length:
            break
        print(message(names, parts, chr(data[0]), length, data[5:1 + length]))
        data = data[1 + length:]
    if data:
        print(f"    {len(data)} bytes that are no whole message: {quoted(data)}")


def main():
    if len(sys.argv) != 3 or sys.argv[1] not in ("client", "server"):
        sys.exit(__doc__)
    stream = sys.stdin.buffer if sys.argv[2] == "-" else open(sys.argv[2], "rb")
    with stream:
        show(sys.argv[1], stream.read())


if __name__ == "__main__":
    main()
