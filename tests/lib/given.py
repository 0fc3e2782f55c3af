"""What a client can be given, as the PostgreSQL manual ("Message Formats") and docs/OPERATING.md have it: answers of a login, refusals, and
where the pieces of an answer end."""
from frames import CLIENT
from wire import message

HEAD = 5
MAX_FRAME = 2_147_483_647
LEAVES = ord("X")


def authentication(number, rest=b""):
    return message(b"R", number.to_bytes(4, "big") + rest)


def fatal(code, text):
    return message(b"E", f"SFATAL\0VFATAL\0C{code}\0M{text}\0\0".encode())


GIVEN = {
    "-": b"",
    "N": b"N",
    "ok": authentication(0),
    "cleartext": authentication(3),
    "md5": authentication(5, bytes([1, 2, 3, 4])),
    "sasl": authentication(10, b"SCRAM-SHA-256\0\0"),
    "28P01": fatal("28P01", "password authentication failed"),
    "3D000": fatal("3D000", "database does not exist"),
    "P2": fatal("0A000", "unsupported protocol version"),
    "P3": fatal("08P01", "malformed client message"),
    "P4": fatal("0A000", "unsupported startup parameter"),
}
MALFORMED = GIVEN["P3"]
TOO_LONG = fatal("54000", "client message is too long")
UNREACHED = fatal("08001", "server could not be reached")
FAILED = fatal("08006", "server connection failed")
MEMORY = fatal("53200", "pooler is out of memory")
REFUSALS = [
    fatal("53300", "too many client connections"),
    GIVEN["P2"],
    MALFORMED,
    GIVEN["P4"],
    fatal("57P03", "query_wait_timeout"),
    FAILED,
    UNREACHED,
    fatal("57P01", "pooler is shutting down"),
    MEMORY,
    TOO_LONG,
    fatal("08P01", "malformed server message"),
    fatal("54000", "pooler has reached its last decision"),
]


def borders(data):
    """Where the pieces of an answer end, the place before the first included: `N` to a request for encryption, and messages."""
    ends = [0]
    while data[ends[-1]:ends[-1] + 1] == b"N":
        ends.append(ends[-1] + 1)
    while ends[-1] + HEAD <= len(data):
        ends.append(ends[-1] + 1 + int.from_bytes(data[ends[-1] + 1:ends[-1] + HEAD], "big"))
    return [end for end in ends if end <= len(data)]


def is_allowed(whole, given):
    """Whether it is a front of the whole answer, or some whole pieces of it and one refusal."""
    return whole.startswith(given) or any(given == whole[:end] + refusal for end in borders(whole) for refusal in REFUSALS)


def head_refusal(kind, length):
    """What a message with this head is refused by, if it is."""
    if chr(kind) not in CLIENT or length < 4:
        return MALFORMED
    return TOO_LONG if length > MAX_FRAME else b""


def refusal(data):
    """What the messages after a login are refused by, if they are: the first faulty head, unless a Terminate comes before it."""
    while len(data) >= HEAD:
        kind, length = data[0], int.from_bytes(data[1:HEAD], "big")
        if told := head_refusal(kind, length):
            return told
        data = b"" if kind == LEAVES else data[1 + length:]
    return b""
