"""SCRAM-SHA-256 by Python's hashlib, hmac, base64 and stringprep: keys, exchanges, and what a plain reader takes of a text. Written from
RFC 5802, section 7, and from what `scram` says of its bounds."""
import base64
import hashlib
import hmac
import stringprep
import unicodedata

from wire import MECHANISM

MAX_NONCE, MAX_JOINT, MAX_SALT = 128, 192, 64
MAX_ROUNDS, MAX_KEPT = 1_000_000, 2**31 - 1


# ---- passwords

REFUSED = [getattr(stringprep, f"in_table_{it}") for it in "c12 c21 c22 c3 c4 c5 c6 c7 c8 c9 a1".split()]


def prepared(raw):
    """RFC 4013 as PostgreSQL does it: the raw bytes where it refuses them."""
    if raw.isascii():
        return raw
    try:
        text = raw.decode()
    except UnicodeDecodeError:
        return raw
    text = "".join(" " if stringprep.in_table_c12(it) else it for it in text if stringprep.in_table_c12(it)
                   or not stringprep.in_table_b1(it))
    rightward, leftward = map(stringprep.in_table_d2, text), [stringprep.in_table_d1(it) for it in text]
    if not text or any(refuses(it) for it in text for refuses in REFUSED):
        return raw
    if any(leftward) and (any(rightward) or not leftward[0] or not leftward[-1]):
        return raw
    return unicodedata.normalize("NFKC", text).encode()


# ---- keys

def mac(key, text):
    return hmac.new(key, text, hashlib.sha256).digest()


def digest(data):
    return hashlib.sha256(data).digest()


def salted(password, salt, rounds):
    return hashlib.pbkdf2_hmac("sha256", password, salt, rounds)


def keys(under):
    """ClientKey, StoredKey, ServerKey."""
    client = mac(under, b"Client Key")
    return client, digest(client), mac(under, b"Server Key")


def kept(password, salt=bytes(range(16)), rounds=4096):
    """What a PostgreSQL keeps of a password of ASCII."""
    _, *made = keys(salted(password.encode(), salt, rounds))
    stored, server = (base64.b64encode(key).decode() for key in made)
    return f"{MECHANISM.decode()}${rounds}:{base64.b64encode(salt).decode()}${stored}:{server}"


def exchange(password, salt, rounds, own, joint):
    """The four messages, and the client key."""
    client, stored, server = keys(salted(password, salt, rounds))
    bare, unproved = b"n=,r=" + own, b"c=biws,r=" + joint
    challenge = b"r=" + joint + b",s=" + base64.b64encode(salt) + b",i=%d" % rounds
    whole = b",".join([bare, challenge, unproved])
    proof = bytes(it ^ other for it, other in zip(client, mac(stored, whole)))
    return [b"n,," + bare, challenge, unproved + b",p=" + base64.b64encode(proof), b"v=" + base64.b64encode(mac(server, whole)), client]


# ---- texts, as a plain reader takes them: parts, or None

def strict(text):
    """The bytes that a text in base64 stands for, where it is their one spelling."""
    try:
        data = base64.b64decode(text, validate=True)
    except ValueError:
        return None
    return data if base64.b64encode(data) == text else None


def within(text, low, high):
    """A number of ASCII digits, within bounds."""
    return int(text) if text.isdigit() and low <= int(text) <= high else None


def salt_in(text):
    data = strict(text)
    return data if data and len(data) <= MAX_SALT else None


def key_in(text):
    data = strict(text)
    return data if data and len(data) == 32 else None


def value(letter, text):
    return text[2:] if text[:2] == letter + b"=" else None


def verifier(text):
    front, mark, rest = text.partition(b"$")
    rounds, colon, rest = rest.partition(b":")
    salt, second, rest = rest.partition(b"$")
    stored, last, server = rest.partition(b":")
    if front != MECHANISM or not (mark and colon and second and last):
        return None
    return [within(rounds, 1, MAX_KEPT), salt_in(salt), key_in(stored), key_in(server)]


def first(text):
    header, bare = text[:3], text[3:]
    name, _, rest = bare.partition(b",")
    nonce = value(b"r", rest.partition(b",")[0])
    if header not in (b"n,,", b"y,,") or value(b"n", name) is None or not nonce or len(nonce) > MAX_NONCE:
        return None
    return [header, bare, nonce] if all(33 <= it <= 126 for it in nonce) else None


def challenge(own, text):
    parts = text.split(b",", 2)
    if len(parts) < 3:
        return None
    nonce, salt, rounds = (value(letter, part) for letter, part in zip((b"r", b"s", b"i"), parts))
    if None in (nonce, salt, rounds) or not nonce.startswith(own) or not len(own) < len(nonce) <= MAX_JOINT:
        return None
    return [nonce, salt_in(salt), within(rounds, 1, MAX_ROUNDS)]


def last(header, nonce, text):
    front, mark, proof = text.rpartition(b",p=")
    wanted = b"c=" + base64.b64encode(header) + b",r=" + nonce
    if not mark or front != wanted and not front.startswith(wanted + b","):
        return None
    return [front, key_in(proof)]


def initial(body):
    name, size, text = body[:14], body[14:18], body[18:]
    return [text] if name == MECHANISM + b"\0" and len(size) == 4 and int.from_bytes(size, "big") == len(text) else None


def another(text):
    """A last message with another proof."""
    return text[:-6] + (b"B" if text[-6:-5] == b"A" else b"A") + text[-5:]
