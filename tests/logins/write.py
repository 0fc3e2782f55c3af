#!/usr/bin/env python3
"""Writes the logins of this folder, NAME.in, and expected.txt. Usage: write.py FOLDER

The bytes are those of the PostgreSQL manual ("Message Formats"), the MD5 answers those of its page
"Message Flow": md5 and md5(md5(password ++ user) ++ salt), each digest in lower-case hex; SCRAM's texts are RFC 5802's.
"""
import base64
import hashlib
import hmac
import pathlib
import sys

SALT = bytes([1, 2, 3, 4])
LONGEST = 10_000
NOT_ARRIVED = "-"


def request(code):
    return (8).to_bytes(4, "big") + code.to_bytes(4, "big")


def packet(body, code=196608):
    return (8 + len(body)).to_bytes(4, "big") + code.to_bytes(4, "big") + body


def start(user=None, database=None, *others):
    pairs = [("user", user)] * bool(user) + [("database", database)] * bool(database) + list(others)
    return packet(b"".join(name.encode() + b"\0" + value.encode() + b"\0" for name, value in pairs) + b"\0")


def padded(length):
    """A StartupMessage of this length, whose last parameter the settings ignore."""
    return start("ann", "shop", ("padding", "a" * (length - len(start("ann", "shop", ("padding", ""))))))


def message(kind, body):
    return kind + (4 + len(body)).to_bytes(4, "big") + body


def password(text):
    return message(b"p", text.encode() + b"\0")


def digest(data):
    return hashlib.md5(data).hexdigest()


def md5_answer(secret, user, salt=SALT):
    return "md5" + digest(digest((secret + user).encode()).encode() + salt)


# ---- SCRAM-SHA-256: the client's nonce is the same each time; the server's is of the words of its key, a name's salt of 32 zeros

OWN, SCRAM = b"rOprNGfwEbeRWgbNEkqO", b"SCRAM-SHA-256"
SERVERS = base64.b64encode(hashlib.sha256((1).to_bytes(4, "big") + (2).to_bytes(4, "big") + SALT).digest()[:18])


def initial(text, mechanism=SCRAM):
    return message(b"p", mechanism + b"\0" + len(text).to_bytes(4, "big") + text)


def name_salt(name):
    return hmac.digest(bytes(32), name.encode(), "sha256")[:16]


class Exchange:
    """What a client with this password and this salt says, and what it is told: its `given` are words of expected.txt."""

    def __init__(self, name, secret, salt=None, rounds=4096, header=b"n,,", named=b"", more=b""):
        bare = b"n=" + named + b",r=" + OWN + more
        self.first, joint = initial(header + bare), OWN + SERVERS
        challenge = b"r=" + joint + b",s=" + base64.b64encode(salt or name_salt(name)) + b",i=%d" % rounds
        salted = hashlib.pbkdf2_hmac("sha256", secret.encode(), salt or name_salt(name), rounds)
        client, server = (hmac.digest(salted, word, "sha256") for word in (b"Client Key", b"Server Key"))
        self.unproved = b"c=" + base64.b64encode(header) + b",r=" + joint
        whole = b",".join([bare, challenge, self.unproved])
        self.proof = bytes(a ^ b for a, b in zip(client, hmac.digest(hashlib.sha256(client).digest(), whole, "sha256")))
        self.last = self.with_proof(self.proof)
        self.asked = f"sasl =0b:{challenge.decode()}"
        self.proved = f"=0c:v={base64.b64encode(hmac.digest(server, whole, 'sha256')).decode()}"

    def with_proof(self, proof):
        return message(b"p", self.unproved + b",p=" + base64.b64encode(proof))


BY = Exchange("ann", "secret")
# a password that SASLprep leaves as it is; a verifier of eight bytes of salt and seven rounds
BY_UTE = Exchange("ute", "p\u00e4ssw\u00f6rd")
BY_VERA = Exchange("vera", "pencil", salt=bytes(range(1, 9)), rounds=7, header=b"y,,", named=b"*", more=b",x=passed over")
UTE, VERA = start("ute", "shop"), start("vera", "shop")
OTHER_PROOF = BY.with_proof(BY.proof[:-1] + bytes([BY.proof[-1] ^ 1]))

SSL, GSS = request(80877103), request(80877104)
CANCEL = packet((1).to_bytes(4, "big") + (2).to_bytes(4, "big"), 80877102)
ANN, BC, ZED = start("ann", "shop"), start("bc", "shop"), start("zed", "shop")
CONSOLE = start("root", "pgbouncer")
QUERY = message(b"Q", b"SHOW application_name\0")
TERMINATE = message(b"X", b"")
SECRET = password("secret")
BC_STORED = "md5" + digest(b"abc")


def key(user="ann", row="shop", parameters=""):
    return f"row={row} user={user} parameters={parameters}"


def passed(user="ann", parameters="", unused=0):
    return f"passed {key(user, parameters=parameters)} unused={unused}"


def ended(how, unused=0):
    return f"{how} unused={unused}"


# A client arrives once its StartupMessage gives a start key: behind the answers to its requests for encryption, before it is
# asked for a password, let in or refused for who it is.
# name, settings, what the client sends, what it is given and where it arrives, with which key, how the login ends
LOGINS = [
    ("nothing", "trust", b"", "-", NOT_ARRIVED, ended("unfinished")),
    ("start", "trust", ANN, "arrives ok", key(), passed()),
    ("start_cut_short", "trust", ANN[:-1], "-", NOT_ARRIVED, ended("unfinished")),
    ("query_after_start", "trust", ANN + QUERY, "arrives ok", key(), passed(unused=len(QUERY))),
    ("last_of_equal_names", "trust", start("ann", "shop", ("application_name", "a"), ("Application_Name", "b")), "arrives ok",
     key("ann", "shop", "application_name=b"), passed(parameters="application_name=b")),
    ("database_of_the_users_name", "trust", start("ann"), "arrives 3D000", key("ann", "ann"), ended("failed 3D000")),
    ("no_user", "trust", start(None, "shop"), "P3", NOT_ARRIVED, ended("refused P3")),
    ("start_without_its_last_zero", "trust", packet(ANN[8:-1]), "P3", NOT_ARRIVED, ended("refused P3")),
    ("start_with_a_byte_after_it", "trust", packet(ANN[8:] + b"a"), "P3", NOT_ARRIVED, ended("refused P3")),
    ("options", "trust", start("ann", "shop", ("options", "-c a=b")), "P4", NOT_ARRIVED, ended("refused P4")),
    ("replication", "trust", start("ann", "shop", ("replication", "true")), "P4", NOT_ARRIVED, ended("refused P4")),
    ("encryption", "trust", SSL + ANN, "N arrives ok", key(), passed()),
    ("both_encryptions", "trust", GSS + SSL + ANN, "N N arrives ok", key(), passed()),
    ("encryption_twice", "trust", SSL + SSL + ANN, "N P3", NOT_ARRIVED, ended("refused P3", len(ANN))),
    ("gss_encryption_twice", "trust", SSL + GSS + GSS, "N N P3", NOT_ARRIVED, ended("refused P3")),
    ("cancel", "trust", CANCEL, "-", NOT_ARRIVED, ended("cancel pid=1 secret=2")),
    ("cancel_after_encryption", "trust", SSL + CANCEL, "N", NOT_ARRIVED, ended("cancel pid=1 secret=2")),
    ("protocol_2", "trust", packet(b"", 131072), "P2", NOT_ARRIVED, ended("refused P2")),
    ("protocol_3_1", "trust", packet(b"", 196609), "P2", NOT_ARRIVED, ended("refused P2")),
    ("length_7", "trust", bytes([0, 0, 0, 7]), "P3", NOT_ARRIVED, ended("refused P3")),
    ("longest_start", "trust", padded(LONGEST), "arrives ok", key(), passed()),
    ("start_too_long", "trust", padded(LONGEST + 1), "P3",
     NOT_ARRIVED, ended("refused P3", f"{LONGEST + 1 - 8}..{LONGEST + 1 - 4}")),
    ("unknown_user", "trust", ZED, "arrives 28P01", key("zed"), ended("failed 28P01")),
    ("nowhere", "trust", start("ann", "nowhere"), "arrives 3D000", key("ann", "nowhere"), ended("failed 3D000")),
    ("unknown_user_nowhere", "trust", start("zed", "nowhere"), "arrives 28P01", key("zed", "nowhere"), ended("failed 28P01")),
    ("console", "trust", CONSOLE, "arrives", key("root", "pgbouncer"), ended("console")),
    ("console_of_no_admin", "trust", start("ann", "pgbouncer"), "arrives 28P01", key("ann", "pgbouncer"), ended("failed 28P01")),

    ("plain", "plain", ANN + SECRET, "arrives cleartext ok", key(), passed()),
    ("plain_and_query", "plain", ANN + SECRET + QUERY, "arrives cleartext ok", key(), passed(unused=len(QUERY))),
    ("plain_behind_encryption", "plain", SSL + ANN + SECRET, "N arrives cleartext ok", key(), passed()),
    ("plain_for_a_digest", "plain", BC + password("a"), "arrives cleartext ok", key("bc"), passed("bc")),
    ("plain_digest_itself", "plain", BC + password(BC_STORED), "arrives cleartext 28P01", key("bc"), ended("failed 28P01")),
    ("plain_wrong", "plain", ANN + password("Secret"), "arrives cleartext 28P01", key(), ended("failed 28P01")),
    ("plain_empty", "plain", ANN + password(""), "arrives cleartext 28P01", key(), ended("failed 28P01")),
    ("plain_of_another_user", "plain", ANN + password("r"), "arrives cleartext 28P01", key(), ended("failed 28P01")),
    ("plain_unknown_user", "plain", ZED + SECRET, "arrives cleartext 28P01", key("zed"), ended("failed 28P01")),
    ("plain_not_yet", "plain", ANN, "arrives cleartext", key(), ended("unfinished")),
    ("plain_cut_short", "plain", ANN + SECRET[:-1], "arrives cleartext", key(), ended("unfinished")),
    ("plain_nowhere", "plain", start("ann", "nowhere") + SECRET, "arrives cleartext 3D000",
     key("ann", "nowhere"), ended("failed 3D000")),
    ("plain_wrong_nowhere", "plain", start("ann", "nowhere") + password("x"), "arrives cleartext 28P01",
     key("ann", "nowhere"), ended("failed 28P01")),
    ("plain_console", "plain", CONSOLE + password("r"), "arrives cleartext", key("root", "pgbouncer"), ended("console")),
    ("plain_console_wrong", "plain", CONSOLE + SECRET, "arrives cleartext 28P01",
     key("root", "pgbouncer"), ended("failed 28P01")),
    ("plain_console_of_no_admin", "plain", start("ann", "pgbouncer") + SECRET, "arrives cleartext 28P01",
     key("ann", "pgbouncer"), ended("failed 28P01")),
    ("plain_terminate", "plain", ANN + TERMINATE, "arrives cleartext", key(), ended("left")),
    ("plain_query_instead", "plain", ANN + QUERY, "arrives cleartext P3", key(), ended("refused P3")),
    ("plain_unknown_kind", "plain", ANN + message(b"?", b""), "arrives cleartext P3", key(), ended("refused P3")),
    ("plain_byte_after_zero", "plain", ANN + message(b"p", b"secret\0a"), "arrives cleartext P3", key(), ended("refused P3")),
    ("plain_zero_after_zero", "plain", ANN + message(b"p", b"secret\0\0"), "arrives cleartext P3", key(), ended("refused P3")),
    ("plain_without_zero", "plain", ANN + message(b"p", b"secret"), "arrives cleartext P3", key(), ended("refused P3")),
    ("plain_length_3", "plain", ANN + b"p\0\0\0\x03", "arrives cleartext P3", key(), ended("refused P3")),
    ("plain_longest", "plain", ANN + password("s" * (LONGEST - 5)), "arrives cleartext 28P01", key(), ended("failed 28P01")),
    ("plain_too_long", "plain", ANN + password("s" * (LONGEST - 4)), "arrives cleartext P3",
     key(), ended("refused P3", LONGEST - 3)),

    ("md5", "md5", ANN + password(md5_answer("secret", "ann")), "arrives md5 ok", key(), passed()),
    ("md5_for_a_digest", "md5", BC + password(md5_answer("a", "bc")), "arrives md5 ok", key("bc"), passed("bc")),
    ("md5_behind_encryptions", "md5", SSL + GSS + ANN + password(md5_answer("secret", "ann")), "N N arrives md5 ok",
     key(), passed()),
    ("md5_wrong", "md5", ANN + password(md5_answer("Secret", "ann")), "arrives md5 28P01", key(), ended("failed 28P01")),
    ("md5_of_another_user", "md5", ANN + password(md5_answer("secret", "bc")), "arrives md5 28P01", key(), ended("failed 28P01")),
    ("md5_of_another_salt", "md5", ANN + password(md5_answer("secret", "ann", SALT[::-1])), "arrives md5 28P01",
     key(), ended("failed 28P01")),
    ("md5_in_upper_case", "md5", ANN + password("md5" + md5_answer("secret", "ann")[3:].upper()), "arrives md5 28P01",
     key(), ended("failed 28P01")),
    ("md5_last_digit_missing", "md5", ANN + password(md5_answer("secret", "ann")[:-1]), "arrives md5 28P01",
     key(), ended("failed 28P01")),
    ("md5_password_itself", "md5", ANN + SECRET, "arrives md5 28P01", key(), ended("failed 28P01")),
    ("md5_digest_itself", "md5", BC + password(BC_STORED), "arrives md5 28P01", key("bc"), ended("failed 28P01")),
    ("md5_unknown_user", "md5", ZED + password(md5_answer("secret", "zed")), "arrives md5 28P01",
     key("zed"), ended("failed 28P01")),
    ("md5_nowhere", "md5", start("ann", "nowhere") + password(md5_answer("secret", "ann")), "arrives md5 3D000",
     key("ann", "nowhere"), ended("failed 3D000")),
    ("md5_console", "md5", CONSOLE + password(md5_answer("r", "root")), "arrives md5",
     key("root", "pgbouncer"), ended("console")),
    ("md5_terminate", "md5", ANN + TERMINATE, "arrives md5", key(), ended("left")),
    ("md5_for_a_verifier", "md5", VERA + BY_VERA.first + BY_VERA.last, f"arrives {BY_VERA.asked} {BY_VERA.proved} ok", key("vera"),
     passed("vera")),

    ("scram", "scram", ANN + BY.first + BY.last, f"arrives {BY.asked} {BY.proved} ok", key(), passed()),
    ("scram_and_query", "scram", ANN + BY.first + BY.last + QUERY, f"arrives {BY.asked} {BY.proved} ok", key(), passed(unused=len(QUERY))),
    ("scram_behind_encryptions", "scram", SSL + GSS + ANN + BY.first + BY.last, f"N N arrives {BY.asked} {BY.proved} ok", key(), passed()),
    ("scram_beyond_ascii", "scram", UTE + BY_UTE.first + BY_UTE.last, f"arrives {BY_UTE.asked} {BY_UTE.proved} ok", key("ute"),
     passed("ute")),
    ("scram_for_a_verifier", "scram", VERA + BY_VERA.first + BY_VERA.last, f"arrives {BY_VERA.asked} {BY_VERA.proved} ok", key("vera"),
     passed("vera")),
    ("scram_wrong", "scram", ANN + BY.first + OTHER_PROOF, f"arrives {BY.asked} 28P01", key(), ended("failed 28P01")),
    ("scram_unknown_user", "scram", ZED + BY.first + Exchange("zed", "secret").last, f"arrives {Exchange('zed', 'secret').asked} 28P01",
     key("zed"), ended("failed 28P01")),
    ("scram_for_a_digest", "scram", BC + BY.first + Exchange("bc", "a").last, f"arrives {Exchange('bc', 'a').asked} 28P01", key("bc"),
     ended("failed 28P01")),
    ("scram_nowhere", "scram", start("ann", "nowhere") + BY.first + BY.last, f"arrives {BY.asked} 3D000", key("ann", "nowhere"),
     ended("failed 3D000")),
    ("scram_wrong_nowhere", "scram", start("ann", "nowhere") + BY.first + OTHER_PROOF, f"arrives {BY.asked} 28P01", key("ann", "nowhere"),
     ended("failed 28P01")),
    ("scram_console", "scram", CONSOLE + BY.first + Exchange("root", "r").last,
     f"arrives {Exchange('root', 'r').asked} {Exchange('root', 'r').proved}",
     key("root", "pgbouncer"), ended("console")),
    ("scram_console_of_no_admin", "scram", start("ann", "pgbouncer") + BY.first + BY.last, f"arrives {BY.asked} 28P01",
     key("ann", "pgbouncer"), ended("failed 28P01")),
    ("scram_not_yet", "scram", ANN + BY.first, f"arrives {BY.asked}", key(), ended("unfinished")),
    ("scram_terminate", "scram", ANN + TERMINATE, "arrives sasl", key(), ended("left")),
    ("scram_terminate_behind_its_challenge", "scram", ANN + BY.first + TERMINATE, f"arrives {BY.asked}", key(), ended("left")),
    ("scram_password_instead", "scram", ANN + SECRET, "arrives sasl P3", key(), ended("refused P3")),
    ("scram_another_mechanism", "scram", ANN + initial(b"n,,n=,r=" + OWN, b"SCRAM-SHA-1"), "arrives sasl P3", key(), ended("refused P3")),
    ("scram_bound_channel", "scram", ANN + initial(b"p=tls-unique,,n=,r=" + OWN), "arrives sasl P3", key(), ended("refused P3")),
    ("scram_somebody_elses_name", "scram", ANN + initial(b"n,a=bc,n=,r=" + OWN), "arrives sasl P3", key(), ended("refused P3")),
    ("scram_mandatory_extension", "scram", ANN + initial(b"n,,m=x,n=,r=" + OWN), "arrives sasl P3", key(), ended("refused P3")),
    ("scram_no_nonce", "scram", ANN + initial(b"n,,n=,r="), "arrives sasl P3", key(), ended("refused P3")),
    ("scram_longest_nonce", "scram", ANN + initial(b"n,,n=,r=" + b"a" * 129), "arrives sasl P3", key(), ended("refused P3")),
    ("scram_proof_of_31_bytes", "scram", ANN + BY.first + BY.with_proof(BY.proof[:31]), f"arrives {BY.asked} P3", key(),
     ended("refused P3")),
    ("scram_another_header", "scram", ANN + BY.first + message(b"p", BY.last[5:].replace(b"c=biws", b"c=eSws")), f"arrives {BY.asked} P3",
     key(), ended("refused P3")),
    ("scram_another_nonce", "scram", ANN + BY.first + message(b"p", BY.last[5:].replace(SERVERS, SERVERS[::-1])), f"arrives {BY.asked} P3",
     key(), ended("refused P3")),
    ("scram_first_message_twice", "scram", ANN + BY.first + BY.first, f"arrives {BY.asked} P3", key(), ended("refused P3")),
]


def main():
    if len(sys.argv) != 2:
        sys.exit(__doc__)
    folder = pathlib.Path(sys.argv[1])
    for name, _, data, _, _, _ in LOGINS:
        (folder / f"{name}.in").write_bytes(data)
    lines = ("\t".join((name, settings, given, with_key, end)) + "\n" for name, settings, _, given, with_key, end in LOGINS)
    (folder / "expected.txt").write_text("".join(lines))


if __name__ == "__main__":
    main()
