"""A plain reader of a server's bytes: what they let a pooler's client be given, and whether its link is kept.

Written from PostgreSQL's manual ("Message Flow", "Message Formats") and from docs/OPERATING.md, beside the proved one.
"""
from given import FAILED, GIVEN, HEAD, UNREACHED, fatal
from wire import message
from worked import KEY

MAX_REPLY, MAX_STATUS, MAX_FRAME = 65_536, 4_096, 2_147_483_647
MALFORMED = fatal("08P01", "malformed server message")
OK, IDLE, TAG = GIVEN["ok"], message(b"Z", b"I"), message(b"C", b"DISCARD ALL\0")
# the parts of a conversation: the start, the answers to two statements, and that to the reset
IN_START, IN_RESET = 0, 3


def status(name, value):
    return message(b"S", name + b"\0" + value + b"\0")


def frames_of(data, longest):
    """The whole messages that it begins with, what is left, and whether that begins with no lawful head."""
    found, at = [], 0
    while at + HEAD <= len(data):
        length = int.from_bytes(data[at + 1:at + HEAD], "big")
        if not 4 <= length <= longest:
            return found, data[at:], True
        if at + 1 + length > len(data):
            break
        found.append(data[at:at + 1 + length])
        at += 1 + length
    return found, data[at:], False


def report_of(frame):
    """The name and value of a ParameterStatus, or None."""
    texts = frame[HEAD:].split(b"\0")
    return tuple(texts[:2]) if len(texts) == 3 and not texts[2] else None


# what a dialogue comes to where it isn't at its end: bytes are waited for, or what came doesn't belong there
MORE, OTHER = "more", "other"


def started(data):
    """What a start comes to: the reports by their names, the server's own refusal, MORE or OTHER."""
    found, rest, is_faulty = frames_of(data, MAX_REPLY)
    is_in, is_readable, reports = False, True, {}
    for number, frame in enumerate(found):
        if frame[:1] == b"E":
            return frame
        if frame[:1] == b"N":
            continue
        if not is_in:
            if frame != OK:
                return OTHER
            is_in = True
        elif frame[:1] == b"S":
            report = report_of(frame)
            is_readable = is_readable and report is not None
            reports.update([report] if report else [])
        elif frame[:1] == b"K":
            is_readable = is_readable and len(frame) == HEAD + 8
        else:
            is_last = frame == IDLE and number == len(found) - 1 and not rest
            return reports if is_last and is_readable else OTHER
    return OTHER if is_faulty else MORE


def told_by(reports, frame):
    """Whether a report can be read and is of a parameter that the start reported; its value is kept."""
    report = report_of(frame) if len(frame) <= HEAD + MAX_STATUS else None
    if report is None or report[0] not in reports:
        return False
    reports[report[0]] = report[1]
    return True


def is_clean(data, reports, first):
    """Whether this answers a reset, after which all reports are the first ones; or MORE."""
    found, rest, is_faulty = frames_of(data, MAX_REPLY)
    wanted, known = [TAG, IDLE], True
    for frame in found:
        if wanted and frame[:1] in b"NS":
            known = known and (frame[:1] == b"N" or told_by(reports, frame))
        elif wanted and frame == wanted[0]:
            del wanted[0]
        else:
            return False
    if is_faulty or rest and not wanted:
        return False
    return MORE if wanted else known and reports == first


class Relayed:
    """What goes on to a client of what a server says: each message from its head on, but reports and ReadyForQuery only whole."""

    def __init__(self, data):
        self.size, self.frames, self.is_part, self.is_faulty = 0, [], False, False
        while len(data) >= self.size + HEAD and not self.is_faulty:
            kind, length = data[self.size:self.size + 1], int.from_bytes(data[self.size + 1:self.size + HEAD], "big")
            frame = data[self.size:self.size + 1 + length]
            self.is_faulty = not 4 <= length <= MAX_FRAME
            is_whole = len(frame) == 1 + length
            waits = kind == b"Z" and length == 5 or kind == b"S" and length <= 4 + MAX_STATUS
            if self.is_faulty or waits and not is_whole:
                break
            self.size += len(frame)
            self.is_part = not is_whole
            self.frames.append(frame)
            if self.is_part:
                break

    def is_settled(self, reports, asked):
        """Whether so many messages were answered by as many ReadyForQuery, the last of them idle, and each report is known."""
        ends = [frame for frame in self.frames if frame[:1] == b"Z"]
        known = [told_by(reports, frame) for frame in self.frames if frame[:1] == b"S"]
        lawful = all(len(frame) == HEAD + 1 and frame[HEAD:] in (b"I", b"T", b"E") for frame in ends)
        return all(known) and lawful and len(ends) == asked and ends[-1] == IDLE


class Wanted:
    """What a client is to be given whose server says this to the start, to the statements and to the reset: all that it has after each
    answer, whether it is cut off then, whether its link is kept, and where its key word stands. The server may close the connection after
    one of them."""

    def __init__(self, said, dies):
        self.given, self.is_over, self.is_kept, self.key = [], True, False, KEY
        reports = started(said[IN_START])
        if not isinstance(reports, dict):
            self.given = [OK + (reports if isinstance(reports, bytes) else UNREACHED)]
            return
        first, data = dict(reports), b""
        head = OK + b"".join(status(*it) for it in reports.items()) + message(b"K", bytes(8))
        self.key, welcome = slice(len(head) - 8, len(head)), head + IDLE
        if dies == IN_START:
            self.given = [welcome + FAILED]
            return
        self.given, is_settled = [welcome], True
        for number in range(1, IN_RESET):
            data += said[number]
            relayed = Relayed(data)
            refused = b""
            if relayed.is_faulty:
                refused = MALFORMED
            elif dies == number:
                refused = b"" if relayed.is_part else FAILED
            self.given.append(welcome + data[:relayed.size] + refused)
            if relayed.is_faulty or dies == number:
                return
            reports = dict(first)
            is_settled = relayed.is_settled(reports, number) and relayed.size == len(data) and not relayed.is_part and is_settled
        self.is_over = False
        self.is_kept = is_settled and is_clean(said[IN_RESET], reports, first) is True
