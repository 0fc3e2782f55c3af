"""A server that lets in whoever comes and does what it is asked."""
from cluster import HERE
from listening import Listener
from wire import RESET, message

OK, KEY, READY = message(b"R", bytes(4)), message(b"K", (7).to_bytes(4, "big") + (9).to_bytes(4, "big")), message(b"Z", b"I")
DONE = message(b"C", b"SELECT 0\0") + READY
# what it says to a query, and to the reset
FRIENDLY = (DONE, message(b"C", b"DISCARD ALL\0") + READY)


class Server(Listener):
    """A server that lets in whoever comes, by this welcome, and answers each query and each reset so; what it was sent stays."""

    def __init__(self, welcome=OK + KEY + READY, answers=FRIENDLY, host=HERE):
        self.welcome, self.answers = welcome, answers
        self.sent, self.cancels, self.ended = b"", [], 0
        super().__init__(host)

    def serve(self, connection):
        held = b""
        try:
            while True:
                piece = connection.recv(4096)
                if not piece:
                    break
                held += piece
                held = self.answer(connection, held)
        except OSError:
            pass
        self.ended += 1
        connection.close()

    def answer(self, connection, held):
        """What is left of it."""
        while len(held) >= 5:
            first = held[0] == 0
            size = int.from_bytes(held[:4], "big") if first else 1 + int.from_bytes(held[1:5], "big")
            if len(held) < size:
                return held
            packet, held = held[:size], held[size:]
            self.sent += packet
            if first and packet[4:8] == bytes.fromhex("04d2162e"):
                self.cancels.append(packet[8:])
                raise OSError("a cancel")
            connection.sendall(self.welcome if first else self.answers[packet == RESET] if packet[:1] == b"Q" else b"")
        return held
