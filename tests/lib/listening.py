"""A server of a test's own, which says with each connection what it has to say."""
import socket
import threading

from cluster import HERE


class Listener:
    """Takes connections at a free port, each to be served by a thread of its own; a server makes its own of it, whose serve() does that."""

    def __init__(self, host=HERE, backlog=None):
        self.listener = socket.create_server((host, 0), backlog=backlog)
        self.port = self.listener.getsockname()[1]
        threading.Thread(target=self.listen, daemon=True).start()

    def listen(self):
        while True:
            try:
                it, _ = self.listener.accept()
            except OSError:
                if self.listener.fileno() < 0:
                    return  # it takes no more
                raise
            it.setsockopt(socket.IPPROTO_TCP, socket.TCP_NODELAY, 1)
            threading.Thread(target=self.serve, args=(it,), daemon=True).start()
