"""A relay between clients and a server of PostgreSQL, which can stop in the middle of what a client says."""

import contextlib
import socket
import threading

_MOST = 1 << 16
_ASKS = (1234).to_bytes(2, "big")  # Begins the code of a message that asks for encryption, before the first one.


class Relay:
    """On loopback. Each message of a client is shown to `watch`; the first for which that is true is passed on by half,
    and nothing after it on this connection, as if its sender or the server had been stopped just then."""

    def __init__(self, add_cleanup, port):
        self.watch = lambda message: False
        self.held = threading.Event()
        self._port = port
        self._ends = []
        self._listener = socket.create_server(("127.0.0.1", 0))
        self.port = self._listener.getsockname()[1]
        add_cleanup(self._close)
        threading.Thread(target=self._accept, daemon=True).start()

    def _close(self):
        self._listener.close()
        self.end_all()

    def end_all(self):
        """Ends all connections."""
        ends, self._ends = self._ends, []
        for end in ends:
            _end(end, socket.SHUT_RDWR)
            end.close()

    def _accept(self):
        with contextlib.suppress(OSError):
            while True:
                client, _ = self._listener.accept()
                server = socket.create_connection(("127.0.0.1", self._port))
                self._ends += [client, server]
                for run, *ends in ((self._pass_messages, client, server), (_pass_on, server, client)):
                    threading.Thread(target=run, args=ends, daemon=True).start()

    def _pass_messages(self, client, server):
        with contextlib.suppress(OSError), client.makefile("rb") as said:
            is_first = True
            while message := _read_message(said, is_first):
                is_first = is_first and message[4:6] == _ASKS
                if self.watch(message):
                    server.sendall(message[:len(message) // 2])
                    self.held.set()
                    return
                server.sendall(message)
        _end(server)


def _read_message(file, is_first):
    """The first one has no type, nor has what comes before it."""
    head = file.read(4 if is_first else 5)
    return head + file.read(int.from_bytes(head[-4:], "big") - 4) if head else b""


def _pass_on(source, target):
    with contextlib.suppress(OSError):
        while octets := source.recv(_MOST):
            target.sendall(octets)
    _end(target)


def _end(target, what=socket.SHUT_WR):
    with contextlib.suppress(OSError):
        target.shutdown(what)
