"""What the tests use from outside: the program alone, the server, and its clients."""

import contextlib
import os
import signal
import socket
import subprocess
import sys
import tempfile
import time
import unittest
from pathlib import Path

from tukyamid.client.engine import has_reply
from tukyamid.protocol.refusals import Refused
from tukyamid.protocol.reply_reader import ListingHead, read_reply

HERE = Path(__file__).resolve().parent
ROOT = Path(os.environ.get("WOT_ROOT") or HERE.parents[2])
PROGRAM = os.environ.get("WOT_PROGRAM") or str(ROOT / "crates" / "wot_cli" / "out" / "wot_cli")
SERVER = ROOT / "python" / "bin" / "tukyamid-server"
PYTHON = "/usr/bin/python3" if os.access("/usr/bin/python3", os.X_OK) else sys.executable
WORN_ENGINE = HERE / "worn_engine.py"
FAILING_SERVER = HERE / "failing_server.py"
PATIENCE = 300  # Of a test that waits for what must come; machines may be slow.

needs_engine = unittest.skipUnless(os.access(PROGRAM, os.X_OK), f"the engine isn't built: {PROGRAM}")


NO_DIRECTORY = "/dev/null/none"  # Nothing can be made there, so a stray line `store` writes nothing.


def alone(lines, directory=NO_DIRECTORY):
    """The replies of the program alone to these lines, one for each that has a reply. They are cut by the Python
    client's framing, not by the server's."""
    script = b"".join(line + b"\n" for line in lines)
    done = subprocess.run([PROGRAM, "run", directory], input=script, capture_output=True, timeout=PATIENCE, check=True)
    return list(cut(done.stdout))


def cut(octets):
    """The replies of a transcript, each with its line feeds."""
    rest = iter(octets.splitlines(keepends=True))
    for first in rest:
        reply = [first]
        ahead = iter([first])

        def next_line():
            line = next(ahead, None)
            if line is None:
                line = next(rest)
                reply.append(line)
            return line.removesuffix(b"\n").decode("latin-1")

        try:
            head = read_reply(next_line)
        except Refused:
            head = None
        if isinstance(head, ListingHead):
            reply.extend(next(rest) for _ in range(head.count))
        yield b"".join(reply)


def is_change(line):
    """Whether a line may change what other clients hear: certificates, verdicts, or entries of the directory."""
    return line.split(b" ")[0] in (b"import", b"drop", b"verdict", b"load", b"store")


def script_of(database):
    """The lines that make a database's keyring."""
    with contextlib.closing(database.snapshot()) as snapshot:
        return b"".join(line + b"\n" for line in snapshot.lines())


class Client:
    """A connection to the server."""

    def __init__(self, path, name=None):
        self.socket = socket.socket(socket.AF_UNIX)
        self.socket.settimeout(PATIENCE)
        self.socket.connect(str(path))
        self._rest = b""
        if name is not None:
            self.tell(name)

    def __enter__(self):
        return self

    def __exit__(self, *_):
        self.socket.close()

    def send(self, *lines):
        self.socket.sendall(b"".join(line + b"\n" for line in lines))

    def tell(self, line):
        """Sends a line and gives the first line of its reply."""
        self.send(line)
        return self.read_reply()

    def read_reply(self):
        """The first line of the next reply; what follows is passed over."""
        first = self.read_line()
        words = first.split(b" ")
        if words[0] in (b"keys", b"dump", b"list", b"pending", b"explain"):
            for _ in range(int(words[-1])):
                self.read_line()
        if words[:2] == [b"absence", b"missed"]:
            self.read_line()
        if words[0] == b"amount":
            for _ in range(int(words[3])):
                for _ in range(int(self.read_line().split(b" ")[3])):
                    self.read_line()
        return first

    def read_line(self):
        while b"\n" not in self._rest:
            piece = self.socket.recv(65536)
            if not piece:
                raise ConnectionResetError("the server ended the connection")
            self._rest += piece
        line, _, self._rest = self._rest.partition(b"\n")
        return line

    def send_no_more(self):
        self.socket.shutdown(socket.SHUT_WR)

    def end(self):
        """Sends no more, and gives all that still comes."""
        self.send_no_more()
        return self.rest()

    def rest(self):
        return b"".join(self.pieces())

    def pieces(self):
        """All that still comes, as it comes."""
        yield self._rest
        while piece := self.socket.recv(65536):
            yield piece


class Server:
    """The server as a process of its own, in a folder of its own."""

    def __init__(self, *options, engine=PROGRAM, folder=None, environment=None, program=SERVER, log=None):
        self._made = None if folder else tempfile.TemporaryDirectory(prefix="tukyamid-server-")
        self.folder = Path(folder or self._made.name)
        self.path = self.folder / "socket"
        self.database = self.folder / "keyring.db"
        self.directory = self.folder / "pgp.cert.d"
        self._order = self.folder / "order"
        self._said, self._log = open(self.folder / "said", "w+b"), log
        self._words = [PYTHON, program, "--socket", self.path, "--database", self.database, "--order", self._order,
                       "--engine", engine, "--directory", self.directory, *options]
        self._environment = {**os.environ, "XDG_STATE_HOME": str(self.folder / "state"), **(environment or {})}
        self.start()

    def start(self):
        """Starts it, also again after it has ended."""
        self.process = subprocess.Popen(
            self._words, stdin=subprocess.DEVNULL, stdout=subprocess.DEVNULL,
            stderr=self._said if self._log is None else self._log, env=self._environment)
        try:
            self.wait_for(self._is_there)
        except BaseException:
            self.process.kill()
            raise

    def _is_there(self):
        if self.process.poll() is not None:
            raise AssertionError(f"the server ended: {self.said()}")
        with contextlib.suppress(OSError), Client(self.path):
            return True
        return False

    def wait_for(self, holds):
        end = time.monotonic() + PATIENCE
        while not holds():
            if time.monotonic() > end:
                raise AssertionError("waited in vain")
            time.sleep(0.02)

    def __enter__(self):
        return self

    def __exit__(self, *_):
        if self.process.poll() is None:
            self.stop()
        self._said.close()
        if self._made:
            self._made.cleanup()

    def stop(self):
        """Ends the server, and gives its exit status."""
        self.process.send_signal(signal.SIGTERM)
        try:
            return self.process.wait(PATIENCE)
        except subprocess.TimeoutExpired:
            self.process.kill()
            raise

    def said(self):
        self._said.seek(0)
        return self._said.read().decode(errors="replace")

    def engines(self):
        """The process ids of its engines, and of what else it has started."""
        found = []
        for task in Path(f"/proc/{self.process.pid}/task").iterdir():
            with contextlib.suppress(OSError):  # Threads come and go.
                found += [int(pid) for pid in (task / "children").read_text().split()]
        return found

    def order(self):
        """The lines in the order in which they were sent, as (client's number, line); of a server that has ended."""
        numbered = (line.split(b" ", 1) for line in self._order.read_bytes().split(b"\n")[:-1])
        return [(int(number), line) for number, line in numbered]


def expected(order, name, count, make_directory=lambda folder: None):
    """What the client whose first line is `name` must have got for its first `count` lines that have a reply: what the
    program alone says to them, among the changes of all, in the order in which they were sent."""
    number = next(number for number, line in order if line == name)
    lines, own = [], []
    for by, line in order:
        if by == number and len(own) < count:
            own.append(len(lines))
            lines.append(line)
        elif is_change(line):
            lines.append(line)
    with tempfile.TemporaryDirectory(prefix="tukyamid-") as folder:
        make_directory(Path(folder))
        replies = alone(lines, folder)
    return [lines[place] for place in own], b"".join(replies[place] for place in own)


def with_reply(lines):
    return [line for line in lines if has_reply(line)]
