"""A service with a read-only socket, and `tukyamid web --public` over it, as long as the tests need them."""

import atexit
import contextlib
import functools
import http.client
import importlib.util
import json
import os
import signal
import socket
import subprocess
import tempfile
import unittest
from pathlib import Path
from urllib.parse import quote, urlencode, urlsplit

from friends import friends
from outside import COMMAND, TRUSTING, folder, run
from page import DECEMBER, PATIENCE, hostile

from tukyamid.client import connect

SERVER = COMMAND.with_name("tukyamid-server")
has_prometheus = importlib.util.find_spec("prometheus_client") is not None
needs_prometheus = unittest.skipUnless(has_prometheus, "python3-prometheus-client isn't installed")


class UnixConnection(http.client.HTTPConnection):
    """HTTP over a Unix socket."""

    def __init__(self, path):
        super().__init__("localhost", timeout=PATIENCE)
        self._path = path

    def connect(self):
        self.sock = socket.socket(socket.AF_UNIX)
        self.sock.settimeout(self.timeout)
        self.sock.connect(self._path)


class Service:
    """A service with a database of its own, a socket for changes and one that is read-only."""

    def __init__(self, files, verifier=TRUSTING):
        self._folder = tempfile.TemporaryDirectory(prefix="everyone-", dir=folder(), ignore_cleanup_errors=True)
        self.own = Path(self._folder.name)
        self.changes, self.questions = self.own / "changes", self.own / "questions"
        self.environment = {**os.environ, **{f"XDG_{name}": str(self.own / name.lower()) for name in
                                             ("DATA_HOME", "STATE_HOME", "CACHE_HOME", "RUNTIME_DIR")},
                            "TUKYAMID_VERIFIER": str(verifier), "GNUPGHOME": str(self.own / "gnupg")}
        (self.own / "runtime_dir").mkdir(mode=0o700)
        self._begin()
        with self.client() as client:
            for file in files:
                client.add_keyring(file)

    def _begin(self):
        words = [SERVER, "serve", "--database", self.own / "keyring.db", "--socket", self.changes,
                 "--read-only-socket", self.questions]
        self.process = subprocess.Popen([str(word) for word in words], env=self.environment,
                                        stdin=subprocess.DEVNULL, stderr=subprocess.DEVNULL)
        wait_for(self.changes)
        wait_for(self.questions)

    def restart(self):
        """Another process with the same database and sockets, as after an upgrade."""
        self._end()
        self._begin()

    def client(self):
        """A connection that may change the keyring."""
        return connect(self.changes, PATIENCE)

    def last_change(self):
        with self.client() as client:
            return next(iter(client.log(1))).number

    def _end(self):
        self.process.send_signal(signal.SIGTERM)
        self.process.wait(PATIENCE)

    def close(self):
        self._end()
        self._folder.cleanup()


def wait_for(path):
    """Waits until somebody listens at a Unix socket."""
    script = ("import socket, sys, time\n"
              "while True:\n"
              "    try:\n"
              "        socket.socket(socket.AF_UNIX).connect(sys.argv[1])\n"
              "        break\n"
              "    except OSError:\n"
              "        time.sleep(0.02)\n")
    done = run(["/usr/bin/python3", "-c", script, path])
    if done.returncode:
        raise AssertionError(f"nobody listens at {path}: {done.stderr.decode()}")


class Asking:
    """Asks a server at its address."""
    address = ""

    @property
    def port(self):
        return urlsplit(self.address).port

    def connection(self):
        if self.address.startswith("unix:"):
            return UnixConnection(self.address.removeprefix("unix:"))
        return http.client.HTTPConnection("127.0.0.1", self.port, timeout=PATIENCE)

    def request(self, path, method="GET", body=None, **headers):
        """A reply: its status, its headers, its octets."""
        with contextlib.closing(self.connection()) as connection:
            connection.request(method, path, body, {name.replace("_", "-"): value for name, value in headers.items()})
            reply = connection.getresponse()
            return reply.status, reply.headers, reply.read()

    def ask(self, call, query, **headers):
        """The reply of the API: its status, its headers, and what its JSON says."""
        status, headers, octets = self.request(path_of(call, query), **headers)
        return status, headers, json.loads(octets) if octets else None

    def raw(self, octets):
        """What comes back for some octets until the other side ends, also by force."""
        found = b""
        with socket.create_connection(("127.0.0.1", self.port), PATIENCE) as sent, \
                contextlib.suppress(ConnectionError):
            sent.sendall(octets)
            while piece := sent.recv(65536):
                found += piece
        return found


class Everyone(Asking):
    """The server for everyone, over a service."""

    def __init__(self, service, *more, listen="127.0.0.1:0", config=None):
        words = [str(COMMAND), "web", "--public", "--listen", listen, "--socket", str(service.questions),
                 "--workers", "2", "--seconds", "300", *map(str, more)]
        environment = {**service.environment, **({"TUKYAMID_CONFIG": str(config)} if config else {})}
        self.process = subprocess.Popen(words, env=environment, stdout=subprocess.PIPE, stdin=subprocess.DEVNULL)
        self.address = self.process.stdout.readline().decode().strip()
        if not self.address:
            raise AssertionError(f"it ended with status {self.process.wait(PATIENCE)}")

    def close(self):
        self.process.send_signal(signal.SIGTERM)
        self.process.stdout.close()
        return self.process.wait(PATIENCE)


def path_of(call, query):
    """The address of a question; `query` is a mapping or a list of pairs."""
    return f"/api/v1/{call}?{urlencode(query, quote_via=quote)}"


@functools.cache
def shared():
    """The service and the server of all tests that need none of their own. A test that changes the keyring changes it
    back."""
    people, strange = friends(), folder() / "hostile.pgp"
    strange.write_bytes(b"".join(one.octets for one in hostile(people.fpr["Alice"])))
    service = Service([people.keyring, strange])
    atexit.register(service.close)
    sets = []
    for name in "Alice", "Bob":
        file = service.own / f"{name}.toml"
        file.write_text(f"[roots]\n{people.fpr[name]} = 120\n")
        sets += ["--roots", f"{name}={file}"]
    everyone = Everyone(service, *sets, "--rate", "100000")
    atexit.register(everyone.close)
    return people, service, sets, everyone


class Public(unittest.TestCase):
    """Tests over the keyring of the six people and of some hostile user IDs, from Alice and from Bob."""

    @classmethod
    def setUpClass(cls):
        cls.friends, cls.service, cls.sets, cls.everyone = shared()
        cls.fpr = cls.friends.fpr

    def about(self, name, user_id, time=DECEMBER, **more):
        return {"key": self.fpr[name], "user_id": user_id, "time": f"@{time}", **more}
