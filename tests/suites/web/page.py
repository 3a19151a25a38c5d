"""A service with a keyring of its own, and the page over it, as long as a test needs them."""

import http.client
import importlib.util
import json
import os
import signal
import subprocess
import sys
import tempfile
import unittest
from pathlib import Path
from types import SimpleNamespace
from urllib.parse import urlsplit

from friends import friends
from made import Made, trust
from outside import CLIENT, COMMAND, TRUSTING, folder, needs_engine, needs_gpg, run
from test_service import server_of

DECEMBER = 1764547200  # 2025-12-01
PATIENCE = 600
has_aiohttp = importlib.util.find_spec("aiohttp") is not None
needs_aiohttp = unittest.skipUnless(has_aiohttp, "python3-aiohttp isn't installed")


def needs_page(case):
    """For tests that serve the page."""
    return needs_engine(needs_gpg(needs_aiohttp(case)))


# User IDs as somebody would write them who wants to run something on the page, or to deceive who reads it.
HOSTILE = [
    b"<script>window.owned = 1</script> <mallory@example.net>",
    b"\"><img src='http://evil.example/x' onerror='window.owned = 1'>",
    b"javascript:window.owned=1 ${window.owned=1} {{owned}}",
    "Carol \u202e<gro.elpmaxe@lorac>\u2066 \u200b".encode(),
    b"Mallory\x1b[2J\x07\r\n\x00 <m@example.net>",
    b"=HYPERLINK(\"http://evil.example/\") \xff\xfe",
]


def hostile(alice):
    """Certificates with these user IDs, all of them certified by Alice."""
    made = []
    for number, user_id in enumerate(HOSTILE, 1000):
        one = Made(number).direct(1_700_000_000)
        one.certified(user_id, SimpleNamespace(fpr=alice), 1_740_000_000, trust(1, 120)).certified(
            user_id, one, 1_700_000_000)
        made.append(one)
    return made


class Page:
    """`tukyamid web` over a service that holds some keyring files, or a database that was made before."""

    def __init__(self, files, roots, time=DECEMBER, verifier=TRUSTING, database=None):
        self._folder = tempfile.TemporaryDirectory(prefix="web-", dir=folder(), ignore_cleanup_errors=True)
        own = Path(self._folder.name)
        self.own, self.runtime = own, own / "run"
        self.runtime.mkdir(mode=0o700)
        self.environment = {**os.environ, "XDG_RUNTIME_DIR": str(self.runtime), "XDG_DATA_HOME": str(own / "data"),
                            "XDG_STATE_HOME": str(own / "state"), "XDG_CACHE_HOME": str(own / "cache"),
                            "TUKYAMID_VERIFIER": str(verifier), "GNUPGHOME": str(own / "gnupg")}
        try:
            if database is not None:
                data = own / "data" / "tukyamid"
                data.mkdir(parents=True, mode=0o700)
                database.rename(data / "keyring.db")
            added = run([COMMAND, "keyring", "add", *files], env=self.environment) if files else None
            if added is not None and added.returncode:
                raise AssertionError(added.stderr.decode())
            words = [COMMAND, "web", "--no-browser", "--time", f"@{time}", *(f"--root={root}" for root in roots)]
            self.process = subprocess.Popen(words, env=self.environment, stdout=subprocess.PIPE,
                                            stdin=subprocess.DEVNULL)
            self.address = self.process.stdout.readline().decode().strip()
        except BaseException:
            self._end_service()
            raise

    def close(self):
        """Ends the page as Ctrl+C does, and then its service. Returns the page's status."""
        self.process.send_signal(signal.SIGINT)
        self.process.stdout.close()
        status = self.process.wait(PATIENCE)
        self._end_service()
        self._folder.cleanup()
        return status

    def _end_service(self):
        for path in self.runtime.rglob("*.socket"):
            server = server_of(path)
            if server is not None:
                os.kill(server, signal.SIGTERM)

    def request(self, method, path, body=None, **headers):
        """A reply: its status, its headers, its octets. `path` is taken as it is."""
        port = urlsplit(self.address).port
        connection = http.client.HTTPConnection("127.0.0.1", port, timeout=PATIENCE)
        try:
            connection.putrequest(method, path, skip_host="Host" in headers, skip_accept_encoding=True)
            for name, value in headers.items():
                connection.putheader(name.replace("_", "-"), value)
            if body is not None:
                connection.putheader("Content-Length", str(len(body)))
            connection.endheaders(body)
            reply = connection.getresponse()
            return reply.status, dict(reply.getheaders()), reply.read()
        finally:
            connection.close()

    def call(self, name, **asked):
        """What a call of the page returns; AssertionError unless it worked."""
        status, _, octets = self.send(name, json.dumps(asked).encode())
        if status != 200:
            raise AssertionError(f"{name}: {status} {octets!r}")
        return json.loads(octets)

    def send(self, name, body, **headers):
        path = f"{urlsplit(self.address).path}call/{name}"
        return self.request("POST", path, body, **{"Content_Type": "application/json", **headers})


class Served(unittest.TestCase):
    """Tests over the page of the six people, from Alice, with some hostile user IDs beside them."""

    @classmethod
    def setUpClass(cls):
        cls.friends = friends()
        cls.fpr = cls.friends.fpr
        cls.hostile = hostile(cls.fpr["Alice"])
        strange = folder() / "hostile.pgp"
        strange.write_bytes(b"".join(one.octets for one in cls.hostile))
        cls.page = Page([cls.friends.keyring, strange], [cls.fpr["Alice"]])
        cls.addClassCleanup(cls.page.close)

    def served_by(self, program, *words):
        """A second page over the same service, by a program in Python that changes the command before it begins.
        Returns the process and the page's address."""
        words = [sys.executable, "-c", program, *words, "--no-browser", "--time", f"@{DECEMBER}",
                 f"--root={self.fpr['Alice']}"]
        process = subprocess.Popen(words, env={**self.page.environment, "PYTHONPATH": str(CLIENT)},
                                   stdout=subprocess.PIPE, stdin=subprocess.DEVNULL)

        def end():
            process.send_signal(signal.SIGCONT)
            process.send_signal(signal.SIGINT)
            process.communicate(timeout=PATIENCE)
        self.addCleanup(end)
        return process, process.stdout.readline().decode().strip()

    def subject(self, name, user_id, time=DECEMBER, roots=None, **more):
        amounts = {"Alice": 120} if roots is None else roots
        return {"fingerprint": self.fpr[name], "user_id": user_id, "wanted": 120, "time": time,
                "roots": [{"fingerprint": self.fpr[root], "amount": amount}
                          for root, amount in amounts.items()], **more}
