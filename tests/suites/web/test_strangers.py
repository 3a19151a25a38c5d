"""What another user of the machine sends to the page's port, without its token."""

import os
import resource
import signal
import socket
import subprocess
import sys
import unittest
import urllib.error
import urllib.request

from page import PATIENCE, needs_aiohttp
from plain import ROOT

SERVER = """
import asyncio
from tukyamid.web.http_server import Server
from tukyamid.web.page_files import read_files
server = Server(read_files(), {}, 0)
asyncio.run(server.run(lambda: print(server.address, flush=True)))
"""
FEW_FILES = 64


def few_files():
    """Few open files, which the process may raise, as for a user who logs in."""
    resource.setrlimit(resource.RLIMIT_NOFILE, (FEW_FILES, resource.getrlimit(resource.RLIMIT_NOFILE)[1]))


@needs_aiohttp
class Strangers(unittest.TestCase):
    def setUp(self):
        self.process = subprocess.Popen([sys.executable, "-c", SERVER], stdin=subprocess.DEVNULL,
                                        stdout=subprocess.PIPE, stderr=subprocess.PIPE, text=True, preexec_fn=few_files,
                                        env={**os.environ, "PYTHONPATH": str(ROOT / "python")})
        self.addCleanup(self.process.communicate)
        self.addCleanup(self.process.kill)
        self.address = self.process.stdout.readline().strip()
        self.port = int(self.address.split(":")[2].split("/")[0])

    def connect(self, text=b""):
        connected = self.enterContext(socket.create_connection(("127.0.0.1", self.port), timeout=PATIENCE))
        connected.sendall(text)
        return connected

    def status(self):
        """The page has no such file, and says so to whoever has the token."""
        try:
            return urllib.request.urlopen(self.address + "nothing", timeout=PATIENCE).status
        except urllib.error.HTTPError as error:
            return error.code

    def test_what_is_no_http_is_not_shown(self):
        for text in b"\0" * 1000, b"\x16\x03\x01\x02", b"GET / HTTP/9.9\r\n\r\n", b"GET / HTTP/1.1\r\n\0: \r\n\r\n":
            self.connect(text).recv(100)
        self.assertEqual(self.status(), 404)
        self.process.send_signal(signal.SIGINT)
        self.assertEqual(self.process.communicate(timeout=PATIENCE), ("", ""))

    def test_idle_connections(self):
        if resource.getrlimit(resource.RLIMIT_NOFILE)[1] < 4 * FEW_FILES:
            self.skipTest("this process may open few files")
        idle = [self.connect() for _ in range(2 * FEW_FILES)]
        half = [self.connect(b"GET / HTTP/1.1\r\nHost: ") for _ in range(10)]
        self.assertEqual(self.status(), 404)
        self.assertEqual(len(idle) + len(half), 2 * FEW_FILES + 10)
