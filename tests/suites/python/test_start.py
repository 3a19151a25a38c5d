"""How a question of the command starts: its words are read without argparse, little of Python's library is imported,
and all that its words ask for goes to the service at once."""

import contextlib
import random
import selectors
import socket
import threading
import unittest

import test_service
from friends import PEOPLE
from outside import CLIENT, COMMAND, needs_engine, needs_gpg, run
from tukyamid import Engine
from tukyamid.command import parser, quick_parser
from tukyamid.command.exit_statuses import WrongWords
from tukyamid.protocol.refusals import RefusedView

# Each takes longer to import than a module of the command, and most of them import others.
HEAVY = {"argparse", "asyncio", "collections", "contextlib", "dataclasses", "datetime", "enum", "functools", "gettext",
         "hashlib", "importlib", "inspect", "json", "locale", "logging", "pathlib", "re", "selectors", "shutil",
         "signal", "site", "socket", "ssl", "subprocess", "tempfile", "threading", "typing"}
TELLS_MODULES = """
import os, sys
sys.path.insert(0, sys.argv.pop(1))
from tukyamid.command import main
status = main()
os.write(2, " ".join(sys.modules).encode())
sys.exit(status)
"""
KEY = "0xFB88F0D227C941044D81B8634EA7C2C11011DCA1"
WORDS = ["authenticate", "list", "", "-", KEY, "Carol <carol@example.org>", "--root", KEY, f"--root={KEY}:60",
         f"--root={KEY}:0", "--time", "2024-01-31", "--time=@5", "--time=never", "--amount", "40", "--amount=partial",
         "--amount=0", "--partial", "--full", "--double", "--double=1", "--email", "--strict", "--paths", "--format",
         "json", "--format=dot", "--format=xml", "--keyring", "a.pgp", "--keyring=-", "--keyring=a=b", "--directory",
         "--gpg", "--gpg-keyring", "--no-service", "--cache", "--cache=", "--no-cache", "--anew", "--engine",
         "--verifier=x", "--known-notation=a@b", "--version", "--help", "-h", "--", "-x", "-1", "--rot", "--roo=1"]


class QuickWords(unittest.TestCase):
    def test_usual_words(self):
        words = ["--root", KEY, "--email", "--format=json", "lookup", "carol@example.org", "--partial"]
        given = quick_parser.read(words)
        self.assertEqual((given.question, given.words, given.root, given.email, given.format, given.amount, given.time),
                         ("lookup", ["carol@example.org"], [(KEY[2:].lower(), 120)], True, "json", 40, None))

    def test_what_is_read_quickly_is_what_the_parser_reads(self):
        draw, quickly = random.Random(5), 0
        for _ in range(3000):
            words = draw.choices(WORDS, k=draw.randrange(7))
            given = quick_parser.read(words)
            if given is not None:
                self.assertEqual(vars(given), vars(parser.read(words)), words)
                quickly += 1
        self.assertGreater(quickly, 300)

    def test_what_is_wrong_is_for_the_parser(self):
        for words in (["--rot"], ["--root"], ["--root", "--paths"], ["--amount", "0"], ["--format=xml"], ["--gpg=1"],
                      ["--time", "never"], ["--known-notation", "a@b"]):
            self.assertIsNone(quick_parser.read(words), words)
            self.assertRaises(WrongWords, parser.read, words)


@needs_engine
class Ahead(unittest.TestCase):
    """Lines that are sent before their calls."""

    def setUp(self):
        self.engine = Engine()
        self.addCleanup(self.engine.close)

    def test_calls_in_another_order(self):
        self.engine._send_ahead([b"keys", b"view v time 5", b"list v 120", b"view w close"])
        self.engine.open_view("v", 5)
        self.assertRaises(RefusedView, self.engine.close_view, "w")
        self.assertEqual([list(self.engine.list("v", 120)), list(self.engine.keys())], [[], []])
        self.engine.close_view("v")

    def test_calls_of_other_lines(self):
        self.engine._send_ahead([b"view v close", b"view v time 5"])
        self.engine.open_view("w", 5)
        self.engine.close_view("w")
        self.assertRaises(RefusedView, self.engine.close_view, "v")  # Its reply as it was.
        self.engine.close_view("v")

    def test_each_reply_once(self):
        self.engine._send_ahead([b"view v time 5"])
        self.engine.open_view("v", 5)
        self.engine.close_view("v")
        self.engine.open_view("v", 5)
        self.engine.close_view("v")


class Relay:
    """Stands between a client and a service, and counts how often the client has sent something after an answer."""

    def __init__(self, path, service):
        self.trips = 0
        self._listening = socket.socket(socket.AF_UNIX)
        self._listening.bind(str(path))
        self._listening.listen()
        self._service = str(service)
        self._thread = threading.Thread(target=self._serve, daemon=True)
        self._thread.start()

    def _serve(self):
        with contextlib.suppress(OSError):
            while True:
                client, _ = self._listening.accept()
                with client, socket.socket(socket.AF_UNIX) as service, selectors.DefaultSelector() as both:
                    service.connect(self._service)
                    both.register(client, selectors.EVENT_READ, service)
                    both.register(service, selectors.EVENT_READ, client)
                    self._pass_on(both, client)

    def _pass_on(self, both, client):
        before = None
        while True:
            for key, _ in both.select():
                octets = key.fileobj.recv(1 << 20)
                if not octets:
                    return
                self.trips += key.fileobj is client and before is not client
                before = key.fileobj
                key.data.sendall(octets)

    def close(self):
        self._listening.shutdown(socket.SHUT_RDWR)
        self._listening.close()


@needs_engine
@needs_gpg
class Questions(test_service.Services):
    def setUp(self):
        super().setUp()
        self.root = f"--root={self.fpr['Alice']}"
        added = run([COMMAND, "keyring", "add", self.friends.keyring], env=self.environment)
        self.assertEqual((added.returncode, added.stderr), (0, b""))

    def test_little_is_imported(self):
        carol = self.fpr["Carol"]
        for words, status in ((["authenticate", carol, PEOPLE["Carol"]], 0), (["identify", carol], 0),
                              (["lookup", PEOPLE["Carol"]], 0), (["list"], 0), (["list", "--paths", "carol"], 0),
                              (["explain", carol, PEOPLE["Carol"]], 0), (["list", "--format=colons"], 0)):
            started = ["/usr/bin/python3", "-IS", "-c", TELLS_MODULES, CLIENT]
            done = run([*started, self.root, *words], env=self.environment)
            self.assertEqual(done.returncode, status, done.stderr)
            self.assertEqual(HEAVY & set(done.stderr.decode().split(" ")), set(), words)

    def test_one_round_trip(self):
        (service,) = self.sockets()
        beside = self.own / "beside"
        beside.mkdir(mode=0o700)
        relay = Relay(beside / "tukyamid.socket", service)
        self.addCleanup(relay.close)
        bob = [self.root, "authenticate", self.fpr["Bob"], PEOPLE["Bob"]]
        suppose = f"{self.fpr['Alice']} certifies {self.fpr['Bob']} {PEOPLE['Bob']} depth 1"
        for trips, more in enumerate(([], ["--suppose", suppose]), 1):
            answers = [run([COMMAND, "--time=2025-12-01", *more, *bob],
                           env={**self.environment, "XDG_RUNTIME_DIR": str(place)}) for place in (self.runtime, beside)]
            self.assertEqual([(done.returncode, done.stderr) for done in answers], [(0, b"")] * 2)
            self.assertEqual(answers[0].stdout, answers[1].stdout)
            self.assertEqual(relay.trips, trips)

    def test_names_outside_ascii_are_compared_though_no_library_is_imported_before(self):
        done = run([COMMAND, self.root, "--email", "lookup", "carol@b\u00fccher.example"], env=self.environment)
        self.assertEqual((done.returncode, done.stderr), (1, b""))
