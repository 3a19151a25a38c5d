"""An exception at any `await` of the service fails one line, and nothing else: everyone else is answered, in time, with
what the program alone says to what is kept.

Each run tries the places in an order of its own, for a minute. TUKYAMID_INJECTED=all tries all of them, before and
behind what is waited for; the night does that. TUKYAMID_INJECTED=TEXT tries those with this text in their names, and
TUKYAMID_INJECTED=seed=N repeats the order of an earlier run.
"""

import json
import os
import random
import shutil
import signal
import socket
import tempfile
import time
import unittest
from pathlib import Path

from outside import HERE, Client, Server, alone, cut, needs_engine
from world import World

INJECTING = HERE / "injecting_server.py"
CHOICE = os.environ.get("TUKYAMID_INJECTED", "")
BOUND = 120  # Seconds: a line is answered late if engines have to be started again, on a machine that is busy.
LONGEST = 60  # Seconds of a test that doesn't try all places.


def chosen(places):
    """The places to try: all that were named, otherwise as many as there is time for."""
    if CHOICE and not CHOICE.startswith("seed="):
        yield from (place for place in places if CHOICE == "all" or CHOICE in place)
        return
    seed = int(CHOICE.removeprefix("seed=") or random.SystemRandom().randrange(10**9))
    print(f"seed {seed}", end=" ", flush=True)
    end = time.monotonic() + LONGEST
    for place in random.Random(seed).sample(places, len(places)):
        if time.monotonic() > end:
            return
        yield place


class Control:
    def __init__(self, path):
        self._socket = socket.socket(socket.AF_UNIX)
        self._socket.connect(str(path))
        self._file = self._socket.makefile("rw")

    def __call__(self, line):
        self._file.write(line + "\n")
        self._file.flush()
        return json.loads(self._file.readline())

    def close(self):
        self._file.close()
        self._socket.close()


class Injected(unittest.TestCase):
    def setUp(self):
        self.folder = Path(tempfile.mkdtemp(prefix="tukyamid-injected-"))
        self.addCleanup(shutil.rmtree, self.folder)
        self.world = World(count=8, depths=(0,))
        self.keyring = self.folder / "keyring.pgp"
        self.keyring.write_bytes(bytes.fromhex(self.world.imports[0][7:].decode()))

    def begin(self, *options, first=None):
        environment = {"INJECTING": str(self.folder / "control")} | ({"INJECTING_FIRST": first} if first else {})
        (self.folder / "control").unlink(missing_ok=True)
        self.server = Server("--verifier", HERE / "trusting_verifier.py", *options, folder=self.folder,
                             program=INJECTING, environment=environment)
        self.addCleanup(self.server.__exit__)

    def lines(self, turn):
        """Lines of every kind, which leave the keyring about as it was."""
        fpr, user_id = self.world.fprs[1], self.world.user_ids[1]
        verdict = b"verdict %064x " % turn
        return [b"view p time 5000", b"view p root %s 120" % self.world.fprs[0], b"ask p %s 120 %s" % (fpr, user_id),
                b"watch w on p %s 120 %s" % (fpr, user_id), verdict + b"bad", self.world.imports[5], b"drop " + fpr,
                *self.world.imports[5:10], b"list p 1", b"explain p %s %s" % (fpr, user_id),
                b"absence p %s 120 %s" % (fpr, user_id), b"pending", b"keys", b"export " + fpr,
                b"cursor c over p 1", b"cursor c next 2", b"cursor c close", b"watch w off", b"store " + fpr,
                b"load " + fpr, b"dump", b"service status", b"service find part user", b"service find first user",
                b"service issuers " + fpr, b"service certified " + fpr, b"service excerpt reach " + fpr,
                b"service excerpt question " + fpr, b"service log 3", b"service keyring list",
                b"service keyring add " + os.fsencode(self.keyring),
                b"service keyring remove " + os.fsencode(self.keyring), verdict + b"none", b"view p close"]

    def talk(self, lines):
        """Sends lines one by one, and hears every reply in time; after a connection that was ended goes on with
        another. Two in a row must not be ended."""
        ended, client = 0, Client(self.server.path)
        for line in lines:
            try:
                client.socket.settimeout(BOUND)
                self.hear(client, line)
            except ConnectionError:
                ended += 1
                client.socket.close()
                client = Client(self.server.path)
        client.socket.close()
        return ended

    def hear(self, client, line):
        client.send(line)
        while True:
            reply = client.read_line()
            if reply.startswith(b"watch ") and not line.startswith(b"watch ") or reply.startswith(b"service progress"):
                continue
            words = reply.split(b" ")
            if words[0] in (b"keys", b"dump", b"list", b"pending", b"explain", b"piece") or reply[:8] == b"service ":
                for _ in range(int(words[-1])):
                    client.read_line()
            elif words[:2] == [b"absence", b"missed"]:
                client.read_line()
            elif words[0] == b"amount":
                for _ in range(int(words[3])):
                    for _ in range(int(client.read_line().split(b" ")[3])):
                        client.read_line()
            return reply

    def is_whole(self):
        """Every engine says what the program alone says to what is kept."""
        with Client(self.server.path) as client:
            client.socket.settimeout(BOUND)
            client.send(b"dump")
            kept = [client.read_line() for _ in range(int(client.read_line().split(b" ")[1]))]
            asked = [b"view p time 5000", b"view p root %s 120" % self.world.fprs[0], b"pending", b"list p 1",
                     *(b"ask p %s 120 %s" % pair for pair in zip(self.world.fprs, self.world.user_ids)),
                     *(b"export " + fpr for fpr in self.world.fprs)]
            client.send(*asked)
            self.assertEqual(list(cut(client.end())), alone([*kept, *asked])[len(kept):])

    def reached(self, control, turn):
        control("arm")
        self.assertEqual(self.talk(self.lines(turn)), 0)
        for pid in self.server.engines():
            os.kill(pid, signal.SIGKILL)
        self.assertEqual(self.talk(self.lines(turn)), 0)
        return control("reached")

    def check(self, *options):
        self.begin(*options)
        control = Control(self.folder / "control")
        self.addCleanup(control.close)
        with Client(self.server.path) as client:
            client.send(*self.world.lines())
            client.end()
        self.is_whole()
        time.sleep(2.5)  # What is done now and then has been done by then.
        places = self.reached(control, 0)
        for turn, place in enumerate(chosen(places), 1):
            with self.subTest(place):
                control("arm " + place)
                for pid in self.server.engines() if "engine" in place or "program" in place else ():
                    os.kill(pid, signal.SIGKILL)
                self.assertLessEqual(self.talk(self.lines(turn)), 1)
                control("arm")
                self.assertEqual(self.talk(self.lines(turn)), 0)
                self.is_whole()
                self.assertIsNone(self.server.process.poll())
        self.assertEqual(self.server.stop(), 0)

    @needs_engine
    def test_while_engines_hold_everything(self):
        self.check("--engines", "2")

    @needs_engine
    def test_over_slices(self):
        self.check("--budget", "6")

    @needs_engine
    def test_a_connection_that_fails_as_it_begins(self):
        """It is ended. Later ones, which get its descriptor, are answered."""
        self.begin()
        control = Control(self.folder / "control")
        self.addCleanup(control.close)
        place, = (name for name in control("places") if name.startswith("server:") and ":_serve:behind" in name)
        for _ in range(5):
            control("arm " + place)
            with Client(self.server.path) as silent:
                silent.socket.settimeout(BOUND)
                self.assertEqual(silent.socket.recv(1), b"")
            self.assertEqual(self.talk([b"keys"] * 2), 0)
        self.assertEqual(self.server.stop(), 0)

    @needs_engine
    def test_while_it_begins_and_ends(self):
        """It begins, or says why not; and it ends."""
        self.begin()
        control = Control(self.folder / "control")
        places = control("reached")
        control.close()
        self.assertEqual(self.server.stop(), 0)
        for place in chosen(places):
            with self.subTest(place):
                try:
                    self.begin(first=place)
                except AssertionError as error:
                    self.assertIn("the server ended", str(error))
                    self.assertNotIn("Traceback", str(error))
                else:
                    # It may have ended by itself, and then says why; or it was ending, and no longer took the signal.
                    status = self.server.stop()
                    if status != -signal.SIGTERM:
                        self.assertEqual(status, 1 if "an error of the service itself" in self.server.said() else 0)
