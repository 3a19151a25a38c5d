"""Clients that write down what was acknowledged to them, and what must be kept because of that.

Each client changes things of its own alone, so it knows the reply to each line: a fault changes nothing, and the lines
that were never answered are made in their order, up to some one of them."""

import contextlib
import threading
import time

from outside import Client
from world import fingerprint, packet

BOUND = 60  # Seconds for one reply: half a minute without an engine, on a machine that is busy.
FAULTS = (b"fault database", b"fault engine")
AHEAD = (1, 1, 3, 12, 40)


class Thing:
    """A verdict or a certificate. `states` are those that it may be in: one, unless lines weren't answered."""

    def __init__(self):
        self.states = {False}
        self.unanswered = []

    def expect(self, sets, reply):
        """Takes the reply to the first unanswered line; gives what is wrong with it."""
        before = {state for state in self.states if self.reply(sets, state) == reply}
        self.unanswered.pop(0)
        if reply in FAULTS:
            return ""
        if not before:
            return f"{self.line(sets)[:90]!r} was answered with {reply!r} in {self.states}"
        self.states = {sets}
        return ""

    def lose(self):
        """Nobody answers the rest any more."""
        self.states |= set(self.unanswered)
        self.unanswered = []


class Verdict(Thing):
    def __init__(self, number):
        super().__init__()
        self.kept = b"verdict %064x bad" % number
        self._number = b"%064x" % number

    def line(self, sets):
        return b"verdict %s %s" % (self._number, b"bad" if sets else b"none")

    @staticmethod
    def reply(sets, state):
        return b"ok" if sets or state else b"refused absent"


class Certificate(Thing):
    def __init__(self, number):
        super().__init__()
        key = b"\4\0\0\x03\xe8\x1b" + number.to_bytes(6, "big")
        self.kept = b"import " + (packet(6, key) + packet(13, b"user %d" % number)).hex().encode()
        self._fpr = fingerprint(key)

    def line(self, sets):
        return self.kept if sets else b"drop " + self._fpr

    @staticmethod
    def reply(sets, state):
        if sets:
            return b"ok taken 1 skipped 0 new %d" % (0 if state else 2)
        return b"ok" if state else b"refused absent"


class Talker(threading.Thread):
    """Changes its things, and asks between, until it is stopped; connects again whenever that is needed."""

    def __init__(self, path, number, draw):
        super().__init__(daemon=True)
        self.things = [(Certificate if place % 3 == 0 else Verdict)(1000 * number + place) for place in range(20)]
        self.wrong = []
        self.answered = 0
        self.is_over = threading.Event()
        self._path = path
        self._draw = draw

    def run(self):
        while not self.is_over.is_set():
            with contextlib.suppress(OSError):
                self._talk()
            for thing in self.things:
                thing.lose()
            time.sleep(0.05)

    def _talk(self):
        with Client(self._path) as client:
            client.socket.settimeout(BOUND)
            while not self.is_over.is_set():
                lines = [self._next() for _ in range(self._draw.choice(AHEAD))]
                client.send(*(line for line, _, _ in lines))
                for line, thing, sets in lines:
                    self._hear(client, line, thing, sets)

    def _next(self):
        if self._draw.random() < 0.2:
            return b"ask p %040x 120 a" % self._draw.randrange(9), None, False
        thing, sets = self._draw.choice(self.things), self._draw.random() < 0.6
        thing.unanswered.append(sets)
        return thing.line(sets), thing, sets

    def _hear(self, client, line, thing, sets):
        try:
            reply = client.read_line()
        except TimeoutError:
            self.wrong.append(f"{line[:90]!r} wasn't answered within {BOUND} seconds")
            raise
        self.answered += 1
        if thing is None:
            wrong = "" if reply in (b"refused view", *FAULTS) else f"{line!r} was answered with {reply!r}"
        else:
            wrong = thing.expect(sets, reply)
        if wrong:
            self.wrong.append(wrong)

    def missing(self, kept):
        """What the lines of a database say against the ledger."""
        for thing in self.things:
            if (thing.kept in kept) not in thing.states:
                yield f"{thing.kept[:90]!r}: is kept {thing.kept in kept}, and should be one of {thing.states}"
