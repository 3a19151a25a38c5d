"""Questions that wait for a reader are asked in one conversation with its engine."""

import re
import unittest
from pathlib import Path

from outside import PROGRAM, Client, needs_engine
from reading import ReadServer
from test_slices_scripts import DEPTHS
from tukyamid.service.child_processes import children
from world import World

ALONE = Path(__file__).resolve().with_name("alone_engine.py")


@needs_engine
class Together(unittest.TestCase):
    changes = 0

    def begin(self, engine=PROGRAM):
        """A service with a reader that holds slices, and a client with a view."""
        self.world = World(3, 40, DEPTHS)
        self.server = self.enterContext(ReadServer(1, "--budget", "39", engine=engine))
        self.client = self.enterContext(Client(self.server.path))
        for line in [*self.world.imports, *[b"verdict %s good %s" % one for one in self.world.verdicts],
                     b"view p time 5000", b"view p root %s 120" % self.world.fprs[0]]:
            self.assertEqual(self.client.tell(line)[:2], b"ok")

    def questions(self):
        """No two have the same key and amount."""
        return [b"ask p %s %d %s" % (fpr, 1 + place % 130, self.world.user_ids[place % 40])
                for place, fpr in enumerate(self.world.fprs * 4)]

    def asked_at_once(self):
        questions = self.questions()
        self.client.send(*questions)
        return [self.client.read_reply() for _ in questions]

    def change(self):
        """After a change no reply is kept."""
        self.changes += 1
        self.assertEqual(self.client.tell(b"verdict %064x bad" % self.changes), b"ok")

    def asked_alone(self):
        self.change()
        return [self.client.tell(question) for question in self.questions()]

    def conversations(self):
        """How often the engines of the reader have read something."""
        (reader,) = self.server.reader_pids()
        return sum(int(re.search(r"syscr: ([0-9]+)", Path(f"/proc/{engine}/io").read_text())[1])
                   for engine in children(reader))

    def test_one_conversation_is_for_several(self):
        self.begin()
        self.asked_alone()
        self.change()
        before = self.conversations()
        replies = self.asked_at_once()
        together = self.conversations() - before
        self.assertLess(together, len(replies) / 2)
        self.assertEqual(self.asked_alone(), replies)
        self.assertGreater({reply.split(b" ")[1] for reply in replies}, {b"0"})
        self.assertGreaterEqual(self.conversations() - before - together, len(replies))

    def test_each_is_asked_alone_if_an_engine_ends(self):
        self.begin(ALONE)
        replies = self.asked_at_once()
        self.assertEqual(self.asked_alone(), replies)
        self.assertGreater({reply.split(b" ")[1] for reply in replies}, {b"0"})
