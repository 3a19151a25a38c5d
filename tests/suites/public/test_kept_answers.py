"""What a process that answers keeps between two questions: its answers are byte for byte those of a view that keeps
nothing, over Debian's keyring, and nothing is kept once the keyring has changed."""

import json
import random
import subprocess
import sys
import unittest
from pathlib import Path

from everyone import Service
from outside import CLIENT, needs_engine
from page import PATIENCE

from tukyamid.client import connect
from tukyamid.command import questions
from tukyamid.command.parsed_words import Given
from tukyamid.formats.json_form import as_object
from tukyamid.keyrings.assessment import Report
from tukyamid.keyrings.kept_answers import Kept
from tukyamid.keyrings.service_keyring import served_keyring
from tukyamid.protocol.spelling import write_user_id

DEBIAN = Path("/usr/share/keyrings/debian-keyring.gpg")
STEVE, TIME = "cebb52301d617e910390fe16587979573442684e", 1_671_840_000
AMOUNTS = 1, 40, 119, 120, 121, 1_000_000


class Worker:
    """A process of the server for everyone, asked as the server asks it."""

    def __init__(self, service):
        words = [sys.executable, "-m", "tukyamid.public.worker", str(service.questions)]
        self._process = subprocess.Popen(words, stdin=subprocess.PIPE, stdout=subprocess.PIPE,
                                         env={**service.environment, "PYTHONPATH": str(CLIENT)})

    def ask(self, call, amount, asked, state):
        line = json.dumps([call, TIME, [[STEVE, 120]], {"amount": amount, "strict": False, **asked}, state])
        self._process.stdin.write(line.encode() + b"\n")
        self._process.stdin.flush()
        status, size = map(int, self._process.stdout.readline().split())
        return status, self._process.stdout.read(size)

    def close(self):
        self._process.stdin.close()
        self._process.stdout.close()
        self._process.wait(PATIENCE)


@needs_engine
@unittest.skipUnless(DEBIAN.exists(), "debian-keyring isn't installed")
class OverDebiansKeyring(unittest.TestCase):
    @classmethod
    def setUpClass(cls):
        cls.service = Service([DEBIAN])
        cls.addClassCleanup(cls.service.close)
        cls.client = connect(cls.service.changes, PATIENCE)
        cls.addClassCleanup(cls.client.close)
        cls.worker = Worker(cls.service)
        cls.addClassCleanup(cls.worker.close)

    def anew(self, call, amount, *words):
        """The answer of a keyring and a view that have been asked nothing."""
        given = Given(question=call, words=[*words], amount=amount, email=False)
        found = questions.read(given)(served_keyring(self.client).view(TIME, {STEVE: 120}))
        report = Report(call, amount, TIME, {STEVE: 120}, found.assessments, {}, found.notes)
        return json.dumps(as_object(report), ensure_ascii=False, separators=(",", ":")).encode()

    def same(self, state, call, amount, *words):
        """The answer, which is the worker's and that of a view that keeps nothing."""
        asked = {"keys": [words[0]]} if call == "identify" else {"user_id": words[-1], "keys": words[:-1],
                                                                 "email": False}
        status, body = self.worker.ask(call, amount, asked, state)
        self.assertEqual((status, body), (200, self.anew(call, amount, *words)))
        return body

    def test_answers_are_those_of_a_view_that_keeps_nothing(self):
        listed = list(served_keyring(self.client).view(TIME, {STEVE: 120}).list(1))
        self.assertGreater(len(listed), 100)
        keys, draw = list(self.client.keys()), random.Random(6)
        for key in [one.fpr for one in draw.sample(listed, 8)] + [one.fpr for one in draw.sample(keys, 4)]:
            for user_id in served_keyring(self.client).certificate(key).user_ids:
                text = user_id.decode("utf-8", "surrogateescape")
                for call, amount in zip(("authenticate", "explain", "authenticate", "explain"),
                                        draw.sample(AMOUNTS, 4)):
                    with self.subTest(call, key=key, user_id=write_user_id(user_id), amount=amount):
                        self.same("a state", call, amount, key, text)
            self.same("a state", "identify", draw.choice(AMOUNTS), key)
            self.same("a state", "lookup", draw.choice(AMOUNTS), text)

    def test_nothing_is_kept_once_the_keyring_has_changed(self):
        (one, *_) = [one for one in served_keyring(self.client).view(TIME, {STEVE: 120}).list(120) if one.fpr != STEVE]
        words = one.fpr, one.user_id.decode()
        before = self.same("before", "authenticate", 120, *words)
        (path, *_) = json.loads(before)["bindings"][0]["paths"]
        number = path["steps"][-1]["signature"]
        self.client.judge_bad(number)
        self.addCleanup(self.client.judge_good, number, path["steps"][-1]["issuer"])
        after = self.same("after", "authenticate", 120, *words)
        self.assertNotEqual(after, before)
        words = {(other["signature"], other["word"]) for other in json.loads(after)["bindings"][0]["others"]}
        self.assertIn((number, "bad"), words)


class Sizes(unittest.TestCase):
    def test_what_was_asked_for_last_is_kept(self):
        asked = []

        def ask(kept, question):
            return kept.of(question, lambda: asked.append(question) or question * 2, len)

        kept = Kept(12)
        for question in "aa", "b", "aa", "ccc", "b":  # They count as 5, 3 and 7.
            self.assertEqual(ask(kept, question), question * 2)
        self.assertEqual((asked, kept.size), (["aa", "b", "ccc", "b"], 10))
        self.assertEqual(ask(kept, "ccc"), "cccccc")
        self.assertEqual(ask(kept, "d" * 20), "d" * 40)  # More than all that may be kept.
        self.assertEqual((asked[4:], kept.size), (["d" * 20], 0))
