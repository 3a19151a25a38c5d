"""Scripts that are made, with a limit of time."""

import subprocess
import sys
import tempfile
import threading
import time
import unittest
from pathlib import Path

import layers

sys.path.insert(0, str(Path(__file__).resolve().parents[2]))
import plain

sys.path.insert(0, str(plain.ROOT / "model"))
from wot_model.certificates import KEY, SIGNATURE, USER_ID, fingerprint, number_of
from wot_model.packets import write_packet

SECONDS = 60  # What takes longer than that repeats work that could be kept, or looks at all paths.
PIECE = 1 << 20


class Times(unittest.TestCase):
    """Scripts that end in time only where what was made is kept, and where not all paths are looked at."""

    ROOT, TARGET = (fingerprint(bytes.fromhex(body)) for body in ("04000003e81b01", "04000003e81b04"))
    DIRECT = bytes.fromhex("041f1b0800060502000003e800000000")

    def setUp(self):
        self.lines, self.replies = [], []

    def say(self, line, *replies):
        self.lines.append(line + b"\n")
        self.replies += [reply + b"\n" for reply in replies]

    def hold(self, last, *components):
        """Imports the key whose material is this octet, with its direct key signature and user IDs, each with the
        bodies of its certifications by issuer; says that each signature is good."""
        body = bytes.fromhex("04000003e81b") + bytes([last])
        packets = [write_packet(KEY, body), write_packet(SIGNATURE, self.DIRECT)]
        verdicts = [(number_of(body, 0, b"", self.DIRECT), fingerprint(body))]
        for user_id, signatures in components:
            packets.append(write_packet(USER_ID, user_id))
            for signature, issuer in signatures:
                packets.append(write_packet(SIGNATURE, signature))
                verdicts.append((number_of(body, 1, user_id, signature), issuer))
        self.say(b"import " + b"".join(packets).hex().encode(), b"ok taken 1 skipped 0 new %d" % len(packets))
        for number, issuer in verdicts:
            self.say(b"verdict %s good %s" % (number.hex().encode(), issuer.hex().encode()), b"ok")

    def view(self, moment, amount):
        self.say(b"view p time %d" % moment, b"ok")
        self.say(b"view p root %s %d" % (self.ROOT.hex().encode(), amount), b"ok")

    @staticmethod
    def certification(made, extra=b""):
        hashed = b"\5\2" + made.to_bytes(4, "big") + extra
        return b"\4\x10\x1b\x08" + len(hashed).to_bytes(2, "big") + hashed + bytes(4)

    def passes(self):
        """The program gives these replies in time. They are compared as they come, since they may be long."""
        begun = time.monotonic()
        with tempfile.TemporaryFile() as script:
            script.writelines(self.lines)
            script.seek(0)
            with subprocess.Popen([plain.PROGRAM, "run"], stdin=script, stdout=subprocess.PIPE) as process:
                timer = threading.Timer(SECONDS, process.kill)
                timer.start()
                same = all(process.stdout.read(len(reply)) == reply for reply in joined(self.replies))
                ended = process.stdout.read(1) == b"" and process.wait() == 0
                timer.cancel()
                process.kill()
        self.assertLess(time.monotonic() - begun, SECONDS)
        self.assertTrue(same and ended, "another reply")

    def test_thirty_layers_of_two_certificates(self):
        """2^30 paths of 31 steps."""
        for line, replies in layers.exchanges():
            self.say(line.encode(), *(reply.encode() for reply in replies))
        self.passes()

    def test_rows_are_kept_through_changes(self):
        """A hundred thousand changes that touch no certificate, with a question after each, over a user ID that has
        twenty thousand certifications. If each made its edges again, two billion signatures would be looked at."""
        self.hold(1)
        self.hold(4, (b"t", [(self.certification(2001 + number), self.ROOT) for number in range(20000)]))
        self.view(30000, 120)
        root, target = self.ROOT.hex().encode(), self.TARGET.hex().encode()
        told = b"amount 120 paths 1\npath 120 steps 1 root %s\nstep %s %s 0 120 t" % (root, root, target)
        for number in range(1, 100001):
            self.say(b"verdict %064d %s" % (9, b"bad" if number % 2 else b"good " + root), b"ok")
            self.say(b"ask p %s %d t" % (target, number), told)
        self.passes()

    def test_many_answers_are_kept(self):
        """A question with 250 paths, asked forty thousand times, by a watch that restarts and behind each line; and
        beside it more others than a view keeps. Were it searched each time, ten million searches of five hundred edges
        each would be made."""
        keys = [bytes.fromhex("04000003e81b") + bytes([last]) for last in range(5, 255)]
        names = [fingerprint(key) for key in keys]
        self.hold(1)
        self.hold(4, (b"t", [(self.certification(2000, b"\x16\x21\4" + name), name) for name in names]))
        certified = self.certification(2000, b"\3\5\1\1\x16\x21\4" + self.ROOT)
        for key in keys:
            self.hold(key[-1], (b"x", [(certified, self.ROOT)]))
        self.view(5000, 255)
        root, target = self.ROOT.hex().encode(), self.TARGET.hex().encode()
        told = [b"amount 250 paths 250"]
        for name in (name.hex().encode() for name in sorted(names)):
            told += [b"path 1 steps 2 root %s" % root, b"step %s %s 1 1 x" % (root, name)]
            told += [b"step %s %s 0 120 t" % (name, target)]
        question, told = b"ask p %s 250 t" % target, b"\n".join(told)
        self.say(question, told)
        for _ in range(20000):
            self.say(b"watch w on p %s 250 t" % target, b"watch w amount 250")
        self.say(b"watch w off", b"ok")
        for number in range(1026):
            self.say(b"ask p %040x 1 t" % number, b"amount 0 paths 0")
            if number >= 1022:
                self.say(question, told)
        self.passes()

    def test_introducers_that_certify_one_another(self):
        """Sixty, who certify the target with amounts that rise in the order of their fingerprints, or that fall. The
        longer a path from one of them, the wider it may be. The answer is found at once, and not with status 5."""
        for amounts in (range(1, 61), range(60, 0, -1)):
            with self.subTest(amounts):
                self.setUp()
                self.hold_introducers(amounts)
                self.passes()

    def hold_introducers(self, amounts):
        """Introducers who certify the target with these amounts; the root certifies the one with the greatest."""
        keys = sorted((bytes.fromhex("04000003e81b") + bytes([last]) for last in range(5, 65)), key=fingerprint)
        names = [fingerprint(key) for key in keys]
        widest = names[amounts.index(60)]
        self.hold(1)
        small = [b"\3\5\0" + bytes([amount]) + b"\x16\x21\4" for amount in amounts]
        self.hold(4, (b"t", [(self.certification(2000, part + name), name) for part, name in zip(small, names)]))
        trust = b"\3\5\377\170\x16\x21\4"  # Depth 255 and amount 120, and the issuer.
        for key, name in zip(keys, names):
            issuers = [self.ROOT] * (name == widest) + [each for each in names if each != name]
            self.hold(key[-1], (b"x", [(self.certification(2000, trust + issuer), issuer) for issuer in issuers]))
        self.view(5000, 255)
        root, target, introducer = (each.hex().encode() for each in (self.ROOT, self.TARGET, widest))
        path = b"path 60 steps 2 root %s\nstep %s %s 255 120 x\nstep %s %s 0 60 t"
        path %= root, root, introducer, introducer, target
        self.say(b"ask p %s 60 t" % target, b"amount 60 paths 1", *path.split(b"\n"))


def joined(replies):
    """The replies in pieces of at least this size."""
    piece, size = [], 0
    for reply in replies:
        piece.append(reply)
        size += len(reply)
        if size >= PIECE:
            yield b"".join(piece)
            piece, size = [], 0
    yield b"".join(piece)
