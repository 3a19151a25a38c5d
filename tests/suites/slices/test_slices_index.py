"""What the database knows of who certified whom, beside plain graphs of the same world; and slices that are kept up to
date, beside slices that are made from scratch."""

import random
import tempfile
import unittest
from contextlib import closing
from pathlib import Path

from network import Network, fill
from tukyamid.service.sliced.slices import Slices
from tukyamid.service.storage.database import Actor, Change, DropCertificate, PutCertificate, SetVerdict
from tukyamid.service.storage.sqlite_database import Sqlite
from world import World, packet, signature

ACTOR = Actor(0, 0)
DEPTHS = (0, 0, 0, 0, 0, 1, 2, 255)


class Plain:
    """The certifications of a world, as one can read them off its octets: (target, issuer, depth) by number. Which of
    them are there depends on which certificates are kept and which verdicts are good."""

    def __init__(self, world):
        self.fprs = [bytes.fromhex(fpr.decode()) for fpr in world.fprs]
        self.octets, self.signed = {}, {}
        numbers = [bytes.fromhex(number.decode()) for number, _ in world.verdicts]
        for place, fpr in enumerate(self.fprs):
            lines = [bytes.fromhex(line[7:].decode()) for line in world.imports[5 * place:5 * place + 5]]
            front = packet(6, world.keys[place]) + packet(2, signature(0x1F, 1000)) + packet(13, world.user_ids[place])
            self.octets[fpr] = front + b"".join(line[len(front):] for line in lines)
            direct, *others = zip(numbers[6 * place:6 * place + 6], world.verdicts[6 * place:6 * place + 6])
            self.signed[direct[0]] = fpr, fpr, 0
            for (number, (_, issuer)), line in zip(others, lines):
                self.signed[number] = fpr, bytes.fromhex(issuer.decode()), line[line.rindex(b"\x03\x05") + 2]
        self.kept, self.good = set(self.fprs), set(self.signed)

    def rows(self, least):
        return [(issuer, target) for number, (target, issuer, depth) in self.signed.items()
                if number in self.good and target in self.kept and depth >= least]

    def onward(self, roots):
        found, rows = set(roots), self.rows(1)
        while more := {target for issuer, target in rows if issuer in found} - found:
            found |= more
        return found

    def leading(self, fpr):
        found, rows = {issuer for issuer, target in self.rows(0) if target == fpr} & self.kept, self.rows(1)
        while more := ({issuer for issuer, target in rows if target in found} & self.kept) - found:
            found |= more
        return found


class Index(unittest.TestCase):
    def setUp(self):
        self.folder = Path(self.enterContext(tempfile.TemporaryDirectory(prefix="tukyamid-")))
        self.world = World(5, 30, DEPTHS)
        self.plain = Plain(self.world)
        self.database = self.enterContext(closing(Sqlite(self.folder / "keyring.db")))
        self.apply(*(PutCertificate(fpr, octets) for fpr, octets in self.plain.octets.items()),
                   *(SetVerdict(number, issuer) for number, (_, issuer, _) in self.plain.signed.items()))
        self.parts = self.enterContext(closing(self.database.parts()))

    def apply(self, *effects):
        self.database.apply([Change("a test", ACTOR, effects)])

    def change_one(self, draw):
        """Changes something at random, here and there; gives what is touched."""
        fpr = draw.choice(self.plain.fprs)
        if draw.random() < 0.15:
            self.plain.kept.discard(fpr)
            self.apply(DropCertificate(fpr))
            return {fpr}
        if fpr not in self.plain.kept:
            self.plain.kept.add(fpr)
            self.apply(PutCertificate(fpr, self.plain.octets[fpr]))
            return {fpr}
        number = draw.choice(list(self.plain.signed))
        target, issuer, _ = self.plain.signed[number]
        self.plain.good ^= {number}
        self.apply(SetVerdict(number, issuer if number in self.plain.good else b""))
        return {target}

    def test_the_world_is_read_as_it_was_made(self):
        self.assertEqual(self.database.check(), [])
        self.assertEqual({depth for _, _, depth in self.plain.signed.values()}, set(DEPTHS))
        self.assertGreater(len(self.plain.onward(self.plain.fprs[:1])), 1)

    def test_onward_and_backward(self):
        draw = random.Random(6)
        for _ in range(40):
            fpr = draw.choice(self.plain.fprs)
            self.assertEqual(self.parts.slice_of((fpr,), 100), self.plain.onward({fpr}))
            leading = self.plain.leading(fpr) if fpr in self.plain.kept else set()
            self.assertEqual(self.parts.leading_to(fpr, 100), leading)
            self.assertEqual(self.parts.certified_by([fpr]),
                             sorted({target for issuer, target in self.plain.rows(0) if issuer == fpr}))
            self.change_one(draw)
        self.assertEqual(self.database.check(), [])

    def test_a_search_ends_at_its_limit(self):
        fpr = max(self.plain.fprs, key=lambda one: len(self.plain.onward({one})))
        whole = len(self.plain.onward({fpr}))
        self.assertGreater(whole, 3)
        for most in (1, 2, whole - 1):
            self.assertEqual(len(self.parts.slice_of((fpr,), most)), most + 1)
        self.assertEqual(len(self.parts.slice_of((fpr,), whole)), whole)

    def test_slices_are_kept_up_to_date(self):
        draw, slices = random.Random(7), Slices(100)
        roots = [tuple(draw.sample(self.plain.fprs, count)) for count in (1, 1, 1, 2, 3)]
        for _ in range(150):
            for some in roots:
                found = slices.of(some, self.parts)
                self.assertTrue(found.is_whole)
                self.assertLessEqual(self.plain.onward(some), found.members)
                # It is one too: whoever a member certified with depth is a member.
                self.assertEqual(self.plain.onward(found.members), found.members)
            touched = self.change_one(draw)
            before = {some: slices.of(some, self.parts).members for some in roots}
            reached = slices.change(touched, self.parts)
            for some, members in before.items():
                self.assertTrue(some in reached or members == slices.of(some, self.parts).members)

    def test_a_frozen_view_stays_as_it_was(self):
        fpr = self.plain.fprs[0]
        with closing(self.parts.frozen()) as frozen:
            self.apply(DropCertificate(fpr))
            self.assertTrue(frozen.has(fpr))
            self.assertEqual(frozen.count(), 30)
        self.assertFalse(self.parts.has(fpr))

    def test_the_generated_network_is_what_the_service_would_have_written(self):
        """The bench fills tables by itself, to be quick."""
        path = self.folder / "network.db"
        fill(path, Network(300))
        with closing(Sqlite(path, is_made=False)) as database, closing(database.parts()) as parts:
            self.assertEqual(database.check(), [])
            self.assertEqual(parts.count(), 300)
            self.assertEqual(parts.pending(), 0)
