"""What is supposed, and planned, over two services that hold the same keyring."""

import os
from unittest import mock

from outside import PROGRAM

from tukyamid.client import connect
from tukyamid.keyrings.service_keyring import served_keyring
from tukyamid.planning.plan_making import plan_for
from tukyamid.planning.plan_types import Target
from tukyamid.planning.scratch import supposing
from tukyamid.planning.suppositions import Certifies, Revokes, WithoutKey
from world import World

NOW, WANTED, BUDGET = 5000, 120, 30


class Alike:
    """A network of 40 keys, of which few are introducers, so that a slice has some of them."""

    def __init__(self, case, seed=3):
        case.enterContext(mock.patch.dict(os.environ, {"TUKYAMID_ENGINE": str(PROGRAM)}))
        self.case, self.world = case, World(seed, 40, (0, 0, 0, 0, 1))
        self.fprs = [fpr.decode() for fpr in self.world.fprs]
        self.lines = self.world.lines()

    def bindings(self):
        return list(zip(self.fprs, self.world.user_ids))

    def compare(self, sliced, whole):
        """That both answer alike; returns how many amounts and plans were compared that weren't nothing."""
        with connect(sliced) as one, connect(whole) as other:
            keyrings = served_keyring(one), served_keyring(other)
            return self._supposed(keyrings), self._plans(keyrings)

    def _supposed(self, keyrings):
        draw, changed = self.world.random, 0
        for fpr, user_id in draw.sample(self.bindings(), 3):
            root, issuer, target = draw.sample(range(40), 3)
            certified = self.fprs[target], self.world.user_ids[target]
            for made in (Certifies(self.fprs[root], fpr, user_id), Certifies(self.fprs[root], *certified, 2, 60),
                         Revokes(self.fprs[issuer], *certified), WithoutKey(self.fprs[target])):
                plain, *found = [self._answer(keyring, root, fpr, user_id, ones)
                                 for keyring, ones in ((keyrings[0], ()), (keyrings[0], (made,)),
                                                       (keyrings[1], (made,)))]
                self.case.assertEqual(*found)
                changed += plain != found[0]
        return changed

    def _answer(self, keyring, root, fpr, user_id, ones):
        with supposing(keyring, ones, NOW) as made:
            view = made.view(NOW, {self.fprs[root]: 120})
            return view.ask(fpr, WANTED, user_id), view.explain(fpr, user_id)

    def _plans(self, keyrings):
        draw, proposed = self.world.random, 0
        for fpr, user_id in draw.sample(self.bindings(), 3):
            root = draw.choice([one for one in self.fprs if one != fpr])
            plans = [plan_for(keyring, Target(fpr, user_id, WANTED, (root,)), NOW, {root: 120}, 1)
                     for keyring in keyrings]
            self.case.assertEqual(*plans)
            proposed += bool(plans[0].proposals)
        return proposed
