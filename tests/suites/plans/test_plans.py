"""Plans for one binding, compared with trying everything on random networks."""

import unittest

from outside import needs_engine
from random_networks import NOW, Drawn, Everything, Network
from tukyamid.planning.plan_types import Target
from tukyamid.planning.plan_making import plan_for


@needs_engine
class Complete(unittest.TestCase):
    """For one certification by one key, a plan finds exactly whom it could be of, and the least depth and amount."""

    def compare(self, network, roots, signers, bindings, wanted):
        with network.keyring() as keyring:
            everything = Everything(network, roots)
            self.addCleanup(everything.close)
            counts = [0, 0]
            for target, user_id in bindings:
                now = everything.amount(target, user_id, wanted)
                for signer in signers:
                    plan = plan_for(keyring, Target(target, user_id, wanted, (signer,)), NOW, roots, 1)
                    self.assertEqual((plan.amount, plan.reached), (now, now >= wanted))
                    if plan.reached:
                        continue
                    tried = everything.enough(signer, target, user_id, wanted)
                    cheapest = {fpr: min((one[0], one[1]) for one in tried if one[2] == fpr) for _, _, fpr in tried}
                    got = {one.certifications[0].target: (one.certifications[0].depth, one.certifications[0].amount)
                           for one in plan.proposals}
                    self.assertEqual(got, cheapest)
                    self.assertTrue(plan.complete)
                    counts[bool(cheapest)] += 1
                    for one in plan.proposals:
                        made = [(each.issuer, each.target, each.user_id, each.depth, each.amount)
                                for each in one.certifications]
                        self.assertEqual(one.amount, everything.amount(target, user_id, wanted, made))
                        self.assertEqual(one.alone, (one.amount,))
                    self.assertEqual([one.cost for one in plan.proposals], sorted(one.cost for one in plan.proposals))
            return counts

    def bindings_of(self, network, count):
        every = [(fpr, user_id) for fpr in network.fprs for user_id in network.user_ids[fpr]]
        return network.random.sample(every, count)

    def test_small_networks(self):
        without, having = 0, 0
        for seed in *range(24), 118:  # In the last one less than the whole amount has to be given to the target.
            network = Network(seed, 6 + seed % 9, 2.5)
            picked = network.random.sample(network.fprs, 4)
            roots = {picked[0]: 120, picked[1]: 60} if seed % 3 else {picked[0]: 120}
            with self.subTest(seed=seed):
                counts = self.compare(network, roots, [picked[0], picked[2], picked[3]], self.bindings_of(network, 3),
                                      (120, 180, 60)[seed % 3])
                without, having = without + counts[0], having + counts[1]
        self.assertGreater(min(without, having), 10)  # Both are there to be compared.

    def test_revoked_and_expired(self):
        without, having = 0, 0
        for seed in range(200, 208):
            network = Network(seed, 6 + seed % 9, 2.5, has_ends=True)
            picked = network.random.sample(network.fprs, 4)
            with self.subTest(seed=seed):
                counts = self.compare(network, {picked[0]: 120, picked[1]: 60}, [picked[0], picked[2]],
                                      self.bindings_of(network, 3), (40, 60, 120)[seed % 3])
                without, having = without + counts[0], having + counts[1]
        self.assertGreater(min(without, having), 3)  # Both are there to be compared.

    def test_a_depth_that_is_enough_while_a_greater_one_is_not(self):
        """Two roots R and S, of 80 and 120, and a key X that has certified T. If R makes X an introducer of depth 1,
        three paths of 40 lead to T: by X, by a chain from R, and by a chain from S that ends with B. With more depth
        the path R, X, B, T is shorter than both chains. It uses up what R and B have left, so neither chain counts."""
        target, x, b, root, other, *chain = range(10)
        network = Drawn((x, target, 0, 40), (x, b, 1, 120), (b, target, 0, 40),
                        (root, chain[0], 9, 40), (chain[0], chain[1], 9, 40), (chain[1], chain[2], 9, 40),
                        (chain[2], target, 0, 40),
                        (other, chain[3], 9, 120), (chain[3], chain[4], 9, 120), (chain[4], b, 9, 120))
        fprs = network.fprs
        roots, binding = {fprs[root]: 80, fprs[other]: 120}, (fprs[target], *network.user_ids[fprs[target]])
        everything = Everything(network, roots)
        self.addCleanup(everything.close)
        made = fprs[root], fprs[x], *network.user_ids[fprs[x]]
        amounts = {depth: everything.amount(*binding, 120, [(*made, depth, 60)]) for depth in (0, 1, 2, 255)}
        self.assertEqual(amounts, {0: 80, 1: 120, 2: 100, 255: 100})
        self.compare(network, roots, [fprs[root]], [binding], 120)

    def test_networks_of_two_hundred_keys(self):
        for seed, certifications in (1, 1.5), (2, 3.0):
            network = Network(seed, 200, certifications)
            picked = network.random.sample(network.fprs, 2)
            with self.subTest(seed=seed):
                self.compare(network, {picked[0]: 120}, [picked[0]], self.bindings_of(network, 1), 120)


if __name__ == "__main__":
    unittest.main()
