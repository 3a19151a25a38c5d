"""Random choices: the same seed gives the same ones."""

import random


class Draws:
    def __init__(self, seed):
        self.random = random.Random(seed)
        self.odd = self.pick([0.003, 0.01, 0.02, 0.05, 0.1, 0.3])

    def chance(self, share):
        return self.random.random() < share

    def pick(self, items):
        return self.random.choice(items)

    def is_odd(self):
        """Whether to do something that mostly takes trust away. How often differs from script to script."""
        return self.chance(self.odd)

    def damage(self, octets):
        at = self.random.randrange(len(octets) + 1)
        form = self.pick(["cut", "change", "insert", "remove"])
        if form == "cut":
            return octets[:at]
        if form == "insert":
            return octets[:at] + self.random.randbytes(self.pick([1, 2])) + octets[at:]
        return octets[:at] + (self.random.randbytes(1) if form == "change" else b"") + octets[at + 1 :]
