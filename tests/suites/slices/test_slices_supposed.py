"""Suppositions and plans over a service that keeps a part of its keyring in engines, and over one that keeps all."""

import unittest

from outside import Client, Server, needs_engine
from supposed_alike import BUDGET, Alike
from test_slices_lines import lines_of, tell_all


@needs_engine
class Supposed(unittest.TestCase):
    def test_over_slices_and_over_the_whole(self):
        alike = Alike(self)
        sliced, whole = self.enterContext(Server("--budget", str(BUDGET))), self.enterContext(Server())
        for server in sliced, whole:
            with Client(server.path) as client:
                tell_all(client, alike.lines)
                status = dict(line.split(b" ", 1) for line in lines_of(client, b"service status")[1:])
                self.assertEqual(status.get(b"budget"), b"%d" % BUDGET if server is sliced else status.get(b"budget"))
        changed, proposed = alike.compare(sliced.path, whole.path)
        self.assertGreater(min(changed, proposed), 1)


if __name__ == "__main__":
    unittest.main()
