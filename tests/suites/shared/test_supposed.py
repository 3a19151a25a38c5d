"""Suppositions and plans over a service in slices on PostgreSQL, compared with one that holds all of its keyring."""

import unittest

from alone_cluster import OneServer
from outside import Client, Server
from supposed_alike import BUDGET, Alike
from test_slices_lines import tell_all


class Supposed(OneServer):
    def test_over_slices_and_over_the_whole(self):
        alike = Alike(self)
        sliced, whole = self.serve("--budget", str(BUDGET)), self.enterContext(Server())
        for server in sliced, whole:
            with Client(server.path) as client:
                tell_all(client, alike.lines)
        changed, proposed = alike.compare(sliced.path, whole.path)
        self.assertGreater(min(changed, proposed), 1)


if __name__ == "__main__":
    unittest.main()
