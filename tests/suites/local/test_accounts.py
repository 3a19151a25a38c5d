"""The numbers of one account: its own, and those that it has for containers. All together have one user's share."""

import contextlib
import os
import shutil
import socket
import tempfile
import time
import unittest
from pathlib import Path

from users import ALICE, MALLORY, PATIENCE, Users, is_served, needs_engine, needs_root

from tukyamid.service.user_accounts import SUBORDINATE, Accounts

FIRST = 24_000_000
FULL = b"refused full clients\n"
FILES = 200  # So that there are few places for clients: (FILES - 128) // 4.


class Ranges(unittest.TestCase):
    def setUp(self):
        made = tempfile.TemporaryDirectory(prefix="tukyamid-accounts-")
        self.addCleanup(made.cleanup)
        self.path = Path(made.name) / "subuid"
        self.accounts = Accounts(str(self.path))

    def test_whose_a_number_is(self):
        self.path.write_text("root:1000:10\n77:2000:5\nno such account:3000:2\n")
        for number, account in ((999, 999), (1000, 0), (1009, 0), (1010, 1010), (2004, 77), (2005, 2005),
                                (3000, 3000), (3001, 3000), (3002, 3002), (0, 0), (-1, -1)):
            self.assertEqual(self.accounts.of(number), account, number)

    def test_a_file_that_changes_or_is_not_there(self):
        self.assertEqual(self.accounts.of(1001), 1001)
        self.path.write_text("root:1000:10\n")
        self.assertEqual(self.accounts.of(1001), 0)
        self.path.write_text("77:1000:100\n")
        self.assertEqual(self.accounts.of(1001), 77)
        self.path.unlink()
        self.assertEqual(self.accounts.of(1001), 1001)

    def test_lines_that_are_none(self):
        self.path.write_bytes(b"\xff:1:\n::\nroot\nroot:x:1\nroot:5:-1\nroot:4294967295:2\n# a comment\nroot:10:2\n")
        self.assertEqual([self.accounts.of(number) for number in (1, 5, 4294967295, 11)], [1, 5, 4294967295, 0])


@needs_engine
@needs_root
class Served(Users):
    """A service for all users, in which there is room for few clients."""

    def setUp(self):
        super().setUp()
        if not os.path.exists(SUBORDINATE) or shutil.which("unshare") is None:
            self.skipTest(f"there is no {SUBORDINATE}, or no unshare")
        self.path = self.machine.folder / "socket"
        (self.machine.folder / "subuid").write_text(f"{MALLORY}:{FIRST}:1000\n")
        root = self.user(0)
        server = self.machine.folder / "python/bin/tukyamid-server"
        service = root.start(
            ["unshare", "--mount", "sh", "-c", f"mount --bind {self.machine.folder}/subuid {SUBORDINATE} && "
             f"exec prlimit --nofile={FILES} {server} --socket {self.path} --mode 666 --database {root.home}/k.db"])
        end = time.monotonic() + PATIENCE
        while not is_served(self.path):
            if service.poll() is not None or time.monotonic() > end:
                raise AssertionError(service.communicate(timeout=PATIENCE)[1].decode())
            time.sleep(0.02)

    def first_line(self, user):
        """The service's first line to a user who asks for a name of nobody's, over a connection that stays open."""
        os.seteuid(user)
        try:
            connected = self.enterContext(socket.socket(socket.AF_UNIX))
            connected.settimeout(PATIENCE)
            connected.connect(str(self.path))
        finally:
            os.seteuid(0)
        with contextlib.suppress(BrokenPipeError):
            connected.sendall(b"service find key " + b"ab" * 20 + b"\n")
        return connected.makefile("rb").readline()

    def test_the_numbers_of_one_account_have_one_share(self):
        """With a share each, two numbers took all places, and everybody else was refused."""
        share = (FILES - 128) // 4 // 2
        said = [self.first_line(number) for number in (MALLORY, *range(FIRST, FIRST + 2 * share))]
        self.assertEqual(said[:share], [b"service find 0\n"] * share)
        self.assertEqual(set(said[share:]), {FULL})
        self.assertEqual(self.first_line(ALICE), b"service find 0\n")
