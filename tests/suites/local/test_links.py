"""Symbolic links, and directories of others, where the service makes its files: nothing is followed, nothing is
changed."""

import os
import socket
import tempfile
import unittest
from pathlib import Path

from users import Users, needs_engine, needs_root
from tukyamid.service.listening_sockets import Listening
from tukyamid.service.paths_and_locks import Lock
from tukyamid.service.start_on_demand import ServiceFailed, ensure

CONTENT = b"what must stay\n" * 100_000  # Longer than a log may become.


class Links(unittest.TestCase):
    """Whoever could once write to a directory may have left a link there."""

    def setUp(self):
        made = tempfile.TemporaryDirectory(prefix="tukyamid-links-")
        self.addCleanup(made.cleanup)
        self.folder = Path(made.name)
        self.victim = self.folder / "victim"
        self.victim.write_bytes(CONTENT)
        self.victim.chmod(0o640)
        self.before = os.environ.copy()
        self.addCleanup(os.environ.update, self.before)
        os.environ.update(XDG_STATE_HOME=str(self.folder / "state"), XDG_DATA_HOME=str(self.folder / "data"))

    def link(self, path, to=None):
        path.parent.mkdir(parents=True, exist_ok=True, mode=0o700)
        path.symlink_to(to or self.victim)
        return path

    def check_victim(self):
        found = self.victim.stat()
        self.assertEqual((self.victim.read_bytes(), found.st_mode & 0o777), (CONTENT, 0o640))

    def test_a_lock(self):
        for to in self.victim, self.folder / "nothing":
            with self.subTest(to.name):
                link = self.link(self.folder / f"{to.name}.lock", to)
                with self.assertRaises(OSError):
                    Lock(link)
                self.check_victim()
                self.assertFalse((self.folder / "nothing").exists())

    def test_a_lock_that_is_something_else(self):
        fifo = self.folder / "fifo"
        os.mkfifo(fifo)
        with self.assertRaises(PermissionError):
            Lock(fifo)

    def test_the_log(self):
        self.link(self.folder / "state/tukyamid/service.log")
        with self.assertRaises(ServiceFailed):
            ensure(self.folder / "socket", ["--engine", "/bin/false"])
        self.check_victim()

    def test_a_socket(self):
        for to in self.victim, self.folder / "nothing":
            with self.subTest(to.name):
                link = self.link(self.folder / f"{to.name}.socket", to)
                listening = Listening(link, 0o666)
                self.addCleanup(listening.close)
                with self.assertRaises(OSError):
                    listening.open()
                self.check_victim()
                self.assertFalse((self.folder / "nothing").exists())

    def test_a_link_to_a_socket_is_not_removed(self):
        """The socket that it leads to may be another service's."""
        with socket.socket(socket.AF_UNIX) as other:
            other.bind(str(self.folder / "other"))
            link = self.link(self.folder / "link", self.folder / "other")
            listening = Listening(link, 0o600)
            self.addCleanup(listening.close)
            with self.assertRaises(OSError):
                listening.open()
            self.assertTrue(link.is_symlink())

    def test_a_socket_has_its_mode_from_the_beginning(self):
        for mode in 0o600, 0o660, 0o666:
            listening = Listening(self.folder / f"{mode:o}", mode)
            self.addCleanup(listening.close)
            listening.open()
            self.assertEqual((self.folder / f"{mode:o}").stat().st_mode & 0o777, mode)


@needs_engine
@needs_root
class OthersFolders(Users):
    """Root runs the service or the command in directories of Mallory's, as with `sudo -E`."""

    def setUp(self):
        super().setUp()
        self.root = self.user(0)
        self.mallory.home.chmod(0o755)
        self.made = set(self.mallory.home.rglob("*"))

    def refused(self, said, *words, **environment):
        status, out, told = self.root.run(self.machine.folder / "python/bin" / words[0], *words[1:], **environment)
        self.assertEqual(out, "")
        self.assertIn(status, (1, 3))
        self.assertRegex(told, said)
        self.assertEqual(set(self.mallory.home.rglob("*")), self.made)

    def test_a_socket_and_a_database(self):
        other = "the directory [^\n]* is another user's"
        own, others = self.root.home, self.mallory.home
        for socket_folder, database_folder in (others, own), (own, others), (own, others / "new" / "folder"):
            self.refused(other, "tukyamid-server", "--socket", socket_folder / "socket", "--database",
                         database_folder / "k.db")

    def test_folders_in_which_others_may_write(self):
        own, shared, free = self.root.home, self.machine.folder / "shared", self.machine.folder / "free"
        for folder, mode in (shared, 0o1777), (free, 0o777):
            folder.mkdir()
            folder.chmod(mode)
        for socket_folder, database_folder in (free, own), (own, free), (own, shared):
            self.refused("others can write to the directory", "tukyamid-server", "--socket", socket_folder / "socket",
                         "--database", database_folder / "k.db")

    def test_the_home_of_another(self):
        """`sudo` may keep HOME. Root's command then makes nothing in the other user's home."""
        for name in "XDG_STATE_HOME", "XDG_DATA_HOME":
            self.refused("another user's", "tukyamid", "status", **{name: str(self.mallory.home / "new")})
        self.refused("another user's", "tukyamid", "status", HOME=str(self.mallory.home))
