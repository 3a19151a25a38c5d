"""Root writes a file into a directory of Mallory's, who replaces what is made there while it is made. Nothing outside
that directory changes."""

import os
import shutil
import stat
import tempfile
import unittest
from pathlib import Path

from users import MALLORY, needs_root

from tukyamid.output_files import Output

SECRET, MADE = b"a secret of root's", b"what root writes"


@needs_root
class Replaced(unittest.TestCase):
    def setUp(self):
        self.folder = Path(tempfile.mkdtemp(prefix="tukyamid-outputs-"))
        self.addCleanup(shutil.rmtree, self.folder)
        self.folder.chmod(0o755)
        self.victim = self.folder / "victim"
        self.victim.write_bytes(SECRET)
        self.victim.chmod(0o600)
        self.others = self.folder / "others"
        self.others.mkdir()
        os.chown(self.others, MALLORY, MALLORY)
        self.place = self.others / "place"

    def mallory(self, do):
        """Does something as Mallory."""
        child = os.fork()
        if child == 0:
            os.setgroups([])
            os.setgid(MALLORY)
            os.setuid(MALLORY)
            try:
                do()
            finally:
                os._exit(0)
        os.waitpid(child, 0)

    def leave(self):
        """A file of Mallory's, which root is to replace."""
        self.mallory(lambda: self.place.write_bytes(b"mine"))

    def check_victim(self):
        found = self.victim.stat()
        self.assertEqual((self.victim.read_bytes(), found.st_uid, stat.S_IMODE(found.st_mode)), (SECRET, 0, 0o600))

    def replace(self, *names):
        """Mallory puts a folder of hers, with links to the victim, in the place of each folder that root made."""
        for made in list(self.others.glob(".*")):
            made.rename(self.others / "taken")
            made.mkdir()
            for name in names:
                (made / name).symlink_to(self.victim)

    def test_what_is_made_aside(self):
        """Root gave the victim to Mallory, with the mode of her file."""
        self.leave()
        with Output(str(self.place)) as output:
            output.write([MADE])
            self.mallory(lambda: self.replace(output.path.name))
            output.keep()
        self.check_victim()
        self.assertEqual((self.place.read_bytes(), self.place.stat().st_uid), (MADE, MALLORY))

    def test_the_place_itself(self):
        def link():
            self.place.unlink(missing_ok=True)
            self.place.symlink_to(self.victim)
        for is_there in True, False:
            with self.subTest(is_there):
                self.mallory(lambda: self.place.unlink(missing_ok=True))
                if is_there:
                    self.leave()
                with Output(str(self.place)) as output:
                    output.write([MADE])
                    self.mallory(link)
                    with self.assertRaises(OSError):
                        output.keep()
                self.check_victim()

    def test_a_file_that_comes_meanwhile(self):
        """It isn't the one that root saw, and could be read by Mallory."""
        for is_there in True, False:
            with self.subTest(is_there):
                self.mallory(lambda: self.place.unlink(missing_ok=True))
                if is_there:
                    self.leave()
                with Output(str(self.place)) as output:
                    output.write([MADE])
                    other = self.others / "other"
                    self.mallory(lambda: (other.write_bytes(b"mine"), other.rename(self.place)))
                    with self.assertRaises(OSError):
                        output.keep()
                self.assertEqual(self.place.read_bytes(), b"mine")

    def test_a_second_name_of_a_file(self):
        self.place.hardlink_to(self.victim)
        with self.assertRaises(PermissionError), Output(str(self.place)):
            pass
        self.check_victim()

    def test_a_pipe_is_not_waited_for(self):
        self.mallory(lambda: os.mkfifo(self.place))
        with self.assertRaises(PermissionError), Output(str(self.place)):
            pass

    def test_a_folder_below_it(self):
        """It is root's own, and can still be replaced."""
        own = self.others / "own"
        own.mkdir(mode=0o700)
        with Output(str(own / "place")) as output:
            output.write([MADE])
            self.mallory(lambda: (own.rename(self.others / "moved"), own.symlink_to(self.folder)))
            output.keep()
        self.assertFalse((self.folder / "place").exists())
        self.assertEqual((self.others / "moved" / "place").read_bytes(), MADE)

    def test_without_an_attack(self):
        """A new file is root's alone; one that was there keeps its owner and its mode."""
        with Output(str(self.place)) as output:
            output.write([MADE])
            self.assertFalse(self.place.exists())
            output.keep()
        found = self.place.stat()
        self.assertEqual((self.place.read_bytes(), found.st_uid, stat.S_IMODE(found.st_mode)), (MADE, 0, 0o600))
        self.place.unlink()
        self.leave()
        self.place.chmod(0o640)
        with Output(str(self.place)) as output:
            output.write([MADE])
        self.assertEqual(self.place.read_bytes(), b"mine")
        with Output(str(self.place)) as output:
            output.write([b"x"])
            output.keep()
        found = self.place.stat()
        self.assertEqual((self.place.read_bytes(), found.st_uid, stat.S_IMODE(found.st_mode)), (b"x", MALLORY, 0o640))
        self.assertEqual([one.name for one in self.others.iterdir()], ["place"])
