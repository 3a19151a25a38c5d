"""Directories above the user's own to which others can write: they could put another directory in its place."""

import os
import shutil
import subprocess
import unittest

from users import ROOT, Users, needs_engine, needs_root

from tukyamid.safe_folders import check_way

FPR = "ab" * 20
FORGED = f"[roots]\n{FPR} = 120\n"


@needs_engine
@needs_root
class Swapped(Users):
    """A directory of Alice's has a file that Mallory wrote, and that Alice has saved without looking at it."""

    def setUp(self):
        super().setUp()
        self.alice.home.chmod(0o755)
        self.config = self.alice.make(self.alice.home / ".config")
        self.alice.make(self.config / "tukyamid")
        self.write(self.config / "tukyamid/config.toml", "[roots]\n")
        self.saved = self.alice.make(self.alice.home / "saved", 0o755)
        self.write(self.saved / "config.toml", FORGED)

    def write(self, path, text):
        path.write_text(text)
        os.chown(path, self.alice.number, self.alice.number)
        path.chmod(0o600)

    def swap(self, place):
        """Mallory puts a link to what Alice has saved in the place of another directory of hers."""
        text = "import os, sys; os.rename(sys.argv[1], sys.argv[1] + '.old'); os.symlink(sys.argv[2], sys.argv[1])"
        return self.mallory.run("/usr/bin/python3", "-c", text, place, self.saved)[0] == 0

    def test_the_configuration(self):
        place = self.config / "tukyamid"
        self.assertFalse(self.swap(place))  # Not with the usual mode.
        self.config.chmod(0o777)
        for is_swapped in False, True:
            with self.subTest(is_swapped):
                self.assertEqual(is_swapped, is_swapped and self.swap(place))
                status, out, said = self.alice.tukyamid("root", "list")
                self.assertEqual((status, out), (3, ""))
                self.assertIn(f"others can write to the directory {self.config}\n", said)
        self.config.chmod(0o700)
        self.assertIn(f"{place} is another user's\n", self.alice.tukyamid("root", "list")[2])  # What was left there.

    def test_the_configuration_of_the_program_for_gpg(self):
        program = ROOT / "verifier/out/tukyamid-gpg"
        if not os.access(program, os.X_OK):
            self.skipTest("tukyamid-gpg isn't built")
        copy = shutil.copy(program, self.machine.folder / "tukyamid-gpg")
        self.write(self.alice.home / "file", "")
        for mode, is_refused in (0o700, False), (0o777, True):
            self.config.chmod(mode)
            said = self.alice.run(copy, "--verify", self.alice.home / "file", self.alice.home / "file")[2]
            self.assertEqual(f"others can write to the directory {self.config}" in said, is_refused, said)

    def test_what_was_verified(self):
        caches = self.alice.make(self.alice.home / ".cache")
        self.alice.make(caches / "tukyamid")
        ring = shutil.copy(ROOT / "examples/friends.pgp", self.machine.folder / "ring.pgp")
        verifier = ROOT / "verifier/out/wot-verdicts"
        if not os.access(verifier, os.X_OK):
            self.skipTest("the verifier isn't built")
        copy = shutil.copy(verifier, self.machine.folder / "wot-verdicts")
        words = "--no-service", "--root", FPR, "--keyring", ring, "--verifier", copy, "list"
        for mode, is_refused in (0o700, False), (0o777, True):
            caches.chmod(mode)
            said = self.alice.tukyamid(*words)[2]
            why = f"no cache is used: others can write to the directory {caches}\n"
            self.assertEqual(why in said, is_refused, said)

    def test_the_database(self):
        data = self.alice.make(self.alice.home / "data")
        self.alice.make(data / "tukyamid")
        data.chmod(0o777)
        status, _, said = self.alice.run(self.machine.folder / "python/bin/tukyamid-server", "serve", "--socket",
                                         self.alice.runtime / "socket", "--database", data / "tukyamid/k.db")
        self.assertNotEqual(status, 0)
        self.assertIn(f"others can write to the directory {data}\n", said)


@needs_root
class Ways(Users):
    def refused(self, path):
        done = subprocess.run(["/usr/bin/python3", "-c", "import sys; from tukyamid.safe_folders import check_way\n"
                               "try: check_way(sys.argv[1])\nexcept PermissionError as error: print(error)", path],
                              user=self.alice.number, group=self.alice.number, extra_groups=[], capture_output=True,
                              text=True, check=True, env={"PYTHONPATH": str(self.machine.folder / "python")})
        return done.stdout.strip()

    def test_links_on_the_way(self):
        """The directories of each link count, and in a shared one the link's owner."""
        self.alice.home.chmod(0o755)
        good, free = self.alice.make(self.alice.home / "good"), self.alice.make(self.alice.home / "free", 0o777)
        shared = self.alice.make(self.machine.folder / "shared", 0o1777)
        (self.alice.home / "first").symlink_to("free/../free/second")
        (free / "second").symlink_to(good)
        for name, owner in ("hers", self.alice.number), ("his", self.mallory.number):
            (shared / name).symlink_to(good)
            os.chown(shared / name, owner, owner, follow_symlinks=False)
        (self.alice.home / "loop").symlink_to("loop")
        for path, said in [(good, ""), (self.alice.home / "first", f"others can write to the directory {free}"),
                           (shared / "hers", ""), (shared / "his", f"{shared / 'his'} is another user's"),
                           (self.alice.home / "loop", f"{self.alice.home / 'loop'}: too many links")]:
            with self.subTest(path.name):
                self.assertEqual(self.refused(path), said)


class Own(unittest.TestCase):
    def test_a_usual_home(self):
        check_way("/usr/lib")
        with self.assertRaises(FileNotFoundError):
            check_way("/usr/nothing-here")
