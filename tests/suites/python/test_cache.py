"""What is kept of a verified keyring, and when it is used: only what a verifier finished, and only if nobody else can
write there."""

import os
import shutil
import stat

from asking import Asking, program
from friends import PEOPLE
from outside import COMMAND, TRUSTING, folder, needs_engine, needs_gpg, run

VERSION = 'case "$1" in --version) echo "wot-verdicts 1 (a stand-in)"; exit;; esac\n'


@needs_engine
@needs_gpg
class Cache(Asking):
    def setUp(self):
        self.cache = folder() / self.id()
        self.log = folder() / f"{self.id()}.log"

    def asked(self, *words, status=0, said=rb"\A\Z", version="1", keyring=None):
        """How often the verifier read the input, and how, since the test began."""
        environment = {**os.environ, "TRUSTING_LOG": str(self.log), "TRUSTING_VERSION": version}
        keyring = self.friends.keyring if keyring is None else keyring
        done = self.ask("--cache", self.cache, *words, "authenticate", self.fpr["Bob"], PEOPLE["Bob"], keyring=keyring,
                        env=environment)
        self.assertEqual(done.returncode, status, done.stderr)
        self.assertRegex(done.stderr, said)
        lines = self.log.read_text().splitlines() if self.log.exists() else []
        return [line.partition(" -- ")[0].removeprefix("--public").strip() or "whole" for line in lines
                if line != "--version"]

    def test_what_was_verified_is_kept(self):
        counts = [len(self.asked(*words)) for words in ((), (), ["--anew"], (), ["--no-cache"])]
        self.assertEqual(counts, [1, 1, 2, 2, 3])
        (entry,) = self.cache.iterdir()
        self.assertEqual(stat.S_IMODE(self.cache.stat().st_mode), 0o700)
        self.assertEqual(sorted(file.name for file in entry.iterdir()), ["about.json", "bindings", "dump"])

    def test_a_keyring_whose_name_is_an_option(self):
        for name in "--certificates", "-h", "--version":
            shutil.copy(self.friends.keyring, folder() / name)
            words = [f"--keyring={name}", "--cache", self.cache, "--no-service", "--root", self.fpr["Alice"]]
            done = run([COMMAND, *words, "authenticate", self.fpr["Bob"], PEOPLE["Bob"]], cwd=folder(),
                       env={**os.environ, "TUKYAMID_VERIFIER": str(TRUSTING)})
            self.assertEqual((done.returncode, done.stderr), (0, b""))
            shutil.rmtree(self.cache)

    def test_what_is_kept_and_damaged_is_deleted(self):
        self.asked()
        (entry,) = self.cache.iterdir()
        os.truncate(entry / "dump", 100)
        self.assertEqual([len(self.asked()), len(self.asked())], [2, 2])
        dump = (entry / "dump").read_bytes()
        (entry / "dump").write_bytes(dump.replace(b"import c6", b"import 06", 1))
        self.asked(status=3, said=rb"\Atukyamid: the cache entry of this input was damaged[^\n]*\n\Z")
        self.assertEqual([len(self.asked()), len(self.asked())], [3, 3])

    def test_without_a_folder_that_can_be_written_the_answer_comes_all_the_same(self):
        (folder() / "a-file").touch()
        self.cache = folder() / "a-file" / "cache"
        self.assertEqual(self.asked(said=rb"\Atukyamid: [^\n]*(kept|cache)[^\n]*Not a directory[^\n]*\n\Z"), ["whole"])

    def test_a_folder_of_others_is_not_used(self):
        self.cache.mkdir()
        for mode in 0o777, 0o770:
            self.cache.chmod(mode)
            self.asked(said=rb"\Atukyamid: no cache is used: others can write to the folder [^\n]*\n\Z")
            self.assertEqual(list(self.cache.iterdir()), [])
        self.cache.chmod(0o700)
        if os.geteuid() == 0:
            os.chown(self.cache, 65534, -1)
            self.asked(said=rb"\Atukyamid: no cache is used: the folder [^\n]* is another user's\n\Z")
            self.assertEqual(list(self.cache.iterdir()), [])

    def test_only_what_a_verifier_finished_is_kept(self):
        half = f'"{TRUSTING}" "$@" | head -n 3'
        for name, text in ("empty", ""), ("killed", f"{half}\nkill -9 $$"), ("failed", f"{half}\nexit 3"):
            with self.subTest(name):
                broken = program(name, VERSION + text)
                self.asked("--verifier", broken, status=3, said=rb"\Atukyamid: [^\n]+\n\Z")
                self.assertFalse(self.cache.exists() and list(self.cache.iterdir()))
        self.asked()

    def test_another_version_of_the_verifier_verifies_again(self):
        self.assertEqual([len(self.asked(version=version)) for version in "1122"], [1, 1, 2, 2])

    def test_of_a_keyring_that_changed_only_what_is_new_is_verified(self):
        """Frank comes to the keyring. What is then held is what a verification of all would have given."""
        without = self.friends.without("Frank")
        changed = folder() / f"{self.id()}.pgp"
        shutil.copy(without, changed)
        self.assertEqual(self.asked(keyring=changed), ["whole"])
        shutil.copy(self.friends.keyring, changed)
        self.assertEqual(self.asked(keyring=changed), ["whole", "--certificates", "--pending"])

    def test_what_was_verified_piece_by_piece_is_the_same(self):
        dumps = []
        for keyrings in [self.friends.without("Frank"), self.friends.keyring], [self.friends.keyring]:
            for keyring in keyrings:
                done = self.ask("--cache", self.cache, "authenticate", self.fpr["Bob"], PEOPLE["Bob"], keyring=keyring)
                self.assertEqual(done.returncode, 0, done.stderr)
            newest = max(self.cache.iterdir(), key=lambda one: one.stat().st_mtime)
            dumps.append((newest / "dump").read_bytes())
            shutil.rmtree(self.cache)
        self.assertEqual(dumps[0], dumps[1])
