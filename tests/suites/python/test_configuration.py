"""The user's own trust roots: `tukyamid root`, the configuration file, and what questions take from it."""

import os
import subprocess
import unittest

import tukyamid
from asking import DECEMBER, Asking
from outside import COMMAND, TRUSTING, folder, needs_engine, needs_gpg, run
from tukyamid.configuration import config_values

FPR = "FB88f0d227c941044d81b8634ea7c2c11011dca1"
OTHER = "4d2c7e07cccee7e821115f693cda0ca82907b19c"
DAMAGED = [
    "roots = 1", "[roots]\nabc = 120", f"[roots]\n{FPR} = 0", f"[roots]\n{FPR} = 256", f'[roots]\n{FPR} = "120"',
    f"[roots]\n{FPR} = true", f"[roots]\n{FPR} = 1\n{FPR} = 2", f"[roots]\n{FPR} = 1\n{FPR.lower()} = 2", "[root]\n",
    "strikt = true", "strict = 1", "amount = 0", "amount = true", "amount = 4294967296", "threshold = 65", "for = []",
    'for = [""]', 'for = "@example.org"', 'for = ["@"]', 'socket = "run"', 'homes = ["gnupg"]', "inputs = [1]",
    "[caller.Git]\nstrict = true", "[caller.git]\nroots = 1", "caller = 1", "[caller]\ngit = 1", "x", "[roots",
    "\0", "a = " + "[" * 5000,
    "sets = 1", "sets.debian = 1", "[sets.debian]", "[sets.debian]\nabc = 1", f'[sets."a b"]\n{FPR} = 1',
    f'[sets."\u212aeys"]\n{FPR} = 1', f"[sets]\n{FPR} = 1", f"[sets.debian]\n{FPR} = 256",
    "".join(f"[sets.s{number}]\n{FPR} = 1\n" for number in range(65))]

ALONE = [COMMAND, "--no-service", "--no-cache", "--verifier", TRUSTING, "--time", DECEMBER]


class Configured(unittest.TestCase):
    """Each test has a configuration of its own."""

    def setUp(self):
        self.home = folder() / f"config-{self.id().rpartition('.')[2]}"
        self.folder = self.home / "tukyamid"
        self.folder.mkdir(parents=True, mode=0o700)
        self.file = self.folder / "config.toml"
        self.environment = os.environ | {"XDG_CONFIG_HOME": str(self.home)}

    def write(self, text):
        self.file.write_bytes(text if isinstance(text, bytes) else text.encode())
        self.file.chmod(0o600)

    def root(self, *words):
        return run([COMMAND, "root", *words], env=self.environment)

    def refuses(self, said):
        """That the file isn't used, and isn't changed."""
        for words in ("list",), ("add", OTHER):
            done = self.root(*words)
            self.assertEqual((done.returncode, done.stdout), (3, b""), done)
            self.assertRegex(done.stderr.decode(), rf"\Atukyamid: {self.file}: [^\n]*{said}[^\n]*\n\Z")


class Roots(Configured):
    def test_add_list_remove(self):
        self.assertEqual(self.root("list").stdout, b"you have no roots of your own; use tukyamid root add KEY\n")
        self.assertEqual(self.root("add", f"{FPR}:60", OTHER).returncode, 0)
        self.assertEqual(self.root("list").stdout.decode(), f"{FPR.lower()} (60)\n{OTHER} (120)\nof {self.file}\n")
        self.assertEqual(self.file.stat().st_mode & 0o777, 0o600)
        self.assertEqual(self.root("add", FPR, "-q").stdout, b"")
        self.assertEqual(self.root("remove", "0x" + OTHER[-16:]).returncode, 0)
        self.assertEqual(self.root("list").stdout.decode(), f"{FPR.lower()} (120)\nof {self.file}\n")
        done = self.root("remove", OTHER)
        self.assertEqual((done.returncode, done.stdout), (3, b""))
        self.assertIn(f"{OTHER} isn't a root of {self.file}".encode(), done.stderr)

    def test_what_else_is_in_the_file_stays(self):
        self.write(f"# mine\namount = 100 # less\n\n[roots]\n# a friend\n{FPR} = 60\n\n[caller.git]\nstrict = true\n")
        self.assertEqual(self.root("add", OTHER, FPR).returncode, 0)
        text = self.file.read_text()
        for line in "# mine", "amount = 100 # less", "# a friend", f"{FPR} = 120", f"{OTHER} = 120", "[caller.git]":
            self.assertIn(line, text.splitlines())
        config = config_values.read_text(text)
        self.assertEqual(config.roots, {FPR.lower(): 120, OTHER: 120})
        self.assertTrue(config.callers["git"].strict)
        self.assertFalse(config.policy.strict)

    def test_a_file_that_a_variable_names(self):
        """It is changed and read in place of the user's own. If it isn't there, that is no answer."""
        self.write(f"[roots]\n{FPR} = 60\n")
        named = self.home / "named.toml"
        self.environment["TUKYAMID_CONFIG"] = str(named)
        self.assertEqual(self.root("add", OTHER).returncode, 0)
        self.assertEqual(self.root("list").stdout.decode(), f"{OTHER} (120)\nof {named}\n")
        self.assertEqual(self.file.read_text(), f"[roots]\n{FPR} = 60\n")
        named.unlink()
        done = run([COMMAND, "--no-service", "list"], env=self.environment)
        self.assertEqual((done.returncode, done.stdout), (3, b""))
        self.assertIn(f"{named}: TUKYAMID_CONFIG names it, and it isn't there".encode(), done.stderr)

    def test_a_link_to_the_file_stays(self):
        real = self.home / "dotfiles.toml"
        real.write_text(f"[roots]\n{FPR} = 60\n")
        real.chmod(0o600)
        self.file.symlink_to(real)
        self.assertEqual(self.root("add", OTHER).returncode, 0)
        self.assertTrue(self.file.is_symlink())
        self.assertIn(OTHER, real.read_text())

    def test_changes_at_the_same_time(self):
        fprs = [f"{number:040x}" for number in range(1, 9)]
        started = [subprocess.Popen([COMMAND, "root", "add", fpr], env=self.environment, stdout=subprocess.DEVNULL)
                   for fpr in fprs]
        self.assertEqual([one.wait(60) for one in started], [0] * len(fprs))
        self.assertEqual(config_values.read_text(self.file.read_text()).roots, dict.fromkeys(fprs, 120))

    def test_wrong_words(self):
        for words in (), ("add",), ("list", FPR), ("add", "abc"), ("add", f"{FPR}:0"), ("add", f"{FPR}:256"), ("drop",):
            with self.subTest(words):
                self.assertEqual(self.root(*words).returncode, 2)
        self.assertFalse(self.file.exists())

    def test_for_programs(self):
        self.write(f"[roots]\n{FPR} = 60\n")
        before = os.environ.get("XDG_CONFIG_HOME")
        os.environ["XDG_CONFIG_HOME"] = str(self.home)
        self.addCleanup(os.environ.__setitem__, "XDG_CONFIG_HOME", before)
        self.assertEqual(tukyamid.own_roots(), {FPR.lower(): 60})


class Unusable(Configured):
    def test_damaged_files(self):
        for text in DAMAGED:
            with self.subTest(text[:40]):
                self.assertRaises(ValueError, config_values.read_text, text)
        for text in DAMAGED[:3]:
            self.write(text)
            self.refuses("")
            self.assertEqual(self.file.read_text(), text)

    def test_others_could_have_written_it(self):
        self.write(f"[roots]\n{FPR} = 120\n")
        for of_file, of_folder in (0o664, 0o755), (0o646, 0o755), (0o644, 0o775), (0o644, 0o777):
            self.file.chmod(of_file)
            self.folder.chmod(of_folder)
            self.refuses("written by other users|others can write")
            self.folder.chmod(0o755)

    @unittest.skipUnless(os.geteuid() == 0, "only root can give a file away")
    def test_it_belongs_to_another_user(self):
        self.write("")
        os.chown(self.file, 65534, 65534)
        self.refuses("it belongs to user 65534")

    def test_it_is_no_text(self):
        self.write(b"# \xff")
        self.refuses("it isn't UTF-8")
        self.write("#" * 65537)
        self.refuses("more than 65,536 bytes")
        self.file.unlink()
        os.mkfifo(self.file, 0o600)
        self.refuses("it isn't a regular file")
        self.file.unlink()
        self.file.mkdir(0o700)
        self.refuses("it isn't a regular file")


@needs_engine
@needs_gpg
class Questions(Asking, Configured):
    def setUp(self):
        Configured.setUp(self)

    def own(self, *words, **options):
        return self.ask(*words, root=None, env=self.environment, **options)

    def test_own_roots_are_the_default(self):
        fpr = self.fpr
        about = ("authenticate", fpr["Carol"], "Carol <carol@example.org>")
        self.assertEqual(self.own(*about).returncode, 2)  # Without any roots.
        self.assertEqual(self.root("add", fpr["Alice"]).returncode, 0)
        done = self.own(*about)
        self.assertEqual(done.returncode, 0, done.stderr)
        self.assertIn(f"the root is your own, of {self.file}", done.stdout.decode())
        # --root wins: from Dave nothing leads to Carol.
        done = self.ask(*about, root="Dave", env=self.environment)
        self.assertEqual(done.returncode, 1)
        self.assertNotIn("your own", done.stdout.decode())
        self.write("[roots]\nabc = 1\n")
        self.assertEqual(self.own(*about).returncode, 3)

    def test_own_roots_replace_a_directorys(self):
        path = self.home / "certs"
        self.friends.as_directory(path, "Alice")
        words = [*ALONE, "--directory", path, "identify", self.fpr["Dave"]]
        # From Alice only 60 reaches Dave, by Carol. Bob certifies him himself.
        self.assertEqual(run(words, env=self.environment).returncode, 1)
        self.assertEqual(self.root("add", self.fpr["Bob"]).returncode, 0)
        self.assertEqual(run(words, env=self.environment).returncode, 0)

    def test_own_amount_and_inputs(self):
        self.write(f"amount = 130\ninputs = ['{self.friends.keyring}']\n[roots]\n{self.fpr['Alice']} = 120\n")
        words = [*ALONE, "identify", self.fpr["Carol"]]
        done = run(words, env=self.environment)
        self.assertEqual(done.returncode, 1, done)
        self.assertIn("wanted amount 130", done.stdout.decode())
        self.assertEqual(run([*words, "--full"], env=self.environment).returncode, 0)


if __name__ == "__main__":
    unittest.main()
