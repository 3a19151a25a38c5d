"""`tukyamid setup`: the lines that it sets, that what else is in the files stays, and that all of it can be undone."""

import os
import shutil
import subprocess
import unittest

from outside import COMMAND, folder, run
from tukyamid.configuration import config_values

FILES = {"mutt": ".muttrc", "neomutt": ".neomuttrc", "emacs": ".emacs.d/init.el", "gpgme": ".profile"}


class Setup(unittest.TestCase):
    """Each test has a home of its own, and a program that stands for tukyamid-gpg."""

    def setUp(self):
        self.home = folder() / f"setup-{self.id().rpartition('.')[2]}"
        self.home.mkdir(mode=0o700)
        self.config = self.home / ".config/tukyamid/config.toml"
        self.environment = {"PATH": os.environ["PATH"], "HOME": str(self.home), "TUKYAMID_GPG": "/bin/true",
                            "LC_ALL": "C.UTF-8"}

    def setup_of(self, *words):
        done = run([COMMAND, "setup", *words], env=self.environment)
        self.assertEqual((done.returncode, done.stderr), (0, b""), done)
        return done.stdout.decode()

    def fails(self, status, said, *words):
        done = run([COMMAND, "setup", *words], env=self.environment)
        self.assertEqual((done.returncode, done.stdout), (status, b""))
        self.assertIn(said, done.stderr.decode())

    def files(self):
        """What the home has, by the paths of its files."""
        return {str(path.relative_to(self.home)): path.read_text() for path in self.home.rglob("*")
                if path.is_file() and not path.is_symlink()}

    def git(self, *words):
        return subprocess.run(["git", "config", "--global", *words], env=self.environment, capture_output=True,
                              text=True, check=False).stdout.strip()

    @unittest.skipUnless(shutil.which("git"), "git isn't installed")
    def test_git(self):
        self.assertEqual(self.setup_of("git", "--show"), "git config --global gpg.program /bin/true\n")
        self.assertEqual(self.files(), {})
        self.setup_of("git")
        self.assertEqual(self.git("gpg.program"), "/bin/true")
        self.assertFalse(self.config.exists())
        self.setup_of("git", "--strict")
        self.assertTrue(config_values.read_text(self.config.read_text()).callers["git"].strict)
        self.setup_of("git", "--undo")
        self.assertEqual(self.git("--list"), "")
        self.assertFalse(self.config.exists(), "an empty file of one's own would hide the host's")
        self.config.parent.mkdir(mode=0o700, exist_ok=True)
        self.config.write_text("# mine\n")
        self.config.chmod(0o600)
        self.setup_of("git", "--strict")
        self.setup_of("git", "--undo")
        self.assertEqual(self.config.read_text().rstrip("\n"), "# mine")

    @unittest.skipUnless(shutil.which("git"), "git isn't installed")
    def test_gits_own_value_comes_back(self):
        self.git("gpg.program", "/opt/gpg")
        self.setup_of("git")
        self.setup_of("git")
        self.assertEqual(self.git("gpg.program"), "/bin/true")
        self.setup_of("git", "--undo")
        self.assertEqual(self.git("--list"), "gpg.program=/opt/gpg")

    @unittest.skipUnless(shutil.which("git"), "git isn't installed")
    def test_the_doctor_names_programs_and_roots(self):
        """Without the engine's program nothing can be tried; the suite `clients` tries."""
        def said():
            return run([COMMAND, "doctor", "--engine", "/bin/false"], env=self.environment).stdout.decode()
        self.assertIn("tukyamid setup has had none ask", said())
        self.setup_of("git")
        self.setup_of("mutt")
        self.config.parent.mkdir(parents=True)
        self.config.write_text(f"[roots]\n{'ab' * 20} = 120\n")
        self.config.chmod(0o600)
        shown = said()
        self.assertIn("tukyamid setup has these ask: git, mutt", shown)
        self.assertIn(f"1 of your own, in {self.config}", shown)
        self.config.write_text("roots = 1\n")
        self.assertRegex(said(), rf"\[missing\] roots +{self.config}: roots isn't a table")

    def test_files_of_other_programs(self):
        for program, name in FILES.items():
            with self.subTest(program):
                path = self.home / name
                path.parent.mkdir(exist_ok=True)
                path.write_text("what is there already, without an end of line")
                self.setup_of(program)
                once = path.read_text()
                self.assertIn("bin/true" if program != "gpgme" else "tukyamid/bin", once)
                self.assertTrue(once.startswith("what is there already, without an end of line\n"))
                self.assertLessEqual(len(once.splitlines()), 1 + 2 + 3)  # At most three lines, between two marks.
                self.setup_of(program)
                self.assertEqual(path.read_text(), once)
                path.write_text(once + "what came later\n")
                self.setup_of(program, "--undo")
                self.assertEqual(path.read_text(), "what is there already, without an end of line\nwhat came later\n")

    @unittest.skipUnless(shutil.which("gsettings"), "gsettings isn't installed")
    def test_the_desktops_settings(self):
        """Of Evolution's, if its schema is here. Somebody else's value is no default, so it stays, and is named."""
        self.environment["GSETTINGS_BACKEND"] = "keyfile"
        place = ["gsettings", "get", "org.gnome.evolution-data-server", "camel-gpg-binary"]

        def value():
            return subprocess.run(place, env=self.environment, capture_output=True, text=True, check=False).stdout
        if not value():
            self.skipTest("not installed: evolution-data-server")
        self.setup_of("evolution")
        self.assertEqual(value(), "'/bin/true'\n")
        self.setup_of("evolution", "--undo")
        self.assertEqual(value(), "''\n")
        subprocess.run(["gsettings", "set", *place[2:], "/opt/gpg"], env=self.environment, check=True)
        self.fails(3, "gsettings reset org.gnome.evolution-data-server camel-gpg-binary", "evolution")
        self.setup_of("evolution", "--undo")
        self.assertEqual(value(), "'/opt/gpg'\n")

    @unittest.skipIf(os.geteuid() == 0, "root's scripts are the host's, which the suite packages makes in a root")
    @unittest.skipUnless(shutil.which("gpgv") and shutil.which("dpkg-source"), "dpkg-source isn't installed")
    def test_a_users_scripts(self):
        self.setup_of("dpkg", "--strict")
        script = self.home / ".local/bin/dpkg-source"
        self.assertIn("TUKYAMID_CALLER=dpkg-source exec /usr/bin/dpkg-source", script.read_text())
        said = subprocess.run([script, "--version"], capture_output=True, text=True, check=True).stdout
        self.assertIn("dpkg-source version", said)
        self.assertTrue(config_values.read_text(self.config.read_text()).callers["dpkg-source"].strict)
        self.setup_of("dpkg", "--undo")
        self.assertFalse(script.exists())

    def test_gpgme_has_a_folder_of_names(self):
        self.setup_of("gpgme")
        names = self.home / ".local/share/tukyamid/bin"
        self.assertEqual({name: os.readlink(names / name) for name in os.listdir(names)},
                         dict.fromkeys(("gpg", "gpg2", "gpgv", "gpgv2", "gpgconf"), "/bin/true"))
        shell = subprocess.run(["sh", "-c", ". ~/.profile && command -v gpgconf"], env=self.environment,
                               capture_output=True, text=True, check=True)
        self.assertEqual(shell.stdout.strip(), str(names / "gpgconf"))

    @unittest.skipUnless(shutil.which("pacman"), "pacman isn't installed")
    def test_the_file_that_counts_for_root(self):
        """Root's own configuration replaces the host's for pacman, which root runs, but not for apt's own user."""
        shown = {name: self.setup_of(name, "--strict", "--show") for name in ("pacman", "apt")}
        for text in shown.values():
            self.assertIn("in /etc/tukyamid/config.toml:\n", text)
        self.config.parent.mkdir(parents=True, mode=0o700)
        self.config.write_text("")
        self.config.chmod(0o600)
        self.assertEqual(self.setup_of("pacman", "--strict", "--show"),
                         shown["pacman"].replace("/etc/tukyamid/config.toml", str(self.config)))
        self.assertEqual(self.setup_of("apt", "--strict", "--show"), shown["apt"])

    def test_a_mark_alone_is_an_error(self):
        path = self.home / ".muttrc"
        path.write_text("# tukyamid setup: begin\nset mine=yes\n")
        self.fails(3, "mend it by hand", "mutt")
        self.assertEqual(path.read_text(), "# tukyamid setup: begin\nset mine=yes\n")

    def test_wrong_words(self):
        for words in (), ("vi",), ("git", "mutt"), ("git", "--undo", "--strict"), ("gpgme", "--strict"):
            with self.subTest(words):
                self.fails(2, "", *words)
        self.environment["TUKYAMID_GPG"] = "/nowhere/tukyamid-gpg"
        self.fails(3, "tukyamid-gpg isn't installed", "git")


if __name__ == "__main__":
    unittest.main()
