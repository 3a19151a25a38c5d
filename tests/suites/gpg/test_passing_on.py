"""What isn't verified here is done by the real programs, unchanged: words, descriptors, signals, exit status."""

import os
import shutil
import signal
import subprocess

from case import Case
from host import PROGRAM
from people import DATA


class PassingOn(Case):
    def both(self, *words, **how):
        """What ours and the real program write, and their statuses."""
        runs = [subprocess.run([program, *words], capture_output=True, env=self.host.environment, check=False, **how)
                for program in (PROGRAM, "/usr/bin/gpg")]
        return [(run.returncode, run.stdout, run.stderr) for run in runs]

    def test_other_commands(self):
        for words in (["--version"], ["--with-colons", "--list-config"], ["--no-such-option"], ["--verify", "--sign"],
                      ["--export", self.fpr["bob"]], ["--print-md", "SHA256", "/dev/null"], ["--list-packets"],
                      ["--with-colons", "--list-sigs", self.fpr["bob"]], ["--skip-verify", "--verify", "nofile"]):
            with self.subTest(words):
                ours, theirs = self.both(*words, input=b"")
                self.assertEqual(ours, theirs)

    def test_signing(self):
        """By a descriptor and standard input, as git does it."""
        words = ["--homedir", self.people.maker, "--status-fd=2", "-bsau", self.fpr["bob"]]
        run = subprocess.run([PROGRAM, *words], input=DATA, capture_output=True, env=self.host.environment, check=True)
        self.assertIn(b"\n[GNUPG:] SIG_CREATED ", run.stderr)
        signature = self.write("made", run.stdout)
        self.assertIn("TRUST_FULLY", self.host.ours("--verify", str(signature), "data").words)

    def test_a_signal_reaches_the_real_program(self):
        """It has taken the place of ours: there is one process."""
        with subprocess.Popen([PROGRAM, "--list-packets"], stdin=subprocess.PIPE, env=self.host.environment) as run:
            while "tukyamid" in os.readlink(f"/proc/{run.pid}/exe"):
                pass
            run.send_signal(signal.SIGTERM)
            self.assertNotEqual(run.wait(20), 0)

    def test_by_another_name(self):
        """Below the names gpg, gpgv and gpgconf the real ones are found behind ours on PATH."""
        environment = self.host.environment | {"PATH": f"{self.host.folder}/bin:/usr/bin:/bin"}
        for name in ("gpg", "gpgv", "gpgconf"):
            run = subprocess.run([name, "--version"], capture_output=True, text=True, env=environment, check=True)
            self.assertRegex(run.stdout, rf"^{name} \(GnuPG\) 2\.")

    def test_none_but_ours(self):
        """If only copies of ours are found, none starts another for ever."""
        for name in ("one", "two"):
            (self.folder / name).mkdir()
            shutil.copy2(PROGRAM, self.folder / name / "gpg")
        environment = self.host.environment | {"PATH": f"{self.folder}/one:{self.folder}/two"}
        run = subprocess.run([self.folder / "one/gpg", "--export"], capture_output=True, text=True, env=environment,
                             timeout=20, check=False)
        self.assertEqual(run.returncode, 2)
        self.assertIn("is this one", run.stderr)

    def test_keyrings_that_are_named(self):
        """There the keyring is the trust, and the answer is the real program's."""
        ring = str(self.people.ring)
        for words in (["--no-default-keyring", "--keyring", ring, "--verify", "carol.detached", "data"],
                      ["--keyring", ring, "--verify", "bob.detached", "data"],
                      ["--homedir", str(self.people.maker), "--verify", "mia.detached", "data"]):
            ours, theirs = self.host.ours(*words), self.host.theirs(*words)
            self.assertEqual((ours.exit, ours.lines), (theirs.exit, theirs.lines), words)
        ours = self.host.run("--keyring", ring, "bob.detached", "data", program=self.host.folder / "bin/gpgv")
        theirs = self.host.run("--keyring", ring, "bob.detached", "data", program="/usr/bin/gpgv")
        self.assertEqual((ours.exit, ours.lines), (theirs.exit, theirs.lines))
        self.assertEqual(ours.exit, 0)
