"""What `tukyamid verify` says besides its answer: what is probably wrong, why a signer isn't known, and what waits."""

import os
import signal
import subprocess
import tempfile

from asking import NO, NO_ANSWER, OK, Asking
from checkers import File
from program import needs_engine
from tukyamid import connect


@needs_engine
class Said(Asking):
    def test_what_is_probably_wrong_is_said(self):
        """The order of gpg's arguments, a signature alone, an encrypted file, keys, a file without its signature."""
        file = self.by_name["Release.gpg by archive"]
        data, signature = file.data, file.signature
        with tempfile.TemporaryDirectory(prefix="wot") as own:
            encrypted = own + "/encrypted"
            subprocess.run(["gpg", "--homedir", own, "--batch", "--quiet", "--passphrase", "x", "--pinentry-mode",
                            "loopback", "--output", encrypted, "--symmetric", data], check=True, capture_output=True)
            subprocess.run(["gpgconf", "--homedir", own, "--kill", "all"], check=False)
            for words, said in [
                ([signature, data], f"{signature} is a signature, and {data} isn't: FILE comes first, then SIGNATURE"),
                ([signature], f"{signature} is a signature by itself: name what it signs first"),
                ([encrypted], f"{encrypted} is encrypted: decrypt it first"),
                ([self.signers.ring], f"{self.signers.ring} has keys, and no signed data"),
                ([data], f"{data} has no signature in itself: name it too, verify {data} SIGNATURE"),
            ]:
                with self.subTest(said):
                    run = self.run_command(*words, *self.words("Release.gpg by archive", "--for", "@example.org")[2:])
                    self.assertEqual(run.returncode, NO)
                    self.assertEqual(len(run.stderr.splitlines()), 1)
                    self.assertIn(said, run.stderr.decode())

    def test_the_outcome_beside_what_is_signed(self):
        """With `--output -` it is several lines of standard error."""
        words = self.words("InRelease by archive", "--for", "@example.org")
        run = self.run_command(*words, "--output", "-")
        self.assertEqual(run.returncode, OK)
        self.assertEqual(run.stderr, self.run_command(*words).stdout)

    def test_colons(self):
        words = ["--for", "@example.org", "--format", "colons"]
        lines = [line.split(":") for line in self.verify("Release.gpg by archive", *words, status=OK).splitlines()]
        self.assertEqual(lines[0], ["vfy", "1", "yes", "1", "1", "120"])
        self.assertEqual((lines[1][:3], lines[1][6]), (["sig", "good", "yes"], self.signers.fpr["archive"]))
        said = self.verify("Release.gpg by archive", "--for", "nobody@example.org", "--format", "colons", status=NO)
        self.assertIn("vfy:1:no:0:1:120\n", said)

    def test_why_a_signer_is_not_known(self):
        said = self.verify("Release.gpg by archive", "--for", "nobody@example.org", status=NO)
        self.assertIn("now: no user ID of the certificate is nobody@example.org\n", said)
        release = self.signers.fpr["release"]
        words = self.words("Release.gpg by archive", "--for", "@example.org", "--root", release, root=False)
        run = self.run_command(*words)
        self.assertEqual(run.returncode, NO)
        self.assertIn("0 of 120: not reached, because no path leads there from a root\n", run.stdout.decode())

    def test_signatures_of_the_keyring_that_wait_to_be_verified(self):
        """The signer may be WHOM: nobody knows yet. So there is no answer, and nothing is written."""
        with tempfile.TemporaryDirectory(prefix="wot") as own:
            place = {"XDG_RUNTIME_DIR": own, "XDG_DATA_HOME": own + "/data", "XDG_STATE_HOME": own + "/state"}
            added = self.run_command("add", self.signers.ring, question="keyring", **place,
                                     TUKYAMID_VERIFIER=own + "/none")
            self.assertIn(b"wait to be verified", added.stderr)
            with connect(own + "/tukyamid.socket") as client:
                self.addCleanup(os.kill, int(client.status()["process"]), signal.SIGTERM)
            words = [self.by_name["InRelease by archive"].data, "--for", "@example.org", "--output", own + "/out",
                     "--root", self.signers.fpr["root"]]
            run = self.run_command(*words, **place)
            self.assertEqual((run.returncode, run.stdout), (NO_ANSWER, b""))
            self.assertIn(b"nothing can be said yet", run.stderr)
            self.assertFalse(os.path.exists(own + "/out"))

    def test_text_outside_what_is_signed(self):
        clear = self.by_name["InRelease by release"].data.read_bytes()
        for name, octets, outside, text in [
            ("around", b"a\n" + clear + b"b\n", ["before", "after"], "the text before and after the signed part"),
            ("behind", clear + b"b\n", ["after"], "the text after the signed part"),
            ("alone", clear, [], "verified"),
        ]:
            self.by_name[name] = File(self.signers.write(f"{name}.txt", octets))
            said = self.verify_object(name, "--for", "release@example.org", status=OK)
            self.assertEqual((said["verified"], said["outside"]), (True, outside))
            self.assertIn(text, self.verify(name, "--for", "release@example.org", status=OK))
        self.by_name["two"] = File(self.signers.write("two.txt", clear + clear.replace(b"stable", b"staple")))
        said = self.verify_object("two", "--for", "release@example.org", status=NO)
        self.assertEqual([one["verdict"] for one in said["signatures"]], ["malformed"])
