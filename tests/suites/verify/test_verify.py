"""`tukyamid verify`: the signature and its signer together, over the files of the tests."""

import os
import signal
import tempfile

from asking import NO, NO_ANSWER, OK, WRONG, Asking
from program import needs_engine
from signers import MADE, PACKAGE, RELEASE, SIGNED, USER_IDS


@needs_engine
class Verify(Asking):
    def test_each_form_by_whom_it_should_be(self):
        for name, whom in [
            ("Release.gpg by archive", USER_IDS["archive"]), ("Release.sig by release", "release@example.org"),
            ("InRelease by archive", "@example.org"), ("InRelease by release", "Release@EXAMPLE.org"),
            ("packed message of package", "ftpmaster@example.org"), ("package.sig", USER_IDS["packager"]),
        ]:
            with self.subTest(name):
                said = self.verify_object(name, "--for", whom, status=OK)
                self.assertTrue(said["verified"])
                self.assertEqual([one["verdict"] for one in said["signatures"]], ["good"])

    def test_a_good_signature_by_another(self):
        others = "release@example.org", "@arch.example", "@mail.example.org", "@example", "Archive", "@example.net"
        words = [word for whom in others for word in ("--for", whom)]
        said = self.verify_object("Release.gpg by archive", *words, status=NO)
        self.assertEqual((said["verified"], said["signers"]), (False, []))
        self.assertEqual(said["signatures"][0]["verdict"], "good")
        self.assertEqual(said["signatures"][0]["now"]["amount"], 0)
        self.assertIsNone(said["signatures"][0]["now"]["user_id"])

    def test_an_impostor_has_the_user_id_and_no_certification(self):
        said = self.verify_object("an impostor", "--for", USER_IDS["archive"], status=NO)
        self.assertEqual(said["signatures"][0]["verdict"], "good")
        self.assertEqual(said["signatures"][0]["now"]["user_id"], USER_IDS["archive"])
        self.assertEqual(said["signatures"][0]["now"]["amount"], 0)

    def test_a_signature_that_isnt_good(self):
        for name, word in [("other data", "bad"), ("a stranger", "absent"), ("SHA-1", "refused"),
                           ("a cut signature", "malformed")]:
            with self.subTest(name):
                said = self.verify_object(name, "--for", "@example.org", "--for", "@example.com", status=NO)
                one, = said["signatures"]
                self.assertEqual((one["verdict"], one["counts"], one["at_signing"], one["now"]),
                                 (word, False, None, None))

    def test_at_the_time_of_signing_and_now(self):
        """The old key signed while it lasted, the retired one before it was retired."""
        for name, whom in ("a key that has expired since", "old"), ("a key that was retired since", "retired"):
            words = "--for", f"{whom}@example.org"
            said = self.verify_object(name, *words, status=NO)
            one, = said["signatures"]
            self.assertEqual((one["verdict"], one["at_signing"]["amount"], one["now"]["amount"]), ("good", 120, 0))
            self.assertEqual((one["at_signing"]["time"], one["made"]), (SIGNED, SIGNED))
            self.verify(name, *words, "--when", "signing", status=OK)
            self.verify(name, *words, "--when", "now", status=NO)
            self.verify(name, *words, "--time", SIGNED + 1, status=OK)

    def test_before_anybody_certified_the_signer(self):
        """The root certified a day after the keys were made: a signature of the first hour is by nobody whom it knew
        then."""
        early = self.signers.sign(self.files.release, "release", at=MADE + 3600)
        self.by_name["early"] = self.files.detached("early", early)
        words = "--for", "release@example.org"
        one, = self.verify_object("early", *words, status=NO)["signatures"]
        self.assertEqual((one["at_signing"]["amount"], one["now"]["amount"]), (0, 120))
        self.verify("early", *words, "--when", "now", status=OK)

    def test_several_signers(self):
        name, domain = "Release.gpg by archive-release", ("--for", "@example.org")
        both = {self.signers.fpr["archive"], self.signers.fpr["release"]}
        self.assertEqual(set(self.verify_object(name, *domain, "--threshold", "2", status=OK)["signers"]), both)
        self.verify(name, *domain, "--threshold", "3", status=NO)
        self.verify(name, "--for", "release@example.org", "--threshold", "2", status=NO)
        self.verify(name, "--for", "release@example.org", "--for", USER_IDS["archive"], "--threshold", "2", status=OK)
        self.verify("one good, one by a stranger", *domain, status=OK)
        self.verify("one good, one by a stranger", *domain, "--threshold", "2", status=NO)

    def test_one_signer_who_signed_twice_is_one(self):
        twice = 2 * self.signers.sign(self.files.release, "release")
        self.by_name["twice"] = self.files.detached("twice", twice)
        said = self.verify_object("twice", "--for", "@example.org", "--threshold", "2", status=NO)
        self.assertEqual([one["counts"] for one in said["signatures"]], [True, True])
        self.assertEqual(said["signers"], [self.signers.fpr["release"]])

    def test_the_wanted_amount(self):
        root = ["--root", self.signers.fpr["root"] + ":60"]
        words = [*self.words("package.sig", root=False), *root, "--for", "@arch.example"]
        self.assertEqual(self.run_command(*words).returncode, NO)
        self.assertEqual(self.run_command(*words, "--amount", "60").returncode, OK)

    def test_what_is_signed_is_written_once_it_is_verified(self):
        output = self.signers.folder / "content"
        for name, content in ("packed message of package", PACKAGE), ("plain message of release", RELEASE):
            self.verify(name, "--for", "@example.org", "--output", output, status=OK)
            self.assertEqual(output.read_bytes(), content)
        # Cleartext has no spaces at the ends of lines, and no line feed behind the last (RFC 9580, section 7.2).
        self.verify("InRelease by archive", "--for", "@example.org", "--output", output, status=OK)
        signed = b"\n".join(line.rstrip(b" \t") for line in RELEASE.splitlines())
        self.assertEqual(output.read_bytes().rstrip(b"\n"), signed)
        before = sorted(self.signers.folder.iterdir())
        for name in "altered message", "cut message", "altered InRelease":
            self.verify(name, "--for", "@example.org", "--output", output, status=NO)
        self.verify("plain message of release", "--for", "@example.com", "--output", output, status=NO)
        self.assertEqual(output.read_bytes().rstrip(b"\n"), signed)
        self.assertEqual(sorted(self.signers.folder.iterdir()), before)

    def test_standard_input_and_output(self):
        file = self.by_name["plain message of release"]
        words = ["--no-service", "--keyring", self.signers.ring, "--root", self.signers.fpr["root"],
                 "--cache", self.cache.name, "--for", "@example.org"]
        run = self.run_command("-", "--output", "-", *words, given=file.data.read_bytes())
        self.assertEqual((run.returncode, run.stdout), (OK, RELEASE))
        self.assertIn("verified", run.stderr.decode())
        detached = self.by_name["Release.gpg by archive"]
        self.assertEqual(self.run_command("-", detached.signature, *words, given=RELEASE).returncode, OK)
        self.assertEqual(self.run_command(detached.data, "-", *words,
                                          given=detached.signature.read_bytes()).returncode, OK)
        self.assertEqual(self.run_command("-", detached.signature, *words, given=RELEASE + b"\n").returncode, NO)

    def test_what_stands_around_a_cleartext_isnt_signed(self):
        clear = self.by_name["InRelease by archive"].data.read_bytes()
        around = self.signers.write("around", b"Origin: Evil\n" + clear + b"Origin: Evil\n")
        output = self.signers.folder / "inner"
        words = self.words("InRelease by archive", "--for", "@example.org", "--output", output)
        run = self.run_command(around, *words[1:])
        if run.returncode == OK:
            self.assertNotIn(b"Evil", output.read_bytes())
        else:
            self.assertFalse(output.exists())

    def test_it_says_which_failed(self):
        for name, words, expected in [
            ("other data", ["--for", "@example.org"], ["not verified", "signature 1: bad"]),
            ("a key that has expired since", ["--for", "old@example.org"],
             ["when it was made: Old Key <old@example.org>, 120 of 120: reached", "now: Old Key", "not reached"]),
            ("a stranger", ["--for", "@example.com"], ["signature 1: absent"]),
            ("Release.gpg by archive", ["--for", "nobody@example.org"],
             ["no user ID of the certificate is nobody@example.org"]),
        ]:
            said = self.verify(name, *words, status=NO)
            for text in expected:
                self.assertIn(text, said)
        self.assertIn("[✓] verified: 1 signer of 1", self.verify("package.sig", "--for", "@arch.example", status=OK))

    def test_by_the_keyring_that_the_service_keeps(self):
        with tempfile.TemporaryDirectory(prefix="wot", ignore_cleanup_errors=True) as folder:
            own = {f"XDG_{name}": folder for name in ("RUNTIME_DIR", "DATA_HOME", "CACHE_HOME")}
            self.assertEqual(self.run_command("add", self.signers.ring, question="keyring", **own).returncode, OK)
            try:
                file = self.by_name["Release.gpg by archive"]
                words = [file.data, file.signature, "--root", self.signers.fpr["root"], "--for"]
                self.assertEqual(self.run_command(*words, "ftpmaster@example.org", **own).returncode, OK)
                self.assertEqual(self.run_command(*words, "release@example.org", **own).returncode, NO)
            finally:
                said = self.run_command(question="status", **own).stdout.decode()
                process, = (line.split()[1] for line in said.splitlines() if line.startswith("process: "))
                os.kill(int(process), signal.SIGTERM)

    def test_words_that_are_wrong(self):
        good = self.words("Release.gpg by archive")
        for words in [
            good, [*good, "--for", "@"], [*good, "--for", ""], [*good, "--for", "@example.org", "--threshold", "0"],
            [*good, "--for", "@example.org", "--output", "x"], [*good, "--for", "@example.org", "--format", "dot"],
            [*good, "more", "--for", "@example.org"], ["--for", "@example.org", *good[2:]],
            ["-", "-", *good[2:], "--for", "@example.org"], [*good, "--for", "@example.org", "--when", "ever"],
        ]:
            run = self.run_command(*words)
            self.assertEqual((run.returncode, run.stdout), (WRONG, b""), words)

    def test_what_isnt_there(self):
        good = [*self.words("Release.gpg by archive"), "--for", "@example.org"]
        for words in [
            ["/nonexistent", *good[1:]], [good[0], "/nonexistent", *good[2:]], [self.signers.folder, *good[1:]],
            [*good, "--keyring", "/nonexistent"], [*good, "--verifier", "/bin/false"],
            [*good[2:], good[0], "--output", "/nonexistent/x"],
        ]:
            run = self.run_command(*words)
            self.assertEqual((run.returncode, run.stdout), (NO_ANSWER, b""), words)
            self.assertNotIn(b"Traceback", run.stderr)
