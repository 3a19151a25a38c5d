"""The keyrings that the user's service keeps: what waits to be verified, gpg's own, and those that are removed."""

import os
import sys
import time

from asking import DECEMBER
from friends import PEOPLE
from outside import CLIENT, COMMAND, TRUSTING, needs_engine, needs_gpg, run
from test_lifetimes import ended_key
from test_service import Services, server_of
from tukyamid import connect
from tukyamid.keyrings.service_keyring import served_keyring
from tukyamid.web.page_answers import answer as page_answer
from tukyamid.web.page_requests import Standpoint, Subject


@needs_engine
@needs_gpg
class Kept(Services):
    def command(self, *words, status=0):
        done = run([COMMAND, *words], env=self.environment)
        self.assertEqual((done.returncode, done.stderr), (status, b""), done.stderr)
        return done.stdout.decode()

    def test_what_is_not_verified_is_not_answered_as_not_reached(self):
        """Without a verifier there is no answer, and the reason is said everywhere. One that is installed later is used
        at once."""
        verifier = self.own / "wot-verdicts"
        self.environment["TUKYAMID_VERIFIER"] = str(verifier)
        why = f"a keyring waits to be verified: the verifier isn't installed: there is no program {verifier}"
        self.fails(run([COMMAND, "keyring", "add", self.friends.keyring], env=self.environment), 3,
                   f"{self.friends.keyring}: their signatures wait to be verified: .*")
        named = ["--root", self.fpr["Alice"], "--time", DECEMBER]
        carol = [self.fpr["Carol"], PEOPLE["Carol"]]
        for words in (["authenticate", *carol], ["explain", *carol], ["list"], ["identify", carol[0]],
                      ["lookup", carol[1]], ["path", self.fpr["Alice"], *carol]):
            self.fails(run([COMMAND, *named, *words], env=self.environment), 3, f"nothing can be said yet: {why}")
        said = self.command("keyring", "list")
        self.assertRegex(said, rf"\A{self.friends.keyring}: 0 certificates; not verified: .*\n{why}\n\Z")
        self.assertRegex(self.command("status"), rf"(?s)\nunverified: 0\n.*\nwaiting: {why}\n")
        self.check_page(carol, why)
        doctor = run([COMMAND, "doctor"], env=self.environment).stdout.decode()
        self.assertIn(f"{self.friends.keyring}: its signatures wait to be verified", doctor)
        self.assertNotIn("keyring remove", doctor)
        verifier.symlink_to(TRUSTING)
        self.wait_until_verified()
        self.assertEqual(self.asked("authenticate", *carol), self.asked(
            "--no-service", "--no-cache", "--keyring", self.friends.keyring, "authenticate", *carol))

    def check_page(self, carol, why):
        """The page says that it isn't known, too."""
        subject = Subject(carol[0], carol[1].encode(), 120, Standpoint(1764547200, {self.fpr["Alice"]: 120}))
        with connect(self.runtime / "tukyamid.socket") as client:
            answer = page_answer(served_keyring(client), subject)
        self.assertEqual((answer["reached"], answer["certain"]), (False, False))
        self.assertRegex(answer["waiting"], why)

    def wait_until_verified(self):
        for _ in range(3000):
            if "to be verified" not in self.command("keyring", "list"):
                return
            time.sleep(0.1)
        self.fail(self.command("status"))

    def test_an_answer_that_nothing_that_waits_can_change(self):
        """It is given, with a note; one that could change isn't."""
        self.environment["TUKYAMID_VERIFIER"] = str(self.own / "wot-verdicts")
        os.symlink(TRUSTING, self.environment["TUKYAMID_VERIFIER"])
        self.command("keyring", "add", self.friends.without("Frank"))
        os.unlink(self.environment["TUKYAMID_VERIFIER"])
        self.fails(run([COMMAND, "keyring", "add", ended_key().keyring], env=self.environment), 3, "wait to be")
        found = self.asked("authenticate", self.fpr["Carol"], PEOPLE["Carol"])
        self.assertRegex(found["notes"][0], "a keyring waits to be verified: .*; none of them can change this")
        self.fails(run([COMMAND, "--root", self.fpr["Alice"], "identify", self.fpr["Dave"]], env=self.environment), 3,
                   "nothing can be said yet")
        self.fails(run([COMMAND, "keyring", "add", self.friends.keyring], env=self.environment), 3, "wait to be")
        # Frank has certified nobody; but a signature of his on Carol's key would wait now.
        self.command("keyring", "remove", self.friends.keyring)
        self.assertIn("waits to be verified", self.command("keyring", "list"))

    def test_a_keyring_is_removed_with_its_certificates(self):
        """Those that another keyring has stay."""
        self.command("keyring", "add", self.friends.keyring, self.friends.without("Frank"))
        self.assertRegex(self.command("keyring", "remove", "--certificates", self.friends.keyring),
                         "no longer watched; 1 certificates that no other keyring has are removed")
        self.assertIn("certificates: 5\n", self.command("status"))
        self.assertEqual(self.asked("identify", self.fpr["Frank"], status=1)["bindings"], [])
        self.assertEqual(len(self.asked("identify", self.fpr["Dave"], status=1)["bindings"]), 1)
        self.fails(run([COMMAND, "keyring", "list", "--certificates"], env=self.environment), 2, "goes with")

    def test_options_before_and_after_a_command(self):
        """So also --quiet, with which the status alone answers."""
        self.command("keyring", "add", self.friends.keyring)
        self.assertEqual(self.command("--quiet", "keyring", "list"), "")
        self.assertEqual(self.command("keyring", "--quiet", "list"), "")
        self.assertEqual(self.command("keyring", "list", "-q"), "")
        root, carol = ["--root", self.fpr["Alice"]], ["authenticate", self.fpr["Carol"], PEOPLE["Carol"]]
        for words in ["-q", *root, *carol], [*carol, *root, "--quiet"], [*root, carol[0], "--quiet", *carol[1:]]:
            self.assertEqual(self.command(*words), "")
        self.assertEqual(run([COMMAND, *root, "-q", "identify", self.fpr["Dave"]], env=self.environment).stdout, b"")
        self.assertIn("usage: tukyamid verify", self.command("--help", "verify"))
        self.assertIn("usage: tukyamid keyring", self.command("-h", "keyring"))
        for words in ["--for", "@example.org", *root, "verify", "none"], ["verify", *root, "none", "--for", "@x.org"]:
            self.fails(run([COMMAND, *words], env=self.environment), 3, "the verifier wrote something else")

    def test_a_program_finds_and_starts_the_service(self):
        """Python's `connect` without a path, twice: the second one is connected to the service that the first began."""
        program = ("from tukyamid import connect\nfor _ in 1, 2:\n    with connect() as one:\n"
                   "        print(one.status()['process'])\n")
        done = run([sys.executable, "-c", program], env={**self.environment, "PYTHONPATH": str(CLIENT)})
        first, second = done.stdout.split()
        self.assertEqual(first, second)
        self.assertEqual(int(first), server_of(self.runtime / "tukyamid.socket"))

    def test_what_was_not_found_is_said(self):
        self.command("keyring", "add", self.friends.keyring)
        for words, note in [
            (["lookup", "Nobody"], "no key in the keyring has exactly the user ID Nobody"),
            (["lookup", "carol@example.org"], "with --email an address is enough"),
            (["--email", "lookup", "nobody@example.org"], "user ID with the address nobody@example.org"),
            (["list", "nobody"], "no binding that has nobody in its user ID reaches the amount 120"),
            (["authenticate", self.fpr["Carol"], "carol@example.org"], "with --email an address is enough"),
        ]:
            self.assertIn(note, self.asked(*words, status=1)["notes"][0])

    def test_some_of_several_keyrings_that_can_not_be_added(self):
        nowhere = self.own / "nowhere"
        done = run([COMMAND, "keyring", "add", nowhere, self.friends.keyring], env=self.environment)
        self.assertEqual((done.returncode, done.stdout.count(b"6 certificates")), (3, 1))
        self.assertIn(b"No such file", done.stderr)

    def test_gpg_s_keyring_is_that_of_who_asks(self):
        """Not that of whoever started the service. It is named with its home directory, and none is made."""
        homes = {}
        for name in "first", "second":
            homes[name] = self.own / name
            homes[name].mkdir(mode=0o700)
        self.addCleanup(run, ["gpgconf", "--homedir", homes["second"], "--kill", "all"])
        run(["gpg", "--homedir", homes["second"], "--batch", "--passphrase", "", "--quick-gen-key",
             "Second <second@example.org>", "ed25519"])
        self.environment["GNUPGHOME"] = str(homes["first"])
        self.assertIn("no keyring is kept", self.command("keyring", "list"))
        self.fails(run([COMMAND, "keyring", "add", "gpg"], env=self.environment), 3, "gpg has no keyring in .*first")
        self.assertEqual(os.listdir(homes["first"]), [])
        self.environment["GNUPGHOME"] = str(homes["second"])
        self.assertRegex(self.command("keyring", "add", "gpg"), "^gpg: 1 certificates, [1-9]")
        self.assertEqual(self.command("keyring", "list"), f"gpg:{homes['second']}: 1 certificates\n")
        self.command("keyring", "remove", "gpg")
        self.assertIn("no keyring is kept", self.command("keyring", "list"))
