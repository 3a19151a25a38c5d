"""The words of the command: keys, times, amounts and addresses as people write them, and what is said of wrong ones."""

import os
import shlex
import shutil
import subprocess
import time
import unittest

from asking import Asking
from friends import PEOPLE
from outside import COMMAND, TRUSTING, needs_engine, needs_gpg, run
from tukyamid.command.option_values import read_key, read_time
from tukyamid.openpgp.addresses import address_of, canonical


class Values(unittest.TestCase):
    def test_times(self):
        for text, seconds in [
            ("1970-01-01", 0), ("2024-01-01", 1704067200), ("20240101", 1704067200),
            ("2024-01-01T00:00:00Z", 1704067200), ("2024-01-01T01:00:00+01:00", 1704067200),
            ("20240101T000000", 1704067200), ("1704067200", 1704067200),
            ("@20240101", 20240101), ("@0", 0), ("@4294967295", 4294967295), ("999999999", 999999999),
        ]:
            self.assertEqual(read_time(text), seconds, text)
        for text in ("yesterday", "", "@", "2024", "20241301", "2024-13-01", "1969-12-31", "@4294967296", "-1", "1e9",
                     "\u0661\u0662\u0663\u0664\u0665\u0666\u0667\u0668\u0669"):
            self.assertRaises(ValueError, read_time, text)

    def test_keys(self):
        fpr = "fac804259d6b2997afe074fcd2112d7c6c04741c"
        for text in (fpr, fpr.upper(), "0x" + fpr, "0X" + fpr.upper(),
                     "FAC8 0425 9D6B 2997 AFE0  74FC D211 2D7C 6C04 741C"):
            self.assertEqual(read_key(text), fpr)
        self.assertEqual(read_key("0xD2112D7C6C04741C"), fpr[-16:])
        self.assertEqual(read_key("aa" * 32), "aa" * 32)
        for text in ("", "0x", fpr[1:], fpr + "0", "6C04741C", "carol", fpr[:-1] + "g", "\uff11" * 40):
            self.assertRaises(ValueError, read_key, text)

    def test_addresses(self):
        """The ASCII spelling of this name is that of RFC 3492's algorithm, as registries have it."""
        self.assertEqual(canonical("Carol@EXAMPLE.Org"), "carol@example.org")
        for text in ("zoe@b\u00fccher.example", "Zoe@B\u00dcCHER.example", "zoe@xn--bcher-kva.example",
                     "ZOE@XN--BCHER-KVA.EXAMPLE"):
            self.assertEqual(canonical(text), "zoe@xn--bcher-kva.example")
        self.assertEqual(address_of("Zo\u00eb <zoe@B\u00fccher.example>".encode()), "zoe@xn--bcher-kva.example")
        self.assertIsNone(address_of(b"no address"))
        self.assertEqual(canonical("x@" + "\u00fc" * 64), "x@" + "\u00fc" * 64)

    def test_what_is_too_long_for_an_address(self):
        """254 octets in all, and 63 of a label, are the most (RFC 5321 with its erratum 1690; RFC 1035)."""
        for domain, is_one in (("x" * 63 + ".example", True), ("x" * 64 + ".example", False),
                               ("\u00fc" * 64 + ".example", False), ("x" * 40 + "\u3002" + "x" * 40, True),
                               (".".join(["x" * 61] * 3 + ["x" * 62]), True),
                               (".".join(["x" * 61] * 3 + ["x" * 63]), False)):
            self.assertEqual(address_of(f"Carol <carol@{domain}>".encode()) is not None, is_one, domain)
        self.assertIsNone(address_of(b"x" * 253 + b"@x"))
        self.assertEqual(address_of(b"x" * 252 + b"@x"), "x" * 252 + "@x")

    def test_a_long_text_takes_no_time(self):
        """Each of these took seconds to minutes: the time grew with the square of the length."""
        letters = "".join(chr(0x4E00 + place) for place in range(8000))
        for text in ("a@" + letters, "a@" + "\u0660" * 16000, "a@" + "\u00fc." * 16000, "<" + "@" * 64000,
                     "<" + "@" * 64000 + ">", "a@" + "\u00ad" * 16000 + "b"):
            begin = time.process_time()
            self.assertEqual((address_of(text.encode()), canonical(text)), (None, text))
            self.assertLess(time.process_time() - begin, 0.5)


@needs_engine
@needs_gpg
class Words(Asking):
    def test_keys_of_every_spelling(self):
        carol = self.fpr["Carol"]
        for key in carol.upper(), "0x" + carol, carol[-16:], "0x" + carol[-16:].upper():
            self.assertEqual(self.answer("authenticate", key, PEOPLE["Carol"])[0], 0)
        alice = "0x" + self.fpr["Alice"][-16:]
        self.assertEqual(self.answer("--root", alice, "identify", carol[-16:], root=None)[0], 0)
        self.fails(self.ask("identify", "00" * 8), 3, "no key in the keyring has the key ID 0000000000000000")
        self.fails(self.ask("identify", carol[-8:]), 2, "short key ID.*fingerprint")

    def test_addresses_in_every_question(self):
        carol, address = self.fpr["Carol"], "CAROL@Example.ORG"
        for words in (["authenticate", carol], ["explain", carol], ["lookup"], ["list"],
                      ["path", self.fpr["Bob"], carol]):
            got, report = self.answer("--email", *words, address)
            self.assertEqual((got, [one["user_id"] for one in report["bindings"]]), (0, [PEOPLE["Carol"]]), words)
        got, report = self.answer("--email", "authenticate", carol, "bob@example.org")
        self.assertEqual((got, report["bindings"]), (1, []))
        self.assertIn("has no user ID with the address bob@example.org", report["notes"][0])
        self.fails(self.ask("--email", "authenticate", carol, "carol"), 2, "an e-mail address")
        self.fails(self.ask("--email", "identify", carol), 2, "identify takes a key, not an address")

    def test_roots_that_are_not_there(self):
        carol = ["authenticate", self.fpr["Carol"], PEOPLE["Carol"]]
        self.fails(self.ask("--root", "00" * 20, *carol, root=None), 3, "this root isn't in the keyring: " + "00" * 20)
        got, report = self.answer("--root", "00" * 20, *carol)
        self.assertEqual((got, report["notes"]), (0, ["this root isn't in the keyring: " + "00" * 20]))

    def test_amounts_by_their_words(self):
        dave = ["authenticate", self.fpr["Dave"], PEOPLE["Dave"]]
        for option, status in ("--partial", 0), ("--full", 1), ("--double", 1):
            self.assertEqual(self.answer(option, *dave)[0], status)
        got, report = self.answer("--partial", "list")
        self.assertEqual({one["user_id"]: one["amount"] for one in report["bindings"]}[PEOPLE["Dave"]], 60)

    def test_a_list_with_its_paths(self):
        for options, steps in ([], 0), (["--paths"], 5):
            _, report = self.answer(*options, "list")
            self.assertEqual(sum(len(path["steps"]) for one in report["bindings"] for path in one["paths"]), steps)

    def test_wrong_words(self):
        carol = self.fpr["Carol"]
        for said, words in [
            ("authenticate takes: KEY USERID", ["authenticate", carol]),
            ("neither a fingerprint", ["authenticate", "carol", "Carol"]),
            ("unknown question 'nonsense'", ["nonsense"]),
            ("a question is missing", []), ("identify takes: KEY", ["identify"]),
            (r"list takes: \[PATTERN\]", ["list", "a", "b"]), ("path takes: KEY.. USERID", ["path", carol]),
            ("isn't a time: write a date as", ["--time", "yesterday", "list"]),
            ("no amount", ["--amount", "0", "list"]),
            ("no amount", ["--amount", "4294967296", "list"]), ("amount of a root", ["--root", carol + ":0", "list"]),
            ("amount of a root", ["--root", carol + ":256", "list"]), ("choose from", ["--format", "xml", "list"]),
            ("no notation can be made known", ["--known-notation", "a@b", "list"]),
            ("--nonsense", ["--nonsense", "list"]),
            ("once, and one is given twice", ["path", carol, carol, "Carol"]),
        ]:
            with self.subTest(words):
                self.fails(self.ask(*words), 2, said)
        self.fails(self.ask("list", root=None), 2, "a trust root is missing: tukyamid root add KEY")
        self.fails(run([COMMAND, "--no-service", "--root", carol, "list"]), 2, "an input is missing: give --keyring")
        self.fails(run([COMMAND, "--anew", "--root", carol, "list"]), 2, "--anew goes with an input: give --keyring")

    def test_options_of_questions(self):
        """A command that has nothing to do with them says so, wherever they are."""
        for command in ["root", "list"], ["keyring", "list"], ["status"], ["log"], ["doctor"], ["setup", "git"]:
            for option in ["--format", "json"], ["--keyring=file"], ["--time", "2024-01-01"], ["--paths"]:
                name = option[0].partition("=")[0]
                for words in [*command, *option], [*option, *command]:
                    with self.subTest(words):
                        self.fails(run([COMMAND, *words]), 2, f"{name} goes with questions")

    def test_usage_has_two_lines(self):
        done = run([COMMAND])
        self.assertEqual((done.returncode, done.stdout), (2, b""))
        self.assertEqual(done.stderr.decode().splitlines(), [
            "tukyamid: a question is missing",
            "usage: tukyamid [option..] QUESTION ARGUMENT.. (see tukyamid --help)"])

    def test_version_and_help(self):
        done = run([COMMAND, "--version", "--verifier", TRUSTING])
        self.assertEqual((done.returncode, done.stderr), (0, b""))
        self.assertRegex(done.stdout.decode(), r"\Atukyamid \d+\.\d+\.\d+.*\n(.*\n)*wot-verdicts 1 \(a stand-in\)\n\Z")
        for word in "--help", "-h":
            done = run([COMMAND, word])
            self.assertEqual((done.returncode, done.stderr), (0, b""))
            self.assertTrue(done.stdout.startswith(b"usage: tukyamid "))


@needs_engine
@needs_gpg
class Colours(Asking):
    def shown(self, **environment):
        """The answer on a terminal of its own, which `script` makes."""
        line = shlex.join(map(str, self.words("identify", self.fpr["Bob"])))
        variables = {**os.environ, "TERM": "xterm", "NO_COLOR": "", **environment}
        return run(["script", "-qec", line, "/dev/null"], stdin=subprocess.DEVNULL, env=variables).stdout

    @unittest.skipUnless(shutil.which("script"), "script isn't installed")
    def test_colours_are_for_terminals(self):
        self.assertIn(b"\x1b[32m", self.shown())
        self.assertNotIn(b"\x1b", self.shown(NO_COLOR="1"))
        self.assertNotIn(b"\x1b", self.shown(TERM="dumb"))
        self.assertNotIn(b"\x1b", self.ask("identify", self.fpr["Bob"]).stdout)
