"""The configuration file as Python and `tukyamid-gpg` read it: what one refuses the other one refuses."""

import os
import unittest

from configurations import FPR, PROGRAM, SAMPLES, Readers, read_plain

TAKEN = [
    "amount = 1_20", "amount = 0x78", "amount = +120", "strict\t=\ttrue", "strict = true\r\n", '"strict" = true',
    "'strict' = true", 'for = ["\\u0040x.org"]', "for = [\n'@x.org' # c\n,\n]", "homes = []", 'inputs = ["gpg", "/x"]',
    'inputs = ["gpg", "gpg"]', "[caller]\n[caller.git]\nstrict = true", "[caller.-]\nstrict = true", "[caller._]\n",
    'for = ["@\u00fc.example"]', "roots = {}", "", "# only a comment", "[roots]\n" + FPR + " = 255",
    "caller.apt.strict = true\ncaller.git.strict = true", 'for = ["@' + "x" * 63 + '.org", "a@' + "x" * 64 + '.org"]',
    "homes = [" + "'/a.b.c.d.e.f', " * 300 + "]",
]
REFUSED = [
    'inputs = ["service", "gpg"]', 'inputs = ["gpg", "service"]', "inputs = []", 'inputs = ["keyring.pgp"]',
    'inputs = "gpg"', "inputs = [1]",
    "strict = true\nstrict = false", "strict = true\nstrict = true", "[caller.git]\nstrict = true\n[caller.git]\n",
    "caller.git = {strict = true}\n[caller.git]\namount = 1", "caller.git.strict = true\n[caller.git]\namount = 1",
    "caller.apt.strict = true\n[caller.git]\nstrict = true", " 'caller' . apt.strict = true\n [ caller.git]\n",
    'for = ["@' + "x" * 64 + '.org"]',
    'homes = ["/' + "a." * 100 + '"]',
    "[[caller]]\n", "[[caller.git]]\nstrict = true", "[roots]\n[roots]\n",
    "\ufeffstrict = true", "# \x01\n", "# \x7f\n", "strict = true\r", "strict = true strict = false",
    "amount = 120.0", "amount = inf", "amount = 0120", "amount = 2026-12-01", "amount = true", "amount = " + "9" * 30,
    'strict = "true"', 'for = ["@x.org", 1]', "for = [['@x.org']]", 'for = ["\\uD800"]', 'socket = ""',
    "[roots]\n" + FPR + " = 256", "[roots]\n" + FPR + " = 1\n" + FPR.upper() + " = 1", "x", "= 1",
    "for = " + "[" * 100 + "]" * 100, "for = " + "[" * 30_000 + "]" * 30_000, "a" + ".a" * 32_000 + " = 1",
    "a = {a" + ".'a'" * 10_000 + " = 1}",
    "a = " + "{a = " * 9_000 + "1" + "}" * 9_000, "#" * 65_537,
]


class PlainFiles(unittest.TestCase):
    def test_the_same_as_toml(self):
        """Whatever the reader of plain files takes, Python's reader of TOML reads so, order and types included."""
        plain = [text for text in [*SAMPLES, *TAKEN, *REFUSED] if read_plain(text.encode())]
        for text in ("", "[roots]\n" + FPR + " = 255", 'inputs = ["service", "gpg"]', "# only a comment"):
            self.assertIn(text, plain)

    def test_what_a_user_has(self):
        """A file as `tukyamid root add` and people write it is a plain one."""
        self.assertTrue(read_plain(b'amount = 120\ninputs = ["service"]\n'))
        self.assertTrue(read_plain(f'[roots]\n{FPR} = 120 # Zo\u00eb "z" <z@example.org>\n'.encode()))
        self.assertTrue(read_plain(b'strict = false\n\n[caller.git]\nfor = ["@example.org", "a@b.c"]\nstrict = true\n'))


@unittest.skipUnless(os.access(PROGRAM, os.X_OK), f"tukyamid-gpg isn't built: {PROGRAM}")
class BothReaders(unittest.TestCase):
    def test_what_both_take(self):
        readers = Readers()
        for text in [*SAMPLES, *TAKEN]:
            with self.subTest(text[:60]):
                self.assertTrue(readers.read(text.encode()))

    def test_what_both_refuse(self):
        readers = Readers()
        for text in REFUSED:
            with self.subTest(text[:60]):
                self.assertFalse(readers.read(text.encode()))
        self.assertFalse(readers.read(b"# \xff"), "it isn't UTF-8")

    def test_the_reason_is_the_same(self):
        """Of inputs that don't go together, which the service could hold as well."""
        readers = Readers()
        readers.read(b'inputs = ["service", "gpg"]')
        for reason in (readers.by_python(), readers.by_program()):
            self.assertIn('inputs is either ["service"], or a list of "gpg" and absolute paths', reason or "")
