"""The verifier's options over the keyring of five, and its exit statuses."""

import subprocess

import openpgp
from program import PROGRAM, Script
from ring import OverRing


class Words(OverRing):
    def test_pending(self):
        chosen = [s for s in self.signatures if s.place in (0, 1)][::3]
        lines = [f"sig {s.number} {s.owner} {s.issuer}" for s in chosen]
        reply = "\n".join([f"pending {len(lines)}", *lines, ""]).encode()
        script = Script("--pending", self.file, given=reply)
        self.assertEqual((script.imports, script.verdicts), ([], self.expected({0, 1}, chosen)))
        self.assertEqual(Script("--pending", self.file, given=b"pending 0\n").lines, [])
        self.assertIn("refused line", Script("--pending", self.file, given=b"refused line\n", status=3).told)

    def test_words_and_statuses(self):
        for words in [], ["--none", self.file], [self.file, "--with"], ["--pending", "-"]:
            self.assertEqual(Script(*words, status=2).lines, [])
        for file in self.folder / "none", self.write("hello", b"hello\n"), self.ring.home / "pubring.kbx":
            self.assertEqual(Script(self.file, file, status=3).lines, [])
        with open("/dev/full", "wb") as full:
            run = subprocess.run([PROGRAM, self.file], stdout=full, stderr=subprocess.PIPE)
        self.assertEqual(run.returncode, 4)
        text = subprocess.run([PROGRAM, "--help"], capture_output=True, text=True).stdout
        for status in range(5):
            self.assertRegex(text, rf"\n  {status}  ")
        self.assertIn("signatures-good", Script("--stats", self.file).told)
        version = subprocess.run([PROGRAM, "--version"], capture_output=True, text=True).stdout
        self.assertRegex(version, r"^wot-verdicts [0-9.]+ \(sequoia-openpgp [0-9.]+\)\n$")

    def test_names_that_steer_a_terminal(self):
        """Neither a file's name nor a word makes a line of its own."""
        name = "x\x1b[2J\nimport \u202e"
        for words in [name], ["--data", name, self.file], ["--" + name], [self.write(name, b"hello\n")]:
            said = subprocess.run([PROGRAM, *words], capture_output=True, text=True).stderr
            self.assertEqual(said.count("\n"), 1, said)
            self.assertIn("x\\u{1b}[2J\\u{a}import \\u{202e}", said)

    def test_certificates_alone(self):
        everything = Script(self.file)
        script = Script("--certificates", self.file)
        self.assertEqual((script.imports, script.verdicts), (everything.imports, {}))
        public = Script("--certificates", "--public", self.write("secrets.gpg", self.ring.secrets))
        self.assertEqual([openpgp.contents(text) for text in public.imports],
                         [openpgp.contents(text) for text in self.ring.texts.values()])

    def test_as_many_processors_as_are_asked_for(self):
        plain = Script(self.file).octets
        for jobs in "1", "3", "64":
            self.assertEqual(Script("--jobs", jobs, self.file).octets, plain)
