"""`tukyamid doctor`: what it finds of each part, what it calls missing, and what mends it."""

import os
import signal
import subprocess
import sys
import tempfile
import unittest
from pathlib import Path
from unittest import mock

from outside import CLIENT, COMMAND, PROGRAM, needs_engine
from stand_ins import FakeService
from tukyamid.command.doctor import State, examine
from tukyamid.service.start_on_demand import ensure
from tukyamid.version import VERSION

VERIFIER = "#!/bin/sh\necho wot-verdicts 9.9\n"


class Doctor(unittest.TestCase):
    def setUp(self):
        place = tempfile.TemporaryDirectory(prefix="tukyamid-doctor-")
        self.addCleanup(place.cleanup)
        self.home = Path(place.name)
        self.verifier = self.program("wot-verdicts", VERIFIER)
        kept = {name: os.environ.pop(name, None) for name in ("XDG_DATA_HOME", "PGP_CERT_D")}
        self.addCleanup(lambda: [os.environ.update({name: value}) for name, value in kept.items() if value is not None])

    def program(self, name, text):
        file = self.home / name
        file.write_text(text)
        file.chmod(0o755)
        return str(file)

    def found(self, part, **parts):
        parts = {"engine": PROGRAM, "verifier": self.verifier, "socket": self.home / "none", **parts}
        return [one for one in examine(**parts) if one.part == part]

    @needs_engine
    def test_an_engine(self):
        self.assertEqual([one.state for one in self.found("engine")], [State.GOOD])

    def test_what_is_no_engine(self):
        for program in "/nowhere/at/all", "/bin/false", "/bin/cat", str(self.home):
            with self.subTest(program):
                (one,) = self.found("engine", engine=program)
                self.assertIs(one.state, State.BAD)
                self.assertIn(program, one.text)
                self.assertTrue(one.mend.endswith("wot run < /dev/null"))

    def test_a_verifier(self):
        (one,) = self.found("verifier")
        self.assertEqual((one.state, one.text), (State.GOOD, f"{self.verifier} is wot-verdicts 9.9"))
        for program in "/nowhere/at/all", "/bin/true":
            (one,) = self.found("verifier", verifier=program)
            self.assertIs(one.state, State.BAD)
            self.assertTrue(one.mend.endswith("verifier/build"))

    def test_variables_that_name_nothing(self):
        gone = str(self.home / "gone")
        for name in "TUKYAMID_ENGINE", "TUKYAMID_VERIFIER", "XDG_RUNTIME_DIR", "GNUPGHOME", "PGP_CERT_D":
            with self.subTest(name), mock.patch.dict(os.environ, {name: gone}):
                (one,) = self.found("variable")
                self.assertEqual((one.state, one.text, one.mend),
                                 (State.NOTE, f"{name} names {gone}, which isn't there", f"unset {name}"))
            with mock.patch.dict(os.environ, {name: str(self.home)}):
                self.assertEqual(self.found("variable"), [])

    def test_what_the_page_needs(self):
        with mock.patch("tukyamid.web.page_files.D3", [str(self.home / "d3.js")]):
            (one,) = self.found("page")
            self.assertEqual((one.state, one.mend.startswith("apt install ")), (State.NOTE, True))
            self.assertIn("libjs-d3", one.mend)
            (self.home / "d3.js").touch()
            (one,) = self.found("page")
            self.assertNotIn("libjs-d3", one.text)
        with mock.patch("importlib.util.find_spec", return_value=None):
            (one,) = self.found("page")
            for package in "python3-aiohttp", "python3-qrcode":
                self.assertIn(package, one.mend)

    def test_the_page_without_qr_codes(self):
        """It works, so only the QR codes are called missing."""
        (self.home / "d3.js").touch()
        with (mock.patch("tukyamid.web.page_files.D3", [str(self.home / "d3.js")]),
              mock.patch("importlib.util.find_spec", lambda name: None if name == "qrcode" else mock.sentinel.found)):
            (one,) = self.found("page")
        self.assertEqual((one.state, one.mend), (State.NOTE, "apt install python3-qrcode"))
        self.assertIn("shows no QR codes", one.text)

    @needs_engine
    def test_a_service_of_another_version(self):
        """A real service, whose version another one has meanwhile."""
        place = self.home / "run"
        place.mkdir(mode=0o700)
        with mock.patch.dict(os.environ, XDG_DATA_HOME=str(self.home), XDG_STATE_HOME=str(self.home),
                             TUKYAMID_ENGINE=PROGRAM):
            socket = ensure(place / "socket")
            self.assertEqual([one.state for one in self.found("service", socket=socket)], [State.GOOD])
            with mock.patch("tukyamid.command.doctor.VERSION", "99.9"):
                *_, one = self.found("service", socket=socket)
            process = one.mend.split(";")[0].removeprefix("kill ")
            os.kill(int(process), signal.SIGTERM)
        self.assertIs(one.state, State.NOTE)
        self.assertEqual(one.text, f"{socket} is of version {VERSION}, and this command of version 99.9")

    def test_no_service_is_no_fault(self):
        (one,) = self.found("service")
        self.assertIs(one.state, State.NOTE)
        self.assertIn(str(self.home / "none"), one.text)

    def test_a_service_and_its_keyrings(self):
        service = FakeService()
        self.addCleanup(service.close)
        one, old = self.found("service", socket=service.path)
        self.assertIn("is of an earlier version", old.text)  # It doesn't say which.
        self.assertIs(one.state, State.GOOD)
        self.assertIn("3 certificates and 5 verdicts", one.text)
        kept, faulty = self.found("keyring", socket=service.path)
        self.assertEqual((kept.state, kept.text), (State.GOOD, "/tmp/a: 3 certificates"))
        self.assertEqual((faulty.state, faulty.mend), (State.NOTE, "tukyamid keyring remove gpg"))
        self.assertIn("no such file", faulty.text)

    def test_what_is_no_service(self):
        service = FakeService([sys.executable, "-c", "input(); print('nonsense')"])
        self.addCleanup(service.close)
        (one,) = self.found("service", socket=service.path)
        self.assertIs(one.state, State.BAD)

    @needs_engine
    def test_the_command_and_its_status(self):
        hostile = self.home / "\x1b[2J\u202e"
        words = ["--engine", PROGRAM, "--socket", str(hostile), "--verifier"]
        for verifier, status in (self.verifier, 0), (str(hostile), 3):
            done = subprocess.run([COMMAND, "doctor", *words, verifier], capture_output=True, text=True, check=False,
                                  env={**os.environ, "HOME": str(self.home)})
            self.assertEqual((done.returncode, done.stderr), (status, ""))
            self.assertRegex(done.stdout, r"(?m)^\[ok\] +engine ")
            self.assertRegex(done.stdout, r"(?m)^\[note\] +service .*\\x1b\[2J\\xe2\\x80\\xae")
            self.assertFalse({"\x1b", "\u202e"} & set(done.stdout))
        self.assertRegex(done.stdout, r"(?m)^\[missing\] +verifier .*\n +fix it with: " + str(CLIENT.parent))
