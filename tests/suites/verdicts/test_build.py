"""`verifier/build` on a machine that lacks a package: it says so, and installs nothing unless asked. Packages,
the compiler and the terminal are stood in for by programs of the test; nothing is installed or built here."""

import os
import pty
import shutil
import subprocess
import tempfile
import unittest
from pathlib import Path

from program import ROOT

# What stands in for a program notes its words in `calls`. dpkg-query knows the packages that `installed` lists, and
# apt-get, as long as it isn't asked what it would do, installs them all.
STAND_INS = {
    "dpkg-query": 'grep -qx "$4" "$HERE/installed" && echo "install ok installed"',
    "apt-get": 'case "$*" in *--assume-no*) echo "0 upgraded, 7 newly installed, 0 to remove"; '
               'echo "Need to get 9 MB of archives."; exit 1 ;; *update*) exit 0 ;; esac\n'
               '[ -e "$HERE/unreachable" ] && exit 100\necho "$@" >> "$HERE/installing"',
    "cargo": 'mkdir -p out/release && for name in $(ls src/bin); do echo "$name" > "out/release/$name"; done',
    "id": 'cat "$HERE/user"',
}
PROGRAMS = ["other", "wot-verdicts"]


class Build(unittest.TestCase):
    def setUp(self):
        folder = tempfile.TemporaryDirectory(prefix="wot")
        self.addCleanup(folder.cleanup)
        self.here = Path(folder.name)
        tool = self.here / "verifier"
        for name in PROGRAMS:
            (tool / "src/bin" / name).mkdir(parents=True)
        # The script sets Debian's programs before all others; here it finds those that stand in for them.
        script = (ROOT / "verifier/build").read_text()
        self.assertIn("PATH=/usr/bin:$PATH cargo", script)
        (tool / "build").write_text(script.replace("PATH=/usr/bin:$PATH cargo", "cargo"))
        (tool / "build").chmod(0o755)
        self.bin = self.here / "bin"
        self.bin.mkdir()
        for name, body in STAND_INS.items():
            program = self.bin / name
            program.write_text(f'#!/bin/sh\nHERE={self.here}\necho {name} "$@" >> "$HERE/calls"\n{body}\n')
            program.chmod(0o755)
        (self.here / "user").write_text("0\n")
        (self.here / "installed").write_text("cargo\nrustc\n")

    def run_build(self, *words, given=subprocess.DEVNULL):
        environment = {**os.environ, "PATH": f"{self.bin}:/usr/bin:/bin"}
        return subprocess.run([self.here / "verifier/build", *words], stdin=given, capture_output=True, text=True,
                              env=environment, check=False)

    def run_on_a_terminal(self, answer):
        """Its status, with the answer typed on a terminal."""
        own, terminal = pty.openpty()
        try:
            os.write(own, answer)
            return self.run_build(given=terminal)
        finally:
            os.close(own)
            os.close(terminal)

    @property
    def installed(self):
        """The packages that were installed, or None."""
        file = self.here / "installing"
        return file.read_text().split() if file.exists() else None

    @property
    def is_built(self):
        return all((self.here / "verifier/out" / name).exists() for name in PROGRAMS)

    def test_without_a_terminal_nothing_is_installed(self):
        run = self.run_build()
        self.assertEqual((run.returncode, run.stdout, self.installed, self.is_built), (69, "", None, False))
        for said in "librust-sequoia-openpgp-dev", "7 newly installed", "9 MB", "--yes":
            self.assertIn(said, run.stderr)

    def test_yes_installs_and_builds(self):
        run = self.run_build("--yes")
        self.assertEqual((run.returncode, run.stdout, self.is_built), (0, "", True))
        self.assertIn("librust-sequoia-openpgp-dev", self.installed)
        self.assertIn("--no-install-recommends", self.installed)
        self.assertNotIn("rustc", self.installed)
        self.assertIn("processor minutes", run.stderr)

    def test_it_asks_on_a_terminal(self):
        for answer, status in (b"n\n", 69), (b"\n", 69), (b"y\n", 0):
            run = self.run_on_a_terminal(answer)
            self.assertEqual((run.returncode, self.is_built), (status, status == 0), answer)
            self.assertEqual(self.installed is not None, status == 0)

    def test_another_user_is_told_what_root_may_do(self):
        (self.here / "user").write_text("1000\n")
        run = self.run_build("--yes")
        self.assertEqual((run.returncode, self.installed), (69, None))
        self.assertIn("as root: apt-get install", run.stderr)

    def test_packages_that_cant_be_fetched(self):
        (self.here / "unreachable").touch()
        self.assertEqual((self.run_build("--yes").returncode, self.is_built), (69, False))

    def test_nothing_is_asked_if_nothing_is_missing(self):
        self.run_build("--yes")
        packages = [word for word in self.installed if not word.startswith("-") and word != "install"]
        (self.here / "installed").write_text("\n".join(["cargo", "rustc", *packages]) + "\n")
        shutil.rmtree(self.here / "verifier/out")
        (self.here / "calls").unlink()
        run = self.run_build()
        self.assertEqual((run.returncode, self.is_built), (0, True))
        self.assertNotIn("apt-get", (self.here / "calls").read_text())

    def test_words(self):
        self.assertEqual(self.run_build("--help").returncode, 0)
        for words in ["--no"], ["--yes", "more"]:
            self.assertEqual((self.run_build(*words).returncode, self.installed), (2, None))
