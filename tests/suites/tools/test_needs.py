"""What `tests/run` does about packages that are missing. apt-get and dpkg-query are stood in for by programs of the
test; nothing is installed."""

import os
import shutil
import tempfile
import unittest
from pathlib import Path

from outside import ROOT, run

LIST = """# A comment.
here: one
away: one two
far: two
tools/more --needed: two
verifier/build --needed: three
"""
PROGRAMS = {
    "bin/dpkg-query": 'for name in "$@"; do grep -qx "$name" "$TOP/installed" && '
                      'echo "$name install ok installed"; done\nexit 1',
    "bin/apt-get": 'echo "$@" >> "$TOP/calls"; [ -e "$TOP/unreachable" ] && exit 100\n'
                   'for name in "$@"; do echo "$name" >> "$TOP/installed"; done; echo "Setting up $*"',
    "tools/more": '[ "$*" = --needed ] && echo further && echo here',
    "verifier/build": 'if [ "$*" = --needed ]; then echo compiler; else echo built "$@" >> "$TOP/calls"; fi',
    **{f"tests/suites/{name}/run": "echo '1 passed, 0 failed, 0 skipped'" for name in ("one", "two", "three", "four")},
}


class Needs(unittest.TestCase):
    def setUp(self) -> None:
        holder = tempfile.TemporaryDirectory(prefix="tukyamid-needs-")
        self.addCleanup(holder.cleanup)
        self.top = Path(holder.name)
        for name, text in PROGRAMS.items():
            program = self.top / name
            program.parent.mkdir(parents=True, exist_ok=True)
            program.write_text(f"#!/bin/sh\n{text}\n", encoding="utf-8")
            program.chmod(0o755)
        for name in "run", "needs.py":
            shutil.copy(ROOT / "tests" / name, self.top / "tests" / name)
        (self.top / "tests/packages.txt").write_text(LIST, encoding="utf-8")
        (self.top / "installed").write_text("here\n", encoding="utf-8")

    def run_suites(self, *names: str, **settings: str) -> list[str]:
        path = f"{self.top}/bin:{os.environ['PATH']}"
        status, said, errors = run(self.top / "tests/run", *names, WOT_PROGRAM="/bin/true", PATH=path,
                                   TOP=str(self.top), **settings)
        self.assertEqual((status, errors), (0, ""))
        return said.splitlines()

    def calls(self) -> list[str]:
        file = self.top / "calls"
        return file.read_text(encoding="utf-8").splitlines() if file.exists() else []

    def test_one_command_is_named(self) -> None:
        lines = self.run_suites("one", "two", WOT_NO_APT="1")
        self.assertEqual(lines[0], "== packages are missing, and what needs them is skipped. As root: apt-get install "
                                   "--no-install-recommends away far further")
        self.assertEqual(self.calls(), [])

    def test_what_is_there_or_not_needed_is_not_mentioned(self) -> None:
        self.assertEqual(self.run_suites("four", WOT_NO_APT="1")[0], "== four")
        (self.top / "installed").write_text("away\nhere\n", encoding="utf-8")
        self.assertEqual(self.run_suites("one", WOT_NO_APT="1")[0], "== one")

    @unittest.skipUnless(os.geteuid() == 0, "only root installs packages")
    def test_they_are_installed_once(self) -> None:
        lines = self.run_suites("one", "two", WOT_NO_APT="")
        self.assertEqual(lines[0], "== packages: installing 3: away far further")
        self.assertTrue(lines[1].startswith("Setting up "), lines[1])
        (call,) = self.calls()
        self.assertEqual(call.split()[-3:], ["away", "far", "further"])
        self.assertIn("--no-install-recommends", call)
        self.assertEqual(self.run_suites("one", "two", WOT_NO_APT="")[0], "== one")
        self.assertEqual(len(self.calls()), 1)

    @unittest.skipUnless(os.geteuid() == 0, "only root installs packages")
    def test_an_archive_that_is_not_reached(self) -> None:
        (self.top / "unreachable").touch()
        lines = self.run_suites("one", WOT_NO_APT="")
        self.assertTrue(any(line.endswith("apt-get install --no-install-recommends away") for line in lines), lines)
        self.assertEqual([call.split()[-1] for call in self.calls()], ["away", "--quiet", "away"])

    def test_the_verifier_is_built_for_those_that_use_it(self) -> None:
        (self.top / "installed").write_text("compiler\nhere\naway\n", encoding="utf-8")
        self.run_suites("one", TUKYAMID_VERIFIER="")
        self.assertEqual(self.calls(), [])
        self.run_suites("one", "three", TUKYAMID_VERIFIER="")
        self.assertEqual(self.calls(), ["built"])

    def test_the_list_of_the_repository(self) -> None:
        """Each line of it names suites that are there, and a name that Debian's packages may have."""
        lines = [line for line in (ROOT / "tests/packages.txt").read_text(encoding="utf-8").splitlines()
                 if not line.startswith("#")]
        names = [line.partition(":")[0] for line in lines]
        self.assertEqual(names, sorted(names))
        for line in lines:
            name, _, suites = line.partition(": ")
            self.assertRegex(name, r"^([a-z0-9][a-z0-9+.-]+|(tools/package|verifier/build) --needed)$")
            for suite in suites.split():
                self.assertTrue((ROOT / "tests/suites" / suite / "run").exists(), line)


if __name__ == "__main__":
    unittest.main()
