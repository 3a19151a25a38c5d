"""`tools/release` in a small repository, with a program in the place of tools/package."""

import hashlib
import json
import os
import shutil
import subprocess
import tempfile
import unittest
from pathlib import Path
from typing import Any

from outside import ROOT, run

PARTS = ("gate", "checks", "suites", "edits", "scripts", "mutants", "slices", "memory", "benches")
PACKAGE = """#!/bin/sh
mkdir -p "$2" && cat python/tukyamid/version.py > "$2/tukyamid.deb" && echo "$@" > "$2/words"
"""
NAMES = {f"GIT_{who}_{what}": text for who in ("AUTHOR", "COMMITTER")
         for what, text in (("NAME", "T"), ("EMAIL", "t@example.org"))}


@unittest.skipUnless(shutil.which("git") and shutil.which("gpg"), "git or gpg isn't installed")
class Released(unittest.TestCase):
    """Each test has a repository of its own."""

    def setUp(self) -> None:
        holder = tempfile.TemporaryDirectory()
        self.addCleanup(holder.cleanup)
        self.top, self.into = Path(holder.name) / "repo", Path(holder.name) / "into"
        self.night = Path(holder.name) / "night.json"
        self.home = tempfile.mkdtemp(prefix="g")  # The socket of gpg's agent needs a short path.
        self.addCleanup(shutil.rmtree, self.home, ignore_errors=True)
        self.addCleanup(subprocess.run, ["gpgconf", "--kill", "all"], env={**os.environ, "GNUPGHOME": self.home})
        files = {
            "python/tukyamid/version.py": '"""The version."""\n\nVERSION = "0.0.9"\n',
            "CHANGELOG.md": "# Changelog\n\n## Unreleased\n\n- More.\n\n## 0.0.9 (2020-01-01)\n",
            "tools/package": PACKAGE,
        }
        for name, text in files.items():
            (self.top / name).parent.mkdir(parents=True, exist_ok=True)
            (self.top / name).write_text(text, encoding="utf-8")
        os.chmod(self.top / "tools/package", 0o755)
        shutil.copy(ROOT / "tools/release", self.top / "tools/release")
        for words in (["init", "-q", "-b", "main"], ["add", "-A"], ["commit", "-q", "-m", "Begin"]):
            self.git(*words)
        self.make_key()

    def git(self, *words: str) -> str:
        how = {"cwd": self.top, "env": {**os.environ, **NAMES}, "capture_output": True, "text": True, "check": True}
        return str(subprocess.run(["git", *words], **how).stdout)

    def write_night(self, **more: Any) -> None:
        parts = [{"name": name, "status": "passed"} for name in PARTS]
        values = {"commit": self.git("rev-parse", "HEAD").strip(), "short": False, "parts": parts, "programs": []}
        self.night.write_text(json.dumps({**values, **more}), encoding="utf-8")

    def make_key(self) -> None:
        """A key of a gpg of the test's own, which signs for git."""
        self.gpg("--quick-generate-key", "Release <release@example.org>", "ed25519", "sign", "never")
        self.git("config", "user.signingKey", "release@example.org")

    def gpg(self, *words: str) -> str:
        how = {"env": {**os.environ, "GNUPGHOME": self.home}, "capture_output": True, "text": True, "check": True}
        words = ("gpg", "--batch", "--passphrase", "", "--pinentry-mode", "loopback", *words)
        done = subprocess.run(words, **how)
        return str(done.stdout) + str(done.stderr)

    def release(self, *words: str) -> tuple[int, str, str]:
        where = ["--into", str(self.into), "--night", str(self.night)]
        return run(self.top / "tools/release", *words, *where, at=self.top, GNUPGHOME=self.home, **NAMES)

    def test_a_release(self) -> None:
        self.write_night()
        status, told, errors = self.release("0.1.0")
        self.assertEqual((status, errors), (0, ""))
        self.assertIn('VERSION = "0.1.0"', self.git("show", "v0.1.0:python/tukyamid/version.py"))
        changelog = self.git("show", "v0.1.0:CHANGELOG.md")
        self.assertRegex(changelog, r"## 0\.1\.0 \(20\d\d-\d\d-\d\d\)\n\n- More\.\n\n## 0\.0\.9 \(2020-01-01\)")
        self.assertEqual(self.git("rev-parse", "HEAD"), self.git("rev-parse", "v0.1.0^{commit}"))
        sums = dict(reversed(line.split("  ")) for line in (self.into / "SHA256SUMS").read_text().splitlines())
        self.assertEqual(set(sums), {"tukyamid-0.1.0.tar.gz", "packages/tukyamid.deb", "packages/words"})
        for name, digest in sums.items():
            self.assertEqual(hashlib.sha256((self.into / name).read_bytes()).hexdigest(), digest)
        self.assertIn('VERSION = "0.1.0"', (self.into / "packages/tukyamid.deb").read_text(encoding="utf-8"))
        self.assertIn("released 0.1.0", told)
        signed = [self.gpg("--verify", str(self.into / "SHA256SUMS.asc"), str(self.into / "SHA256SUMS"))]
        how = {"cwd": self.top, "env": {**os.environ, "GNUPGHOME": self.home}, "capture_output": True, "text": True}
        signed.append(str(subprocess.run(["git", "verify-tag", "v0.1.0"], **how, check=True).stderr))
        for said in signed:
            self.assertIn('Good signature from "Release <release@example.org>"', said)

    def test_without_a_key(self) -> None:
        self.write_night()
        self.git("config", "--unset", "user.signingKey")
        self.refused("no key signs the release")
        self.refused("couldn't be signed", "0.1.0", "--key", "nobody@example.org")

    def refused(self, says: str, *words: str) -> None:
        before = self.git("rev-parse", "HEAD")
        status, _, errors = self.release(*(words or ("0.1.0",)))
        self.assertEqual(status, 1)
        self.assertIn(says, errors)
        self.assertEqual((self.git("rev-parse", "HEAD"), self.git("tag")), (before, ""))
        self.assertFalse((self.into / "SHA256SUMS").exists())

    def test_what_is_refused(self) -> None:
        self.refused("run tools/nightly first")
        self.write_night(commit="0" * 40)
        self.refused("the night ran over 000000000000")
        self.write_night(short=True)
        self.refused("a shortened one")
        self.write_night(parts=[{"name": name, "status": "passed"} for name in PARTS if name != "gate"])
        self.refused("gate: not run")
        self.write_night(parts=[{"name": name, "status": "failed" if name == "edits" else "passed"} for name in PARTS])
        self.refused("edits: failed")
        self.write_night()
        self.refused("isn't a version", "one")
        (self.top / "CHANGELOG.md").write_text("# Changelog\n", encoding="utf-8")
        self.refused("changes that aren't committed")

    def test_a_version_without_a_section(self) -> None:
        (self.top / "CHANGELOG.md").write_text("# Changelog\n\n## 0.0.9 (2020-01-01)\n", encoding="utf-8")
        self.git("commit", "-q", "-a", "-m", "No section")
        self.write_night()
        self.refused("has no section 0.1.0")

    def test_a_try_sets_no_tag(self) -> None:
        before = self.git("rev-parse", "HEAD")
        status, told, errors = self.release("0.1.0", "--try")
        self.assertEqual(status, 0)
        self.assertIn("run tools/nightly first", errors)
        self.assertIn("no tag was set", told)
        self.assertTrue((self.into / "SHA256SUMS").exists())
        self.assertEqual((self.git("rev-parse", "HEAD"), self.git("tag")), (before, ""))
