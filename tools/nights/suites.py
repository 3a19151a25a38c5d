"""The gate, in a clean clone, and the suites over the first program."""

import json
import shutil
import subprocess

from .night import FAILED, PASSED, SKIPPED, Night, Part, last_line


def gate(night: Night) -> Part:
    """`rt ci` in a clean clone of this commit, as the merge runs it. What it builds is what the other parts run."""
    if not shutil.which("rt"):
        return Part("gate", SKIPPED, "the Rattle toolchain (the command rt) isn't installed")
    subprocess.run(["git", "clone", "-q", str(night.root), str(night.clone)], check=True)
    status, output = night.run("gate", ["rt", "ci"], hours=6, cwd=night.clone)
    return Part("gate", PASSED if status == 0 else FAILED, last_line(output))


def suites(night: Night) -> Part:
    """Every suite of tests."""
    file = night.folder / "suites.json"
    words = [str(night.root / "tests/run"), "--json", str(file)]
    status, output = night.run("suites", words + (["edits", "generated"] if night.is_short else []))
    rows = json.loads(file.read_text(encoding="utf-8")) if file.exists() else []
    lines = [f"{row['suite']}: {row['failed']} failed" for row in rows if row["failed"]]
    lines += [f"{row['suite']}: skipped, though it could run here: {why}" for row in rows for why in row["reasons"]
              if row["removable"]]
    return Part("suites", PASSED if status == 0 else FAILED, last_line(output), lines)


def checks(night: Night) -> Part:
    """Every rule of tools/check."""
    status, output = night.run("checks", [str(night.root / "tools/check")])
    lines = [line for line in output.splitlines() if line.endswith("]")]
    return Part("checks", PASSED if status == 0 else FAILED, last_line(output), lines[:40])
