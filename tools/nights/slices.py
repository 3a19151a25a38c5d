"""Slices of Debian's keyring beside one engine that holds everything."""

import sys

from .night import FAILED, PASSED, SKIPPED, Night, Part, last_line


def slices(night: Night) -> Part:
    """Each key of Debian's keyring is the trust root in turn, and all bindings are listed."""
    words = [sys.executable, str(night.root / "tests/suites/slices/every_root")]
    status, output = night.run("slices", [*words, "3"] if night.is_short else words)
    if "skipped: " in output:
        return Part("slices", SKIPPED, output.splitlines()[0].removeprefix("skipped: "))
    lines = output.splitlines()
    summary = f"{lines[-2]}: {last_line(output)}" if len(lines) > 1 else "it ended at once"
    return Part("slices", FAILED if status else PASSED, summary, lines[-20:] if status else [])
