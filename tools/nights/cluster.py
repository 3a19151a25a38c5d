"""A cluster that loses machines, servers and services at random, with a ledger of what it acknowledged."""

import os
import sys

from .night import FAILED, PASSED, SKIPPED, Night, Part, last_line

SYSTEM_PYTHON = "/usr/bin/python3"  # The one for which Debian packages psycopg.


def cluster(night: Night) -> Part:
    """Cuts, kills, stops and ended services for an hour: nothing that was acknowledged may be lost."""
    if os.geteuid():
        return Part("cluster", SKIPPED, "network namespaces need root")
    python = SYSTEM_PYTHON if os.access(SYSTEM_PYTHON, os.X_OK) else sys.executable
    words = [python, str(night.root / "tests/suites/shared/endure"), "--seed", str(night.seed),
             "--logs", str(night.folder / "cluster")]
    words += ["--count", "4", "--shortest", "5", "--longest", "10"] if night.is_short else ["--seconds", "3600"]
    status, output = night.run("cluster", words)
    if "skipped: " in output:
        return Part("cluster", SKIPPED, last_line(output).removeprefix("skipped: "))
    details = [line for line in output.splitlines() if '"whole": null' in line or '"lost": 0' not in line]
    return Part("cluster", FAILED if status else PASSED, last_line(output), details[-20:] if status else [])
