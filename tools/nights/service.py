"""The service over a file, which is killed, stopped and flooded at random for an hour."""

import sys

from .night import FAILED, PASSED, Night, Part, last_line


def service(night: Night) -> Part:
    """A ledger of what was acknowledged: nothing is lost, each line is answered in time and in its order."""
    seed = night.drawn("service").randrange(10**6)
    words = [sys.executable, str(night.root / "tests/suites/server/hour"), str(night.size(3600, 60)), str(seed)]
    status, output = night.run("service", words)
    return Part("service", FAILED if status else PASSED, last_line(output), output.splitlines()[-41:] if status else [])
