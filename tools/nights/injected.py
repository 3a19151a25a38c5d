"""An exception at each `await` of the service, one after another."""

import sys

from .night import FAILED, PASSED, Night, Part, last_line


def injected(night: Night) -> Part:
    """Whatever fails, each line is answered, and what is kept stays right."""
    choice = f"seed={night.seed}" if night.is_short else "all"
    words = ["env", f"TUKYAMID_INJECTED={choice}", sys.executable, str(night.root / "tests/suites/server/run"),
             "test_injected.Injected"]
    status, output = night.run("injected", words)
    details = output.splitlines()[-41:] if status else []
    return Part("injected", FAILED if status else PASSED, last_line(output), details)
