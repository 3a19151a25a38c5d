"""Damaged real certificates by new seeds: the verifier calls good what gpg calls good."""

import re
import shutil

from .night import FAILED, PASSED, SKIPPED, Night, Part, last_line

TEST = "test_mutated"
ROUND = 40
COUNTS = re.compile(r"(\d+) passed, (\d+) failed, (\d+) skipped")


def readers(night: Night) -> Part:
    """The suite `verdicts` over damaged certificates, by seeds of this night."""
    if not shutil.which("gpg"):
        return Part("readers", SKIPPED, "gpg isn't installed")
    draw = night.drawn("readers")
    seeds = ",".join(str(draw.randrange(10**9)) for _ in range(night.size(25, 2)))
    words = ["env", f"WOT_SEEDS={seeds}", str(night.root / "tests/suites/verdicts/run"), TEST]
    status, output = night.run("readers", words)
    counts = COUNTS.fullmatch(last_line(output))
    if status == 0 and counts and counts[1] == "0":
        return Part("readers", SKIPPED, "the verifier can't be built, or debian-keyring isn't installed")
    wrong = [line for line in output.splitlines() if line.startswith(("FAIL", "ERROR", "AssertionError"))]
    count = ROUND * (seeds.count(",") + 1)
    return Part("readers", PASSED if status == 0 else FAILED, f"{count} damaged certificates (seeds {seeds})", wrong)
