"""What the repository still owes: how many findings of a rule each crate or file may have today.

The file `owed` has lines of a rule, a crate or file, and a count. A count may only fall: more findings than it fail the
rule, and `tools/check --owed` prints the file as it should be now.
"""

from collections import Counter
from pathlib import Path

from .finding import Finding

HERE = Path(__file__).resolve().parent


def read(file: Path = HERE / "owed") -> dict[tuple[str, str], int]:
    """The counts by rule and owner."""
    owed: dict[tuple[str, str], int] = {}
    for line in file.read_text(encoding="utf-8").splitlines():
        if line and not line.startswith("#"):
            rule, owner, count = line.split(" ")
            owed[rule, owner] = int(count)
    return owed


def counted(found: dict[str, list[Finding]]) -> Counter[tuple[str, str]]:
    """How many findings there are by rule and owner."""
    return Counter((rule, each.owner) for rule, findings in found.items() for each in findings)


def beyond(rule: str, findings: list[Finding], owed: dict[tuple[str, str], int]) -> list[Finding]:
    """The findings of each owner that has more of them than it owes."""
    counts = Counter(each.owner for each in findings)
    return [each for each in findings if counts[each.owner] > owed.get((rule, each.owner), 0)]
