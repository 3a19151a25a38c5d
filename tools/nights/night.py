"""One night: what it runs over, where it writes, and what each part came to."""

import os
import random
import subprocess
import time
from collections.abc import Callable
from dataclasses import dataclass, field
from pathlib import Path

PASSED, FAILED, SKIPPED = "passed", "failed", "skipped"


@dataclass
class Part:
    """A part's result: a line that sums it up, and a line for each thing that failed or was left out."""

    name: str
    status: str
    summary: str
    details: list[str] = field(default_factory=list)
    seconds: float = 0.0


@dataclass(frozen=True)
class Night:
    """What all parts are given. The page and the logs go to the folder; the room is for what goes in the end."""

    root: Path
    folder: Path
    room: Path
    programs: list[Path]
    libraries: Path
    seed: int
    jobs: int
    is_short: bool

    @property
    def clone(self) -> Path:
        """Where the gate runs: outside the checkout, since the toolchain refuses one that has another inside."""
        return self.room / "clone"

    def size(self, whole: int, short: int) -> int:
        return short if self.is_short else whole

    def drawn(self, part: str) -> random.Random:
        """The random numbers of a part, which the night's seed gives again."""
        return random.Random(f"{self.seed} {part}")

    @property
    def environment(self) -> dict[str, str]:
        """What suites and benches need to find the first program, if there is one: the gate makes the programs."""
        program = {"WOT_PROGRAM": str(self.programs[0])} if self.programs else {}
        return {**os.environ, **program, "WOT_ROOT": str(self.root)}

    def run(self, name: str, words: list[str], hours: float = 2.0, cwd: Path | None = None) -> tuple[int, str]:
        """Runs a program with its output in a file of this name; its status (-1 if it took too long) and its output."""
        log = self.folder / f"{name}.log"
        with open(log, "wb") as out:
            try:
                status = subprocess.run(
                    words, cwd=cwd or self.root, env=self.environment, stdin=subprocess.DEVNULL, stdout=out,
                    stderr=subprocess.STDOUT, timeout=hours * 3600, check=False,
                ).returncode
            except subprocess.TimeoutExpired:
                status = -1
        return status, log.read_text(encoding="utf-8", errors="replace")


PartOf = Callable[[Night], Part]


def timed(part: PartOf, night: Night) -> Part:
    """A part with its seconds. One that raises has failed, so that the others still run."""
    begun = time.monotonic()
    try:
        result = part(night)
    except Exception as error:  # pylint: disable=broad-except
        result = Part(part.__name__, FAILED, f"it stopped: {type(error).__name__}: {error}")
    result.seconds = round(time.monotonic() - begun, 1)
    return result


def last_line(output: str) -> str:
    lines = [line for line in output.splitlines() if line.strip()]
    return lines[-1] if lines else ""
