"""Every bench: nothing is slower by a quarter than the run in the repository, and no row is beyond its limit."""

import json
import os
import shutil
from pathlib import Path
from typing import Any

from .night import FAILED, PASSED, Night, Part, last_line

MEASURED = "bench/measured"
# Programs of the folder that measure nothing, or that need an earlier program.
NO_BENCH = {"compare", "plot", "tables", "versions"}
SHORT = {"cursors": ["300"], "floods": ["--small", "a chain"]}


def benches_of(root: Path) -> list[Path]:
    """The programs of bench/ that measure the present program."""
    found = sorted(path for path in (root / "bench").iterdir() if path.is_file() and os.access(path, os.X_OK))
    return [path for path in found if path.name not in NO_BENCH and not path.suffix]


def over_limits(run: dict[str, Any]) -> list[str]:
    """The rows beyond their limits."""
    rows = [row for row in run["rows"] if "limit" in row and row["value"] > row["limit"]]
    return [f"{run['bench']}: {row['name']}: {row['value']:.3g}, and at most {row['limit']:g} is right" for row in rows]


def benches(night: Night) -> Part:
    """Every bench, beside the run that stands in the repository."""
    folder, wrong, done = night.folder / "bench", [], 0
    shutil.rmtree(folder, ignore_errors=True)
    folder.mkdir()
    for bench in benches_of(night.root):
        if night.is_short and bench.name not in SHORT:
            continue
        words = SHORT[bench.name] if night.is_short else []
        if "from record import" in bench.read_text(encoding="utf-8"):
            words = [*words, "--json", str(folder / f"{bench.name}.json")]
        status, output = night.run(f"bench-{bench.name}", [str(bench), *words])
        done += 1
        if status != 0:
            wrong.append(f"{bench.name}: ended with status {status}: {last_line(output):.200}")
    for file in sorted(folder.glob("*.json")):
        wrong += over_limits(json.loads(file.read_text(encoding="utf-8")))
    if (night.root / MEASURED).is_dir() and not night.is_short:
        words = [str(night.root / "bench/compare"), MEASURED, str(folder)]
        status, output = night.run("compare", words)
        wrong += output.splitlines() if status == 1 else []
    return Part("benches", FAILED if wrong else PASSED, f"{done} benches", wrong)
