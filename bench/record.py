"""What a bench measured, as a file that `bench/compare` and `bench/plot` read.

Every bench takes `--json FILE` beside its own words. The file has the bench, the commit, the program's digest, the
machine with its load, how much of its time the host gave to others, and the rows. A row has a name, a value with its
unit, and, if there are any, the size that it grows with, what it stands beside (a peer in the same run, or a limit) and
the ratio to that: 1 is equal, more is worse. It may also say what is wanted on an idle machine.
"""

import hashlib
import json
import os
import platform
import subprocess
import sys
import time
from pathlib import Path
from typing import Any

TOP = Path(__file__).resolve().parent.parent
Row = dict[str, Any]


def commit() -> str:
    """The commit, with a mark if the files differ from it; the empty text outside of a checkout."""
    def told(*words: str) -> str:
        return subprocess.run(["git", *words], cwd=TOP, capture_output=True, text=True, check=False).stdout.strip()

    return told("rev-parse", "HEAD") + ("+changed" if told("status", "--porcelain", "--untracked-files=no") else "")


def first_line(path: str, begin: str) -> str:
    """What stands behind the colon of the first line that begins so."""
    try:
        with open(path, encoding="utf-8") as file:
            return next((line.partition(":")[2].strip() for line in file if line.startswith(begin)), "")
    except OSError:
        return ""


def machine() -> dict[str, Any]:
    """The processor, how many of them, the memory in megabytes and the system."""
    memory = first_line("/proc/meminfo", "MemTotal").split()
    return {
        "processor": first_line("/proc/cpuinfo", "model name") or platform.machine(),
        "processors": len(os.sched_getaffinity(0)),
        "memory_mb": int(memory[0]) // 1024 if memory else 0,
        "system": f"{platform.system()} {platform.release()}",
    }


def processor_ticks() -> tuple[int, int]:
    """How much time all processors have had since the system's start, and how much of it the host gave to others."""
    ticks = [int(word) for word in Path("/proc/stat").read_text(encoding="utf-8").split(maxsplit=11)[1:9]]
    return sum(ticks), ticks[-1]


def digest(program: str) -> str:
    """The SHA-256 of the measured program, or the empty text if it isn't built."""
    path = Path(program)
    return hashlib.sha256(path.read_bytes()).hexdigest() if path.is_file() else ""


def taken_from_words() -> Path | None:
    """The file behind `--json`, which is taken out of the program's words."""
    if "--json" not in sys.argv:
        return None
    at = sys.argv.index("--json")
    if at + 1 >= len(sys.argv):
        sys.exit("--json needs the name of a file")
    file = Path(sys.argv[at + 1])
    del sys.argv[at : at + 2]
    return file


class Record:
    """The rows of one run of a bench. Make it before the bench reads its own words."""

    def __init__(self, bench: str, program: str) -> None:
        self.file = taken_from_words()
        self.rows: list[Row] = []
        self.head = {"bench": bench, "commit": commit(), "program": digest(program), "machine": machine()}
        self.begun, self.load = time.time(), os.getloadavg()[0]
        self.ticks = processor_ticks()

    def add(
        self,
        name: str,
        value: float,
        unit: str,
        *,
        size: int | None = None,
        peer: tuple[str, float] | None = None,
        limit: float | None = None,
        wanted: float | None = None,
        more_is_better: bool = False,
    ) -> None:
        """Notes a row. `peer` is a name and its value in the same unit; `limit` the greatest value that is right, and
        `wanted` the greatest one that is wanted on an idle machine."""
        row: Row = {"name": name, "value": value, "unit": unit, "more_is_better": more_is_better}
        if size is not None:
            row["size"] = size
        if limit is not None:
            row["limit"] = limit
        if wanted is not None:
            row["wanted"] = wanted
        if peer is not None:
            row["peer"] = {"name": peer[0], "value": peer[1]}
        beside = peer[1] if peer is not None else limit
        if beside:
            row["ratio"] = beside / value if more_is_better and value else value / beside
        if any(row["name"] == other["name"] for other in self.rows):
            raise ValueError(f"two rows are named {name}")
        self.rows.append(row)

    def write(self) -> None:
        """Writes the file, if one was asked for."""
        if self.file is not None:
            load = {"begin": round(self.load, 2), "end": round(os.getloadavg()[0], 2)}
            when = time.strftime("%Y-%m-%dT%H:%M:%SZ", time.gmtime(self.begun))
            spent, taken = (after - before for before, after in zip(self.ticks, processor_ticks()))
            told = {**self.head, "begun": when, "seconds": round(time.time() - self.begun, 1), "load": load,
                    "stolen": round(taken / max(1, spent), 3)}
            self.file.parent.mkdir(parents=True, exist_ok=True)
            self.file.write_text(json.dumps({**told, "rows": self.rows}, indent=1) + "\n", encoding="utf-8")


def read(file: Path) -> dict[str, Any]:
    """A file that a bench wrote."""
    told: dict[str, Any] = json.loads(file.read_text(encoding="utf-8"))
    return told


def read_all(place: Path) -> dict[str, dict[str, Any]]:
    """The runs in a file, or in the files of a folder, by their benches."""
    files = sorted(place.glob("*.json")) if place.is_dir() else [place]
    runs = [read(file) for file in files]
    return {run["bench"]: run for run in runs if "bench" in run}


def grouped(rows: list[Row]) -> dict[str, list[Row]]:
    """The rows with a size, by their names without it."""
    groups: dict[str, list[Row]] = {}
    for row in rows:
        if "size" in row:
            name = row["name"].replace(f", {row['size']:,}", "").strip()
            groups.setdefault(name, []).append(row)
    return groups
