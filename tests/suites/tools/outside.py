"""What the tests of the tools share: running one, and writing a run of a bench."""

import json
import os
import subprocess
import sys
from pathlib import Path
from typing import Any

ROOT = Path(os.environ.get("WOT_ROOT") or Path(__file__).resolve().parents[3])
sys.path[:0] = [str(ROOT / "tools"), str(ROOT / "bench")]
MACHINE = {"processor": "a processor", "processors": 4, "memory_mb": 1000, "system": "Linux"}


def run(program: str | Path, *words: str | Path, at: Path = ROOT, **environment: str) -> tuple[int, str, str]:
    """The status, and what was written to standard output and to standard error."""
    told = {**os.environ, **environment}
    ran = subprocess.run([str(ROOT / program), *map(str, words)], cwd=at, env=told, capture_output=True, text=True)
    return ran.returncode, ran.stdout, ran.stderr


def row(name: str, value: float, unit: str = "us", **more: Any) -> dict[str, Any]:
    """A row as bench/record.py writes it."""
    return {"name": name, "value": value, "unit": unit, "more_is_better": False, **more}


def beside(name: str, value: float, peer: float, **more: Any) -> dict[str, Any]:
    """A row that stands beside a peer of its run."""
    return row(name, value, peer={"name": "the peer", "value": peer}, ratio=value / peer, **more)


def write_run(folder: Path, bench: str, rows: list[dict[str, Any]], **more: Any) -> Path:
    folder.mkdir(parents=True, exist_ok=True)
    load = {"begin": 0.5, "end": 1.5}
    head = {"bench": bench, "commit": "c0ffee", "program": "", "machine": MACHINE, "begun": "2026-01-02T03:04:05Z"}
    file = folder / f"{bench}.json"
    file.write_text(json.dumps({**head, "seconds": 12.0, "load": load, "rows": rows, **more}), encoding="utf-8")
    return file
