"""The verifier that the suites run: one for all of them, built by `tests/run` or by the first suite that needs it."""

import functools
import os
import subprocess
from pathlib import Path

ROOT = Path(os.environ.get("WOT_ROOT") or Path(__file__).resolve().parent.parent)


@functools.cache
def built() -> Path | None:
    """The path of the verifier: the one that TUKYAMID_VERIFIER names, else the repository's own, which is built if that
    isn't done yet; None if packages are missing."""
    named = os.environ.get("TUKYAMID_VERIFIER")
    if named:
        return Path(named)
    folder = ROOT / "verifier"
    done = subprocess.run([folder / "build"], stdin=subprocess.DEVNULL, capture_output=True, text=True, check=False)
    if done.returncode not in (0, 69):
        raise AssertionError(f"verifier/build ended with status {done.returncode}: {done.stderr}")
    return folder / "out" / "wot-verdicts" if done.returncode == 0 else None
