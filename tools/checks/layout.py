"""Rattle files are laid out as `rattle fmt` has them, and lie where a check reads them."""

import re
import shutil
import subprocess
from collections.abc import Iterator
from pathlib import Path

from .finding import CannotRun, Finding
from .tree import Tree

PLACES = {".rt": ("src",), ".antt": ("specs", "proofs")}
NAMED = re.compile(r"^(\S+\.(?:rt|antt))[: ]", re.MULTILINE)
TIDY = "run `rt fmt` in its crate's folder"


def formatter() -> str:
    """The path of Rattle's formatter, which stands beside the command rt."""
    rt = shutil.which("rt")
    beside = Path(rt).resolve().parent / "rattle" if rt else None
    if beside is None or not beside.exists():
        raise CannotRun("the Rattle toolchain (the command rt) isn't installed")
    return str(beside)


def misplaced(path: str) -> bool:
    """Whether no check reads a file of Rattle that lies here."""
    parts = path.split("/")
    wanted = PLACES[Path(path).suffix]
    return len(parts) < 4 or parts[0] != "crates" or parts[2] not in wanted


def layout(tree: Tree) -> Iterator[Finding]:
    """Files that the formatter would change, and files where no check reads them."""
    files = tree.ending(*PLACES)
    for path in files:
        if misplaced(path):
            yield Finding(path, 1, "a file of Rattle outside of a crate is never checked", "move it into a crate")
    ran = subprocess.run(
        [formatter(), "fmt", "--check", *files], cwd=tree.root, capture_output=True, text=True, check=False
    )
    named = set(NAMED.findall(ran.stdout + ran.stderr)) & set(files)
    for path in sorted(named):
        yield Finding(path, 1, "the file isn't in Rattle's layout, or can't be parsed", TIDY)
    if ran.returncode and not named:
        raise CannotRun(f"rattle fmt --check ended with status {ran.returncode}: {ran.stderr[:300]}")
