"""Every body of tests/planted: the prover accepts it, so the test that it names has to fail over a program with it.

The system's calls have no contract, and out of memory is always allowed. So some wrong bodies are proved, and only a
test over the built program can refuse them. Each is compiled in a copy of the crates, unproved, as by `./wot --quick`.
"""

import re
import shutil
import subprocess
import tempfile
from concurrent.futures import ThreadPoolExecutor
from pathlib import Path

from checks.edits import applied
from checks.planted import ENDING, Planted, read
from checks.tree import Tree

from .night import FAILED, PASSED, SKIPPED, Night, Part, last_line

COUNTS = re.compile(r"(\d+) passed, (\d+) failed.*")
MINUTES = 30


def bodies(root: Path) -> list[Planted]:
    """All planted bodies, by name."""
    tree = Tree(root)
    return [body for path in tree.ending(ENDING) if (body := read(path, tree.text(path)))]


def compiled(root: Path, body: Planted, room: Path) -> tuple[Path | None, str]:
    """The program with a planted body, compiled in a folder of its own, or why there is none."""
    for name in ("crates.txt", "HANDLES", "wot"):
        shutil.copy(root / name, room)
    shutil.copytree(root / "crates", room / "crates", ignore=shutil.ignore_patterns("out", "must-fail"))
    crate = room / "crates" / body.crate
    texts, wrong = applied((root / body.path).read_text(encoding="utf-8"), crate)
    if wrong:
        return None, wrong
    for path, text in texts.items():
        (crate / path).write_text(text, encoding="utf-8")
    words = [str(room / "wot"), "--quick", "gen", "7", "12"]
    made = subprocess.run(words, cwd=room, capture_output=True, text=True, timeout=MINUTES * 60, check=False)
    program = room / "out/quick/wot_cli"
    return (program, "") if program.is_file() else (None, f"it can't be compiled: {last_line(made.stderr)}")


def refusal(night: Night, body: Planted) -> str:
    """What is wrong with a planted body: the empty text if its test fails over a program with it."""
    name = Path(body.path).stem
    with tempfile.TemporaryDirectory(prefix="wot-planted-", dir=night.room) as folder:
        program, wrong = compiled(night.root, body, Path(folder))
        if not program:
            return f"{body.path}: {wrong}"
        words = ["env", f"WOT_PROGRAM={program}", str(night.root / "tests/suites" / body.suite / "run"), body.test]
        _, output = night.run(f"planted-{name}", words, MINUTES / 60)
    counts = COUNTS.fullmatch(last_line(output))
    if counts and int(counts[2]) > 0:
        return ""
    return f"{body.path}: NOT REFUSED by {body.suite} {body.test}: {last_line(output)}"


def planted(night: Night) -> Part:
    """Every planted body is refused by its test."""
    found = bodies(night.root)
    if not shutil.which("rt"):
        return Part("planted", SKIPPED, "the Rattle toolchain isn't installed")
    if night.is_short:
        found = night.drawn("planted").sample(found, min(1, len(found)))
    with ThreadPoolExecutor(night.jobs) as pool:
        wrong = [line for line in pool.map(lambda body: refusal(night, body), found) if line]
    summary = f"{len(found)} planted bodies: {len(found) - len(wrong)} refused by their tests, {len(wrong)} not"
    return Part("planted", FAILED if wrong else PASSED, summary, wrong)
