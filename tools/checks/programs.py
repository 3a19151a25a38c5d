"""Scripts and Python modules as Debian's own tools see them: shellcheck, pyflakes3 and mypy."""

import os
import re
import shutil
import stat
import subprocess
import tempfile
from collections.abc import Iterator
from contextlib import contextmanager
from pathlib import Path

from .finding import CannotRun, Finding
from .tree import PYTHON, SHELL, Tree

PLACE = re.compile(r"^(?:\./)?(.+?):(\d+):(?:\d+:)? (.*)$", re.MULTILINE)
PACKAGE, TOOLS = "tukyamid", ("tools/checks", "tools/nights")
FOR_MYPY = "tests/suites/typing/programs/"
MODULES = ("tools", "bench", "python", "packaging", "interop/make", "interop/adapters")
# `CDPATH= cd` is meant as it stands.
SHELLCHECK = ("--format=gcc", "--exclude=SC1007")


def run(tree: Tree, words: list[str], package: str, folder: Path | None = None) -> str:
    """What a tool of Debian's prints on standard output."""
    if not shutil.which(words[0]):
        raise CannotRun(f"{words[0]} isn't installed (apt-get install {package})")
    places = {**os.environ, "MYPYPATH": ":".join(str(tree.root / place) for place in MODULES)}
    ran = subprocess.run(
        words, cwd=folder or tree.root, env=places, capture_output=True, text=True, check=False
    )
    if ran.returncode not in (0, 1):
        raise CannotRun(f"{words[0]} ended with status {ran.returncode}: {(ran.stderr or ran.stdout)[:300]}")
    return ran.stdout


def shell(tree: Tree) -> Iterator[Finding]:
    """What shellcheck says of the shell scripts."""
    scripts = tree.scripts(SHELL)
    if scripts:
        for found in PLACE.finditer(run(tree, ["shellcheck", *SHELLCHECK, *scripts], "shellcheck")):
            yield Finding(found[1], int(found[2]), found[3].removeprefix("note: "), "fix it as shellcheck says")


def python(tree: Tree) -> Iterator[Finding]:
    """What pyflakes says: imports and names that nothing uses, names that nothing defines, syntax errors.

    A line with `noqa` is as it is on purpose; the programs that the suite of types has read use names of mypy's.
    """
    scripts = [path for path in tree.scripts(PYTHON) if not path.startswith(FOR_MYPY)]
    for found in PLACE.finditer(run(tree, ["pyflakes3", *scripts], "pyflakes3")):
        lines = (tree.root / found[1]).read_text(encoding="utf-8").splitlines()
        if "# noqa" not in lines[int(found[2]) - 1]:
            yield Finding(found[1], int(found[2]), found[3], "remove or define it")


@contextmanager
def kept_cache() -> Iterator[str]:
    """A folder that mypy keeps its work in between runs, below the folder for temporary files.

    One that others may write to isn't used.
    """
    kept = Path(tempfile.gettempdir()) / f"tukyamid-mypy-{os.getuid()}"
    kept.mkdir(mode=0o700, exist_ok=True)
    found = kept.lstat()
    if stat.S_ISDIR(found.st_mode) and found.st_uid == os.getuid() and not found.st_mode & 0o022:
        yield str(kept)
        return
    with tempfile.TemporaryDirectory() as fresh:
        yield fresh


def checked_by_mypy(tree: Tree, folder: str, targets: list[str]) -> Iterator[Finding]:
    """The errors of `mypy --strict` over these files of a folder, whose settings hold if it has any."""
    present = [target for target in targets if (tree.root / folder / target).exists()]
    if not present:
        return
    with kept_cache() as cache:
        words = ["mypy", "--strict", "--scripts-are-modules", "--no-error-summary", "--no-color-output"]
        words += ["--cache-dir", cache, *present]
        told = run(tree, words, "mypy", tree.root / folder)
    for found in PLACE.finditer(told):
        if found[3].startswith("error: "):
            path = f"{folder}/{found[1]}".removeprefix("./")
            yield Finding(path, int(found[2]), found[3].removeprefix("error: "), "give it the type that it has")


def types(tree: Tree) -> Iterator[Finding]:
    """What mypy says of the package, of the tools and benches, and of the suite for any engine."""
    yield from checked_by_mypy(tree, "python", [PACKAGE])
    yield from checked_by_mypy(tree, ".", [*TOOLS, *(path for path in tree.scripts(PYTHON) if is_tool(path))])
    interop = [path.removeprefix("interop/") for path in tree.scripts(PYTHON) if path.startswith("interop/")]
    yield from checked_by_mypy(tree, "interop", [path for path in interop if not path.endswith(".py")])


def is_tool(path: str) -> bool:
    """Whether this is a program of tools or bench: a module without an ending, which mypy takes by its name."""
    return path.count("/") == 1 and path.startswith(("tools/", "bench/")) and not path.endswith(".py")
