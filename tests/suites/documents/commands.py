"""The commands that a document shows, and how a test runs them.

In a block `sh` each line is a command. In a block `console` a line `$ ..` is a command, and the lines up to the next
one are what it prints; a line `...` stands for any lines. A line that ends with a backslash goes on in the next one.

Commands run in a folder of links to the repository's files, where `./wot` is the program that is tested. Commands that
can't be run here stand in a table with the reason; the test only checks that they exist.
"""

import re
import shlex
import subprocess
import tempfile
from collections.abc import Iterator
from contextlib import contextmanager
from dataclasses import dataclass
from pathlib import Path

from pages import PROGRAM, ROOT, Page

# Pages whose commands are run here.
PAGES = [
    "README.md", "CONTRIBUTING.md", "docs/PROTOCOL.md", "docs/PROFILE.md", "docs/PROOF.md", "docs/ARCHITECTURE.md",
    "docs/CHANGING.md", "docs/SEARCH.md", "docs/READING-PROOFS.md", "docs/SERVICE.md", "docs/INSTALL.md",
    "model/README.md", "tests/README.md", "python/README.md", "verifier/README.md",
]
# The other pages that show commands, and why these aren't run here.
OTHER_PAGES = {
    "docs/USING.md": "the suite `python` runs them in their order, and the suite `web` those of the page",
    "docs/SPEED.md": "benches take minutes; the suite `tools` runs what reads their records",
    "docs/SCALE.md": "a network of a million certificates takes minutes; the suite `slices` makes a small one",
    "docs/CLIENTS.md": "the suite `gpg` runs git and the other programs below `tukyamid-gpg`",
    "docs/PUBLIC.md": "needs root and the host's directories: the suite `public` runs them with some of its own",
    "docs/CLUSTER.md": "needs servers on several machines; the suite `shared` starts such servers here",
    "interop/README.md": "the engines take minutes; the suite `interop` runs it with engines of its own",
}
# The beginnings of commands that aren't run, and why.
NOT_RUN = {
    ".ci/run": "proves everything",
    "tests/run": "runs every suite, this one too",
    "WOT_PROGRAM=/some/other/program tests/run": "runs every suite, this one too",
    "rt ": "proves",
    "tools/try-edits": "proves",
    "sudo ": "changes the machine",
    "apt": "changes the machine",
    "verifier/build": "may install packages",
    "sha256sum --check": "needs built packages: the suite `packages` checks their sums",
    "python/bin/tukyamid-server --socket": "stays, as a service does: the suite `server` starts it",
    "socat ": "needs a service that runs: the suite `server` asks one",
    "until [": "waits for a service that isn't started here",
    "python/bin/tukyamid --keyring": "has words that stand for others: the suite `python` asks so",
    "python/bin/check-claims": "has words that stand for others: the suite `python` checks claims",
    "verifier/out/wot-verdicts": "needs the built verifier: the suite `verdicts` runs it",
    "wot-verdicts": "needs the built verifier: the suites `verdicts` and `verify` run it",
    "(cat ": "needs what the verifier wrote: the suite `verdicts` goes this way",
}
# The command `tukyamid` is run by the suites `python` and `packages`, as these pages show it.
OF_ANOTHER_SUITE = ("tukyamid ", "python/bin/tukyamid ")
ITS_PAGES = ("docs/USING.md", "docs/INSTALL.md")


@dataclass(frozen=True)
class Shown:
    """A command of a page, and what the page shows of its output; None if it shows nothing."""

    page: str
    line: int
    command: str
    output: tuple[str, ...] | None

    @property
    def reason(self) -> str | None:
        """Why it isn't run, if it isn't."""
        reasons = (why for begins, why in NOT_RUN.items() if self.command.startswith(begins))
        return next(reasons, None)


def shown_in(document: Page) -> Iterator[Shown]:
    for block in document.blocks:
        if block.word == "sh":
            for at, command in commands_of(block.lines, block.line):
                yield Shown(document.name, at, command, None)
        elif block.word == "console":
            yield from exchanges_of(document.name, block.lines, block.line)


def commands_of(lines: tuple[str, ...], begun: int) -> Iterator[tuple[int, str]]:
    """Each command, with lines joined and without its comment; several lines of a compound command are one."""
    held = ""
    for at, line in enumerate(lines, begun + 1):
        held += line[:-1].rstrip() + " " if line.endswith("\\") else line
        if not line.endswith("\\"):
            command = re.sub(r"\s+# .*$", "", held).strip()
            if command and not command.startswith("#"):
                yield at, command
            held = ""


def exchanges_of(name: str, lines: tuple[str, ...], begun: int) -> Iterator[Shown]:
    starts = [at for at, line in enumerate(lines) if line.startswith("$ ")]
    for at, end in zip(starts, [*starts[1:], len(lines)]):
        yield Shown(name, begun + 1 + at, lines[at][2:], lines[at + 1 : end])


@contextmanager
def workshop() -> Iterator[Path]:
    """A folder with the repository's files, in which `./wot` is the tested program, and a home."""
    with tempfile.TemporaryDirectory() as folder:
        top = Path(folder) / "repository"
        top.mkdir()
        for path in ROOT.iterdir():
            if path.name not in {"wot", ".git", "out"}:
                (top / path.name).symlink_to(path)
        (top / "wot").write_text(f'#!/bin/sh\n[ "$1" != --quick ] || shift\nexec {shlex.quote(str(PROGRAM))} "$@"\n')
        (top / "wot").chmod(0o755)
        (top / "backup").mkdir()
        yield top


def run(command: str, top: Path) -> subprocess.CompletedProcess[str]:
    environment = {"PATH": "/usr/local/bin:/usr/bin:/bin", "HOME": str(top.parent), "LC_ALL": "C.UTF-8",
                   "WOT_PROGRAM": str(PROGRAM), "WOT_ROOT": str(ROOT), "PYTHONDONTWRITEBYTECODE": "1"}
    # What the packages install, and a folder for backups of its own.
    environment |= {"PATH": f"{top}/python/bin:{environment['PATH']}", "TUKYAMID_ENGINE": str(PROGRAM)}
    command = command.replace("/backup/", f"{top}/backup/")
    words = ["bash", "-e", "-o", "pipefail", "-c", command]
    return subprocess.run(words, cwd=top, env=environment, stdin=subprocess.DEVNULL, capture_output=True, text=True,
                          timeout=300, check=False)


def matches(shown: tuple[str, ...], printed: list[str]) -> bool:
    """Whether this was printed; a line `...` of what is shown stands for any lines."""
    pattern = "\n".join("(?:.*\n?)*?" if line.strip() == "..." else re.escape(line) for line in shown)
    return re.fullmatch(pattern, "\n".join(printed)) is not None
