"""The engines that the suite asks: each by an adapter, a program that reads cases and writes answers (README.md)."""

from __future__ import annotations

import json
import os
import selectors
import subprocess
import time
from concurrent.futures import ThreadPoolExecutor
from dataclasses import dataclass
from pathlib import Path
from typing import Any

from case_files import HERE, Path_, paths_of

ADAPTERS = HERE / "adapters"
SECONDS = float(os.environ.get("INTEROP_SECONDS") or 300)
LONGEST = 1 << 26


@dataclass(frozen=True)
class Answer:
    """What an engine says about a case: the least and the greatest amount that its answer can mean, and its paths if it
    shows them. Or why it has no answer: the case asks for what the engine doesn't have, or the adapter failed."""

    least: int = 0
    most: int = 0
    paths: tuple[Path_, ...] | None = None
    unsupported: str = ""
    failed: str = ""

    @property
    def is_answer(self) -> bool:
        return not self.unsupported and not self.failed


def answer_of(line: bytes) -> Answer:
    """The answer that an adapter wrote as a line."""
    try:
        value = json.loads(line)
        if "unsupported" in value:
            return Answer(unsupported=str(value["unsupported"]) or "no reason is given")
        if "error" in value:
            return Answer(failed=str(value["error"]) or "no reason is given")
        least = value["amount"]
        most = value.get("most", least)
        if not (type(least) is int and type(most) is int and 0 <= least <= most):
            raise ValueError("the amount isn't a number")
        return Answer(least, most, paths_of(value.get("paths")))
    except (ValueError, KeyError, TypeError):
        return Answer(failed=f"it wrote {line[:80].decode('utf-8', 'replace')!r}, which is no answer")


class Missing(Exception):
    """An engine isn't on this machine, with what its adapter says."""


class Adapter:
    """A running adapter. It is started with the first case, and again after it failed."""

    def __init__(self, program: Path) -> None:
        self._program = program
        self._process: subprocess.Popen[bytes] | None = None
        self._read = b""

    def ask(self, asked: dict[str, Any]) -> Answer:
        """The answer to a case."""
        text = json.dumps(asked, ensure_ascii=False).encode() + b"\n"
        try:
            process = self._running()
            assert process.stdin is not None
            process.stdin.write(text)
            process.stdin.flush()
            return answer_of(self._line(process))
        except (OSError, EOFError, TimeoutError) as error:
            self.end()
            return Answer(failed=f"the adapter {error}")

    def _running(self) -> subprocess.Popen[bytes]:
        if self._process is None:
            self._process = subprocess.Popen([self._program], stdin=subprocess.PIPE, stdout=subprocess.PIPE)
            self._read = b""
        return self._process

    def _line(self, process: subprocess.Popen[bytes]) -> bytes:
        """The next line that the adapter writes."""
        assert process.stdout is not None
        until = time.monotonic() + SECONDS
        with selectors.DefaultSelector() as ready:
            ready.register(process.stdout, selectors.EVENT_READ)
            while b"\n" not in self._read:
                if not ready.select(max(0.0, until - time.monotonic())):
                    raise TimeoutError(f"wrote no line within {SECONDS:.0f} seconds (it has to flush each answer)")
                piece = os.read(process.stdout.fileno(), 1 << 16)
                if not piece:
                    raise EOFError("ended without an answer")
                self._read += piece
                if len(self._read) > LONGEST:
                    raise EOFError("wrote an endless line")
        line, _, self._read = self._read.partition(b"\n")
        return line

    def end(self) -> None:
        """Ends the adapter."""
        if self._process is not None:
            self._process.kill()
            self._process.communicate()
            self._process = None


@dataclass(frozen=True)
class Engine:
    """An engine on this machine: its name, its adapter, and what the adapter says of the version."""

    name: str
    program: Path
    version: str

    def ask_all(self, asked: list[dict[str, Any]], jobs: int) -> list[Answer]:
        """The answers to these cases in order, by as many adapters at a time as there are jobs."""
        parts = [asked[start::jobs] for start in range(jobs)]
        with ThreadPoolExecutor(jobs) as pool:
            told = list(pool.map(self._ask_part, parts))
        return [told[at % jobs][at // jobs] for at in range(len(asked))]

    def _ask_part(self, asked: list[dict[str, Any]]) -> list[Answer]:
        adapter = Adapter(self.program)
        try:
            return [adapter.ask(one) for one in asked]
        finally:
            adapter.end()


def names() -> list[str]:
    """The adapters that come with the suite, in the order of the columns."""
    files = (file for file in ADAPTERS.iterdir() if file.is_file() and os.access(file, os.X_OK))
    return sorted((file.name for file in files), key=lambda name: (name != "tukyamid", name))


def find(name: str) -> Engine:
    """An engine by the name of its adapter, or by the path of an adapter of your own. Missing if it isn't here."""
    program = Path(name).resolve() if "/" in name else ADAPTERS / name
    if not os.access(program, os.X_OK) or not program.is_file():
        raise Missing(f"there is no adapter {program}; those of the suite are {' '.join(names())}")
    try:
        said = subprocess.run([program, "--version"], stdin=subprocess.DEVNULL, capture_output=True, text=True,
                              timeout=3600, check=False)
    except (OSError, subprocess.TimeoutExpired) as error:
        raise Missing(f"the adapter can't be run: {error}") from None
    if said.returncode or not said.stdout.strip():
        why = said.stderr.strip().splitlines()
        raise Missing(why[-1] if why else f"its adapter ended with status {said.returncode}")
    return Engine(program.name, program, said.stdout.strip().splitlines()[0])
