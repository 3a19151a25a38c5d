"""Each request for memory of random scripts is refused in turn: status 5 after whole replies, or the whole transcript.

The suite `memory` does the same over scripts of its own; its library that refuses stands between the program and the C
library.
"""

import os
import shutil
import subprocess
import sys
import tempfile
from dataclasses import dataclass
from pathlib import Path

from .night import FAILED, PASSED, SKIPPED, Night, Part

MOST = 200000
SECONDS = 120


@dataclass(frozen=True)
class Refuser:
    """A program under a library that refuses some of its requests for memory."""

    library: Path
    program: Path
    folder: Path

    def run(self, script: bytes, first: int, last: int) -> tuple[int, bytes, int]:
        """The status, the output, and how many requests were refused."""
        ours, theirs = os.pipe()
        told = {"LD_PRELOAD": str(self.library), "REFUSE_TELL": str(theirs)}
        told |= {"REFUSE_FIRST": str(first), "REFUSE_LAST": str(last)}
        with open(ours, "rb") as refused:
            ended = subprocess.run(
                [self.program, "run", str(self.folder)], input=script, capture_output=True, env=told,
                pass_fds=[theirs], timeout=SECONDS, check=False,
            )
            os.close(theirs)
            return ended.returncode, ended.stdout, len(refused.read())


def replies_of(script: bytes, night: Night) -> list[bytes]:
    """The model's reply to each line, over an empty certificate directory."""
    sys.path.insert(0, str(night.root / "model"))
    from wot_model.machine import Machine  # type: ignore[import]
    from wot_model.script import lines_of  # type: ignore[import]
    from wot_model.shelf import MemoryShelf  # type: ignore[import]

    machine = Machine(shelf=MemoryShelf({}))
    return ["".join(reply + "\n" for reply in machine.line(line)).encode() for line in lines_of(script)]


def script_of(seed: int, night: Night) -> bytes:
    sys.path.insert(0, str(night.root / "model"))
    from wot_model import generate  # type: ignore[import]

    script: bytes = generate.script(seed)[0]
    return b"".join(line for line in script.splitlines(keepends=True) if not line.startswith((b"load", b"store")))


def refused_in_turn(refuser: Refuser, script: bytes, replies: list[bytes], most: int) -> tuple[int, list[str]]:
    """How many requests were refused, and what was wrong after one."""
    beginnings = {b"".join(replies[:count]) for count in range(len(replies) + 1)}
    whole = b"".join(replies)
    wrong: list[str] = []
    for first in range(1, most):
        try:
            status, written, count = refuser.run(script, first, first)
        except subprocess.TimeoutExpired:
            return first, [*wrong, f"request {first}: no end within {SECONDS} seconds"]
        if count == 0:
            return first - 1, wrong
        if not (status == 0 and written == whole or status == 5 and written in beginnings):
            wrong.append(f"request {first}: status {status} after {len(written)} octets of {len(whole)}")
    return most - 1, wrong


def memory(night: Night) -> Part:
    """Each allocation of random scripts is refused."""
    if not shutil.which("gcc"):
        return Part("memory", SKIPPED, "gcc isn't installed")
    draw, wrong, requests = night.drawn("memory"), [], 0
    seeds = [draw.randrange(10**9) for _ in range(night.size(12, 1))]
    with tempfile.TemporaryDirectory() as room:
        library, source = Path(room) / "refuse.so", night.root / "tests/suites/memory/refuse.c"
        subprocess.run(["gcc", "-O1", "-shared", "-fPIC", "-o", library, source], check=True, capture_output=True)
        (Path(room) / "pgp.cert.d").mkdir()
        refuser = Refuser(library, night.programs[0], Path(room) / "pgp.cert.d")
        for seed in seeds:
            script = script_of(seed, night)
            count, lines = refused_in_turn(refuser, script, replies_of(script, night), night.size(MOST, 60))
            requests += count
            wrong += [f"seed {seed}: {line}" for line in lines]
    summary = f"{requests} requests refused, each in turn, over {len(seeds)} scripts (seeds {seeds[0]} ..)"
    return Part("memory", FAILED if wrong else PASSED, summary, wrong)
