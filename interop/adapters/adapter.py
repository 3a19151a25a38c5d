"""What the adapters in Python share: reading cases, writing answers, and a case's certificates as files.

    serve(version, answer)     `version()` returns the engine and its version; `answer(case)` returns the answer
    CannotAsk                  raised by either: the engine isn't here, or has no way to ask what the case asks
"""

from __future__ import annotations

import base64
import json
import os
import shutil
import subprocess
import sys
import tempfile
from collections.abc import Callable, Iterator
from contextlib import contextmanager
from pathlib import Path
from typing import Any

Case = dict[str, Any]
Words = list[str | Path]
SECONDS = 280


class CannotAsk(Exception):
    """Why the engine can't be asked, as a sentence."""


def cases() -> Iterator[Case]:
    """The cases of standard input: one a line, or one that takes several lines."""
    text = ""
    for line in sys.stdin:
        text += line
        if line.rstrip().endswith("}"):
            try:
                case = json.loads(text)
            except ValueError:
                continue  # It goes on in the next line.
            text = ""
            yield case
    if text.strip():
        sys.exit("standard input ends within a case")


def serve(version: Callable[[], str], answer: Callable[[Case], Case]) -> None:
    """Answers each case as soon as it is read, or prints the version for the word --version."""
    if sys.argv[1:] == ["--version"]:
        try:
            print(version())
        except (CannotAsk, OSError, subprocess.SubprocessError) as error:
            sys.exit(str(error))
        return
    for case in cases():
        try:
            answered = answer(case)
        except CannotAsk as error:
            answered = {"unsupported": str(error)}
        except subprocess.TimeoutExpired:
            answered = {"error": f"the engine took more than {SECONDS} seconds"}
        print(json.dumps(answered, ensure_ascii=False), flush=True)


def program(variable: str, name: str) -> str:
    """The engine's program: what this variable of the environment names, else the one in PATH."""
    found = os.environ.get(variable) or shutil.which(name)
    if not found:
        raise CannotAsk(f"{name} isn't installed, and {variable} names no other")
    return found


def run(words: Words, **options: Any) -> subprocess.CompletedProcess[bytes]:
    """Runs a program, and returns what it printed."""
    return subprocess.run(words, stdin=subprocess.DEVNULL, capture_output=True, timeout=SECONDS, check=False, **options)


@contextmanager
def files(case: Case) -> Iterator[tuple[Path, list[Path]]]:
    """A temporary folder, and in it a file for each certificate of a case."""
    with tempfile.TemporaryDirectory(prefix="interop-") as name:
        folder = Path(name)
        for at, one in enumerate(case["certificates"]):
            (folder / f"{at}.pgp").write_bytes(base64.b64decode(one))
        yield folder, [folder / f"{at}.pgp" for at in range(len(case["certificates"]))]


def user_id(case: Case) -> bytes:
    """The user ID that a case asks about."""
    question: dict[str, str] = case["question"]
    return bytes.fromhex(question["user_id_hex"]) if "user_id_hex" in question else question["user_id"].encode()


def user_id_as_text(case: Case) -> str:
    """The user ID, for a program that takes it as an argument."""
    try:
        text = user_id(case).decode()
    except UnicodeDecodeError:
        raise CannotAsk("the user ID isn't UTF-8, and can't be an argument") from None
    if "\0" in text:
        raise CannotAsk("the user ID has a NUL, and can't be an argument")
    return text


def wanted(case: Case) -> int:
    """The amount that a case asks for."""
    return int(case["question"].get("amount", 120))


def roots(case: Case) -> list[tuple[str, int]]:
    """The roots of a case with their amounts. One of amount 0 is no root."""
    return [(one["fingerprint"], one["amount"]) for one in case["roots"] if one["amount"] > 0]
