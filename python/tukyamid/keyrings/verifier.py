"""The verifier wot-verdicts, which reads keyrings and checks their signatures: found, known by its version, and run."""

import os
import shutil
import subprocess
import tempfile
from collections.abc import Callable, Iterable, Iterator, Sequence
from pathlib import Path
from typing import IO

from ..protocol.refusals import TukyamidError
from ..protocol.replies import PendingSignature

NAME = "wot-verdicts"
_running: set[subprocess.Popen[bytes]] = set()


class VerifierFailed(TukyamidError):
    """The verifier isn't there, isn't one, or couldn't read its input."""


def find_verifier() -> list[str]:
    """The words that start the verifier: the environment's TUKYAMID_VERIFIER, else the program that this repository
    built, else `wot-verdicts` on the path."""
    named = os.environ.get("TUKYAMID_VERIFIER")
    if named:
        return [named]
    tool = Path(__file__).resolve().parents[3] / "verifier"
    built = tool / "out" / NAME
    if os.access(built, os.X_OK):
        return [str(built)]
    found = shutil.which(NAME)
    if found is None:
        hint = f"; build it with {tool / 'build'}" if (tool / "build").exists() else ""
        raise VerifierFailed(f"the verifier {NAME} isn't installed{hint}")
    return [found]


class Verifier:
    """A verifier, by the words that start it. Of secret keys it reads the public parts. `say` is called with what it
    says about what was left out, unless it says so on a terminal itself, where it also shows its progress."""

    def __init__(self, words: Sequence[str] | None = None, say: Callable[[str], None] = lambda text: None) -> None:
        self.words = list(words) if words else find_verifier()
        self._say = say
        self._version: str | None = None

    @property
    def version(self) -> str:
        """What it says of itself: its name and version. VerifierFailed if it is another program."""
        if self._version is None:
            try:
                said = subprocess.run([*self.words, "--version"], stdin=subprocess.DEVNULL, capture_output=True,
                                      timeout=60, check=False)
            except (OSError, subprocess.TimeoutExpired) as error:
                raise VerifierFailed(f"the verifier can't be started: {_reason(error)}") from None
            self._version = said.stdout.decode("utf-8", "replace").strip()
            if said.returncode or not self._version.startswith(NAME + " "):
                raise VerifierFailed(f"{self.words[0]} isn't {NAME}: it doesn't say its version")
        return self._version

    def lines(self, paths: Iterable[str]) -> Iterator[bytes]:
        """Certificates and verdicts on their signatures: lines `import` and `verdict`."""
        return self._run(["--public", "--", *paths])

    def certificates(self, paths: Iterable[str]) -> Iterator[bytes]:
        """The lines `import` alone. Nothing is verified."""
        return self._run(["--public", "--certificates", "--", *paths])

    def pending(self, paths: Iterable[str], signatures: Sequence[PendingSignature]) -> Iterator[bytes]:
        """Verdicts on these signatures alone, with the certificates of the paths as issuers."""
        listed = [f"sig {one.number} {one.fpr} {one.hint or '-'}\n" for one in signatures]
        return self._run(["--public", "--pending", "--", *paths], f"pending {len(listed)}\n{''.join(listed)}".encode())

    def _run(self, arguments: list[str], given: bytes = b"") -> Iterator[bytes]:
        self.version  # Another program's output is never taken for verdicts.
        with tempfile.TemporaryFile() as said:
            try:
                process = subprocess.Popen([*self.words, *arguments], stdin=subprocess.PIPE, stdout=subprocess.PIPE,
                                           stderr=None if os.isatty(2) else said, bufsize=1 << 20)
            except OSError as error:
                raise VerifierFailed(f"the verifier can't be started: {_reason(error)}") from None
            _running.add(process)
            try:
                yield from _written(process, given)
            finally:
                _running.discard(process)
            self._take(process.returncode, _lines_of(said))

    def _take(self, status: int, said: list[str]) -> None:
        """Takes what the verifier said until it ended. Its status 1 says that something was left out."""
        if status not in (0, 1):
            why = f": {said[-1].removeprefix(NAME + ': ')}" if said else ""
            raise VerifierFailed(f"the verifier ended with status {status}{why}")
        for line in said:
            self._say(line)


def _written(process: subprocess.Popen[bytes], given: bytes) -> Iterator[bytes]:
    """What a verifier writes, until it has ended."""
    with process:
        assert process.stdin and process.stdout
        try:
            process.stdin.write(given)  # It reads all of it before it writes.
            process.stdin.close()
        except BrokenPipeError:
            pass  # Its status says why it ended.
        yield from process.stdout


def _lines_of(file: IO[bytes]) -> list[str]:
    file.seek(0)
    return file.read().decode("utf-8", "surrogateescape").splitlines()


def end_all() -> None:
    """Ends the verifiers that are running."""
    for process in list(_running):
        process.terminate()


def _reason(error: Exception) -> str:
    return f"{error.filename}: {error.strerror}" if isinstance(error, OSError) else str(error)
