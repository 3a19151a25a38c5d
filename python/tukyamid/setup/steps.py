"""The steps that have a program ask Tukyamid. Each can be shown, done, and undone; what else a file holds stays."""

import os
import shutil
import subprocess
from pathlib import Path
from typing import Protocol

from ..command.exit_statuses import NoAnswer
from ..output_files import Output
from .gpg_program import make_names

_MARK = "tukyamid setup"


class Step(Protocol):
    """A step."""

    def shown(self) -> str:
        """What it sets, and where, for people."""

    def is_done(self) -> bool:
        """Whether it is in force."""

    def do(self) -> None:
        """Does it; nothing if it is done."""

    def undo(self) -> None:
        """Undoes it; nothing if it isn't done."""


class GitSetting:
    """A setting of git's, in the user's configuration. A value that it had before is kept under another name, and comes
    back when it is undone."""

    def __init__(self, name: str, value: str) -> None:
        self._name, self._value = name, value
        self._before = f"tukyamid.{name.replace('.', '-')}-before"

    def shown(self) -> str:
        return f"git config --global {self._name} {self._value}"

    def is_done(self) -> bool:
        return self._get(self._name) == self._value

    def do(self) -> None:
        before = self._get(self._name)
        if before not in (None, self._value):
            self._set(self._before, str(before))
        self._set(self._name, self._value)

    def undo(self) -> None:
        if not self.is_done():
            return
        before = self._get(self._before)
        if before is None:
            self._git("--unset-all", self._name)
        else:
            self._set(self._name, before)
            self._git("--unset-all", self._before)

    def _get(self, name: str) -> str | None:
        found = self._git("--get", name)
        return found.stdout.removesuffix("\n") if found.returncode == 0 else None

    def _set(self, name: str, value: str) -> None:
        done = self._git("--replace-all", name, value)
        if done.returncode:
            raise NoAnswer(f"git config: {done.stderr.strip()}")

    def _git(self, *words: str) -> "subprocess.CompletedProcess[str]":
        return subprocess.run(["git", "config", "--global", *words], capture_output=True, text=True, timeout=60,
                              stdin=subprocess.DEVNULL, check=False)


class DesktopSetting:
    """A setting of the user's desktop, which is empty as long as nobody has set it."""

    def __init__(self, schema: str, key: str, value: str) -> None:
        self._place, self._value = (schema, key), value

    def shown(self) -> str:
        return f"gsettings set {' '.join(self._place)} {self._value}"

    def is_done(self) -> bool:
        return self._get() == self._value

    def do(self) -> None:
        before = self._get()
        if before not in ("", self._value):
            raise NoAnswer(f"{' '.join(self._place)} is {before}: gsettings reset {' '.join(self._place)}")
        self._run("set", self._value)
        # Without a session's bus the setting is lost, and gsettings says so only in words.
        if not self.is_done():
            raise NoAnswer(f"{self.shown()}: the setting isn't kept; set it in a session of the desktop")

    def undo(self) -> None:
        if self.is_done():
            self._run("reset")

    def _get(self) -> str:
        return self._run("get").strip().strip("'")

    def _run(self, verb: str, *words: str) -> str:
        if shutil.which("gsettings") is None:
            raise NoAnswer("gsettings isn't installed: apt install libglib2.0-bin")
        session = os.environ.get("XDG_RUNTIME_DIR")
        if session and not os.path.isdir(session):  # gsettings would make it, even to look.
            raise NoAnswer(f"XDG_RUNTIME_DIR names {session}, which isn't there")
        done = subprocess.run(["gsettings", verb, *self._place, *words], capture_output=True, text=True, timeout=60,
                              stdin=subprocess.DEVNULL, check=False)
        if done.returncode:
            raise NoAnswer(f"gsettings: {done.stderr.strip()}")
        return done.stdout


class Lines:
    """Lines in a file, between two marks. `comment` begins a comment there. A file of its own (`is_own`) is removed
    when they are. `names` is the folder of gpg's names, if the lines lead to it."""

    def __init__(self, path: Path, lines: tuple[str, ...], comment: str, is_own: bool = False, mode: int = 0o644,
                 names: Path | None = None) -> None:
        self.path, self._lines, self._comment = path, lines, comment
        self._is_own, self._mode, self.names = is_own, mode, names

    def shown(self) -> str:
        return f"in {self.path}:\n" + "\n".join(f"    {line}" for line in self._lines)

    def is_done(self) -> bool:
        return self._block() in self._text()

    def do(self) -> None:
        if self.names is not None:
            make_names(self.names)
        if not self.is_done():
            text = self._without()
            is_first = text.startswith("#!") or not text or text.endswith("\n")
            self._write(text + ("" if is_first else "\n") + self._block())

    def undo(self) -> None:
        text = self._text()
        left = self._without()
        if left != text and self._is_own and not left.strip():
            self.path.unlink()
        elif left != text:
            self._write(left)

    def _block(self) -> str:
        first, last = f"{self._comment} {_MARK}: begin\n", f"{self._comment} {_MARK}: end\n"
        return first + "".join(line + "\n" for line in self._lines) + last

    def _without(self) -> str:
        """The text without the lines between the marks. NoAnswer if a mark is alone."""
        first, last = f"{self._comment} {_MARK}: begin\n", f"{self._comment} {_MARK}: end\n"
        front, begun, rest = self._text().partition(first)
        if not begun:
            return front
        _, ended, behind = rest.partition(last)
        if not ended:
            raise NoAnswer(f"{self.path} has the line {first.strip()!r} without {last.strip()!r}: mend it by hand")
        return front + behind

    def _text(self) -> str:
        try:
            return self.path.read_text(encoding="utf-8", errors="surrogateescape")
        except FileNotFoundError:
            return ""

    def _write(self, text: str) -> None:
        is_new = not self.path.exists()
        self.path.parent.mkdir(parents=True, exist_ok=True)
        with Output(str(self.path)) as output:
            output.write([text.encode("utf-8", "surrogateescape")])
            if is_new:
                os.chmod(output.path, self._mode)
            output.keep()


class Wrapper(Lines):
    """A program of the same name, before the real one on PATH, that has tukyamid's names first on PATH. It says who
    asks: a program that asks through GPGME isn't among those that started gpg."""

    def __init__(self, path: Path, real: str, names: Path) -> None:
        line = f'PATH={names}:"$PATH" TUKYAMID_CALLER={path.name} exec {real} "$@"'
        super().__init__(path, (line,), "#", is_own=True, mode=0o755, names=names)
        self.folder = names

    def do(self) -> None:
        if self._text() and not self.is_done() and self._without().strip() not in ("", "#!/bin/sh"):
            raise NoAnswer(f"{self.path} is there already, and isn't of tukyamid setup")
        super().do()

    def _block(self) -> str:
        return "#!/bin/sh\n" + super()._block()

    def _without(self) -> str:
        return super()._without().removeprefix("#!/bin/sh\n")
