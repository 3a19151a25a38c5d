"""The files that the rules read: what git tracks, or would track, below one folder."""

import os
import subprocess
from functools import cached_property
from pathlib import Path

LEFT_OUT = {".git", "out", "__pycache__", ".mypy_cache"}
PYTHON = "python"
SHELL = "shell"
SHELLS = ("sh", "bash", "dash")


class Tree:
    """A checkout, or a copy of one without git's folder."""

    def __init__(self, root: Path) -> None:
        self.root = root.resolve()
        self._texts: dict[str, str] = {}

    @cached_property
    def files(self) -> list[str]:
        """The paths of all files, relative to the root, in order."""
        if (self.root / ".git").exists():
            words = ["git", "ls-files", "--cached", "--others", "--exclude-standard"]
            listed = subprocess.run(words, cwd=self.root, capture_output=True, text=True, check=True).stdout
            return sorted({name for name in listed.splitlines() if (self.root / name).is_file()})
        return sorted(self._walked())

    def _walked(self) -> list[str]:
        found: list[str] = []
        for at, folders, names in os.walk(self.root):
            folders[:] = [name for name in folders if name not in LEFT_OUT]
            found += [str((Path(at) / name).relative_to(self.root)) for name in names]
        return found

    def text(self, path: str) -> str:
        """A file's text, or the empty text if it isn't UTF-8."""
        if path not in self._texts:
            try:
                self._texts[path] = (self.root / path).read_text(encoding="utf-8")
            except UnicodeDecodeError:
                self._texts[path] = ""
        return self._texts[path]

    def ending(self, *endings: str) -> list[str]:
        """The files whose names end so."""
        return [path for path in self.files if path.endswith(endings)]

    def crates(self, *endings: str) -> list[str]:
        """The files of the crates whose names end so."""
        return [path for path in self.ending(*endings) if path.startswith("crates/")]

    def documents(self) -> list[str]:
        """The pages that people read."""
        return self.ending(".md")

    def scripts(self, language: str) -> list[str]:
        """The programs and modules in a language, by their endings and their first lines."""
        return [path for path in self.files if self.language(path) == language]

    def language(self, path: str) -> str:
        """The language of a program or module, or the empty text."""
        if path.endswith(".py"):
            return PYTHON
        if path.endswith(".sh"):
            return SHELL
        if Path(path).suffix or path.startswith("crates/"):
            return ""
        with open(self.root / path, "rb") as file:
            begin = file.readline(80)
        if not begin.startswith(b"#!"):
            return ""
        words = begin[2:].decode("ascii", "replace").split()
        program = Path(words[-1] if words[0].endswith("/env") else words[0]).name
        return PYTHON if program.startswith("python") else SHELL if program in SHELLS else ""

    def exists(self, path: str) -> bool:
        return (self.root / path).exists()


def line_of(text: str, start: int) -> int:
    """The number of the line with this character."""
    return text.count("\n", 0, start) + 1
