"""`rattle check --only` on a copy of a crate, over the libraries that the gate left, or else over their sources."""

import re
import shutil
import subprocess
import tempfile
from dataclasses import dataclass
from pathlib import Path

from builds.listed import LIST, listed_in
from checks.layout import formatter

SECONDS = 3600
TOLD = re.compile(r"^fn (?P<name>[^:\s]+(?:::[^:\s]+)*): (?P<what>.*)$", re.MULTILINE)


@dataclass(frozen=True)
class Kit:
    """The toolchain, and the crates below each crate."""

    rattle: Path
    crates: Path
    built: Path
    lines: dict[str, list[str]]

    @classmethod
    def of(cls, root: Path, built: Path) -> "Kit":
        listed = listed_in((root / LIST).read_text(encoding="utf-8"))
        lines = {name: libraries for name, (_, libraries) in listed.items()}
        return cls(Path(formatter()), root / "crates", built, lines)

    def below(self, crate: str) -> list[str]:
        """The repository's crates that this one stands on, each once."""
        found: list[str] = []
        for each in self.lines[crate]:
            if each in self.lines:
                found += [name for name in [*self.below(each), each] if name not in found]
        return found

    def words(self, crate: str) -> list[str]:
        """The words of a check of this crate, without the functions."""
        kit = self.rattle.parent.parent
        below = self.below(crate)
        others = {"std", *(name for each in [crate, *below] for name in self.lines[each] if name not in self.lines)}
        root = "src/main.rt" if (self.crates / crate / "src/main.rt").exists() else "src/lib.rt"
        words = ["--crate-name", crate, root, "-L", f"dependency={kit}/rlibs"]
        for name in sorted(others):
            words += ["--extern", f"{name}={kit}/rlibs/{name}.rlib"]
        for name in below:
            folder = self.built / name / "out/rlib"
            if (folder / f"{name}.rlib/format").exists():
                words += ["--extern", f"{name}={folder}/{name}.rlib", "-L", f"dependency={folder}"]
            else:
                uses = ",".join(["std", *self.lines[name]])
                words += ["--lib", f"{name}:{uses}={self.crates / name}/src/lib.rt"]
        project = kit / "rattle/logic/antt-project.json"
        return [*words, "--antt-project", str(project), "--logic-built", str(kit / "logic_built"), "--jobs", "1"]

    def check(self, crate: str, texts: dict[str, str], functions: list[str], kept: Path) -> tuple[int, str]:
        """Checks these functions, or the whole crate if there are none, with these texts in place of its own. What the
        folder has kept of earlier checks of the crate isn't checked again."""
        with tempfile.TemporaryDirectory(prefix="wot-edit-") as room:
            for part in ("src", "specs", "proofs"):
                if (self.crates / crate / part).is_dir():
                    shutil.copytree(self.crates / crate / part, Path(room) / part)
            for path, text in texts.items():
                (Path(room) / path).write_text(text, encoding="utf-8")
            only = [word for name in functions for word in ("--only", name)]
            words = [str(self.rattle), "check", *self.words(crate), "--incremental", str(kept), *only]
            try:
                ran = subprocess.run(
                    words, cwd=room, stdin=subprocess.DEVNULL, stdout=subprocess.PIPE, stderr=subprocess.STDOUT,
                    errors="replace", text=True, timeout=SECONDS, check=False,
                )
            except subprocess.TimeoutExpired:
                return -1, f"no verdict within {SECONDS} seconds"
        return ran.returncode, ran.stdout


def verdicts(output: str) -> dict[str, str]:
    """What a check says of each function: 'proved', 'not proved', 'no proof' or more."""
    return {found["name"]: found["what"] for found in TOLD.finditer(output)}
