"""Sequoia's library of the web of trust (`peer/`), built with Debian's own packages and run over a keyring."""

import glob
import os
import subprocess
from dataclasses import dataclass
from pathlib import Path

PEER = Path(__file__).resolve().parent / "peer"
PACKAGES = "cargo rustc librust-sequoia-wot-dev nettle-dev clang libclang-dev pkg-config debian-keyring"
REGISTRY = "/usr/share/cargo/registry/sequoia-wot-0.2*"


@dataclass(frozen=True)
class Question:
    """A keyring, the time in seconds since 1970, and the one root of the full amount."""

    keyring: str
    time: int
    root: str


# Of the package's time in Debian 12, with one of its developers as the root.
DEBIAN = Question(
    "/usr/share/keyrings/debian-keyring.gpg", 1671840000, "CEBB52301D617E910390FE16587979573442684E"
)


@dataclass(frozen=True)
class Listed:
    """What the library took: to read, to make its network (signatures are verified in it), and to list."""

    certificates: int
    bindings: int
    reached: int
    read_ms: float
    network_ms: float
    list_ms: float


def build() -> Path | None:
    """The built program, or None, with the reason printed, if it can't be built here."""
    if not glob.glob(REGISTRY) or not os.path.exists("/usr/bin/cargo"):
        print(f"Sequoia's library is left out: it needs Debian's packages {PACKAGES}")
        return None
    # Debian's own cargo and rustc, even if others come before them.
    paths = {**os.environ, "PATH": "/usr/bin:" + os.environ["PATH"]}
    words = ["cargo", "build", "--release", "--offline"]
    built = subprocess.run(words, cwd=PEER, env=paths, capture_output=True, text=True, check=False)
    if built.returncode != 0:
        print(f"Sequoia's library is left out, since {PEER} can't be built:\n{built.stderr}")
        return None
    return PEER / "out" / "release" / "peer"


def listed_by_sequoia(question: Question) -> Listed | None:
    """One list of every certified binding, or None if the library or the keyring isn't here."""
    if not os.path.exists(question.keyring):
        print(f"Sequoia's library is left out: there is no {question.keyring}")
        return None
    program = build()
    if program is None:
        return None
    words = [str(program), question.keyring, str(question.time), question.root]
    told = subprocess.run(words, capture_output=True, text=True, check=True).stdout.split()
    counts, times = [int(word) for word in told[:4]], [float(word) * 1e3 for word in told[4:7]]
    return Listed(counts[0], counts[2], counts[3], *times)
