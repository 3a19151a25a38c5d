"""What the suites need from the machine, seen to once before the first of them: Debian's packages, and the verifier.

The packages are in packages.txt. root installs those that are missing, by apt-get, unless WOT_NO_APT is set; otherwise
one command is named that does it, and what needs them is skipped.
"""

import os
import shlex
import shutil
import subprocess
import time
from collections.abc import Iterator
from pathlib import Path

TESTS = Path(__file__).resolve().parent
ROOT = TESTS.parent
LIST = TESTS / "packages.txt"
OF_THE_VERIFIER = "verifier/build"
INSTALL = ["apt-get", "-o", "DPkg::Lock::Timeout=300", "install", "--no-install-recommends"]


def prepare(suites: list[str]) -> None:
    """Has these suites find what they need, and says what is done and how long it took."""
    lacking = missing(wanted(suites))
    if lacking and may_install():
        install(lacking)
        lacking = missing(lacking)
    if lacking:
        print("== packages are missing, and what needs them is skipped. As root:", *INSTALL[:1], *INSTALL[3:], *lacking,
              flush=True)
    if any(suite in words for line, words in entries() if line.startswith(OF_THE_VERIFIER) for suite in suites):
        build_verifier()


def entries() -> Iterator[tuple[str, list[str]]]:
    """The lines of the list: a package, or a program that names some; and the suites that use them."""
    for line in LIST.read_text(encoding="utf-8").splitlines():
        if line and not line.startswith("#"):
            name, _, suites = line.partition(":")
            yield name, suites.split()


def wanted(suites: list[str]) -> list[str]:
    """The packages that these suites use."""
    names: dict[str, None] = {}
    for name, users in entries():
        if set(users).intersection(suites):
            names |= dict.fromkeys(named_by(name) if "/" in name else [name])
    return list(names)


def named_by(command: str) -> list[str]:
    """The packages that a program of the repository names."""
    program, *words = shlex.split(command)
    return subprocess.run([ROOT / program, *words], check=True, capture_output=True, text=True).stdout.split()


def missing(packages: list[str]) -> list[str]:
    """Those of these packages that aren't installed. Without dpkg-query nobody can say, so none is."""
    if not packages or not shutil.which("dpkg-query"):
        return []
    said = subprocess.run(["dpkg-query", "-W", "-f", "${Package} ${Status}\n", *packages], check=False,
                          capture_output=True, text=True).stdout
    there = {line.split()[0] for line in said.splitlines() if line.endswith(" install ok installed")}
    return [name for name in packages if name not in there]


def may_install() -> bool:
    """Whether packages may be installed here: by root, where apt-get is there and nobody forbids it."""
    return os.geteuid() == 0 and not os.environ.get("WOT_NO_APT") and shutil.which("apt-get") is not None


def install(packages: list[str]) -> None:
    """Installs packages. What apt-get says is shown as it comes."""
    print(f"== packages: installing {len(packages)}: {' '.join(packages)}", flush=True)
    begun = time.monotonic()
    environment = {**os.environ, "DEBIAN_FRONTEND": "noninteractive"}
    words = [*INSTALL, "--yes", "--quiet", *packages]
    if subprocess.run(words, check=False, stdin=subprocess.DEVNULL, env=environment).returncode != 0:
        subprocess.run(["apt-get", "update", "--quiet"], check=False, stdin=subprocess.DEVNULL, env=environment)
        subprocess.run(words, check=False, stdin=subprocess.DEVNULL, env=environment)
    print(f"== packages: {time.monotonic() - begun:.0f} seconds", flush=True)


def build_verifier() -> None:
    """Builds the verifier, unless TUKYAMID_VERIFIER names one; it says itself what it does, and what it lacks."""
    if not os.environ.get("TUKYAMID_VERIFIER"):
        subprocess.run([ROOT / OF_THE_VERIFIER], check=False, stdin=subprocess.DEVNULL)
