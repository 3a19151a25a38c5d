"""What a whole night needs from the machine, said before it begins: hours later it is too late to install it."""

import shutil
from pathlib import Path

KEYRING = Path("/usr/share/keyrings/debian-keyring.gpg")
# Programs and the packages of Debian 12 that have them.
PROGRAMS = {
    "etcd": "etcd-server", "gcc": "gcc", "git": "git", "gpg": "gnupg", "gpgv": "gpgv", "groff": "groff-base",
    "mypy": "mypy", "patroni": "patroni", "pg_ctlcluster": "postgresql", "pyflakes3": "pyflakes3",
    "shellcheck": "shellcheck", "sq": "sq", "sqv": "sqv",
}
SEQUOIA = Path("/usr/share/cargo/registry")


def missing_packages() -> list[str]:
    """The packages without which a part is skipped or left out."""
    missing = {package for program, package in PROGRAMS.items() if not shutil.which(program)}
    if not KEYRING.exists():
        missing.add("debian-keyring")
    if not any(SEQUOIA.glob("sequoia-wot-0.2*")):
        missing.add("librust-sequoia-wot-dev")
    return sorted(missing)


def advice(missing: list[str]) -> str:
    """A line for who begins the night; the empty text if nothing is missing."""
    if not missing:
        return ""
    return f"parts will be skipped; for a whole night: apt-get install --no-install-recommends {' '.join(missing)}"
