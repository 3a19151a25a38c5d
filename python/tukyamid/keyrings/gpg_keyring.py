"""gpg's own keyring: where it is, and what gpg prints of it. gpg creates a missing home directory and a missing
keyring, so it is only run if both are there."""

import os
import subprocess
from collections.abc import Iterable

_FILES = ("pubring.kbx", "pubring.gpg", "public-keys.d/pubring.db")
_EXPORT = ("--export", "--export-options", "export-local-sigs")
_SECONDS = 120


class GpgFailed(Exception):
    """gpg isn't there, or didn't do what it was asked to; the text says why."""


def home_directory() -> str:
    """The home directory of whoever runs this, whether or not it is there."""
    return os.path.abspath(os.environ.get("GNUPGHOME") or os.path.expanduser("~/.gnupg"))


def possible_files(home: str) -> list[str]:
    """The files in which gpg may have its keyring."""
    return [os.path.join(home, name) for name in _FILES]


def existing_files(home: str) -> list[str]:
    return [file for file in possible_files(home) if os.path.exists(file)]


def exported(home: str) -> bytes:
    """All certificates of the keyring in a home directory, with certifications that its owner made for themselves
    alone. GpgFailed if there is no keyring."""
    if not existing_files(home):
        raise GpgFailed(f"gpg has no keyring in {home}")
    return run_gpg(home, _EXPORT)


def run_gpg(home: str, words: Iterable[str]) -> bytes:
    """What gpg prints. It may take two minutes."""
    command = ["gpg", "--homedir", home, "--batch", "--no-tty", "--quiet", *words]
    try:
        done = subprocess.run(command, stdin=subprocess.DEVNULL, capture_output=True, check=False, timeout=_SECONDS)
    except FileNotFoundError:
        raise GpgFailed("gpg isn't installed") from None
    except subprocess.TimeoutExpired:
        raise GpgFailed(f"gpg didn't end within {_SECONDS} seconds") from None
    if done.returncode:
        said = done.stderr.decode("utf-8", "replace").strip().splitlines()
        raise GpgFailed(f"gpg ended with status {done.returncode}: {said[-1] if said else 'it printed nothing'}")
    return done.stdout
