"""gpg's own keyring and owner trust, by gpg itself."""

import os
from collections.abc import Iterable, Mapping

from ..keyrings.gpg_keyring import GpgFailed, existing_files, exported, home_directory, possible_files, run_gpg
from ..keyrings.keyring import View
from .exit_statuses import NoAnswer

ULTIMATE, FULL, MARGINAL = 6, 5, 4
# What a key is worth that introduces others: three of marginal trust are needed by gpg's default.
AMOUNTS = {ULTIMATE: 120, FULL: 120, MARGINAL: 40}


def keyring_files() -> list[str]:
    """The files in which gpg may have its keyring."""
    return possible_files(_home())


def export(of: str | None = None) -> bytes:
    """All certificates of gpg's keyring, with certifications that its owner made for themselves alone; of another home
    directory, if that is given."""
    folder = of or _home()
    try:
        octets = exported(folder) if existing_files(folder) else b""
    except GpgFailed as failed:
        raise NoAnswer(str(failed)) from None
    if not octets:
        raise NoAnswer(f"gpg's keyring in {folder} is empty")
    return octets


def owner_trust() -> dict[str, int]:
    """The owner trust of each key that introduces others: 6 is ultimate, 5 full, 4 marginal."""
    found: dict[str, int] = {}
    if not os.path.exists(os.path.join(_home(), "trustdb.gpg")):
        return found  # gpg fails without one.
    for line in _printed(["--export-ownertrust"]).decode("utf-8", "replace").splitlines():
        fpr, _, rest = line.partition(":")
        level = rest.partition(":")[0]
        if not line.startswith("#") and level.isdigit() and int(level) & 15 in AMOUNTS:
            found[fpr.lower()] = int(level) & 15
    return found


def _home() -> str:
    """gpg's home directory. It must be there: gpg would make one."""
    folder = home_directory()
    if not os.path.isdir(folder):
        raise NoAnswer(f"gpg has no keyring: {folder} isn't there")
    return folder


def _printed(words: Iterable[str]) -> bytes:
    try:
        return run_gpg(_home(), words)
    except GpgFailed as failed:
        raise NoAnswer(str(failed)) from None


def roots_of(trust: Mapping[str, int], view: View) -> dict[str, int]:
    """The roots that follow from owner trust, by gpg's rules: a key of ultimate trust is a root. One of full or
    marginal trust is one only once a user ID of it is authenticated by the roots so far. The view's roots are set
    meanwhile."""
    roots = {fpr: AMOUNTS[ULTIMATE] for fpr, level in trust.items() if level == ULTIMATE}
    others = {fpr: level for fpr, level in trust.items() if level != ULTIMATE}
    found = True
    while found:
        found = False
        asked = view.keyring.view(view.time, roots, view.name)
        for fpr in [fpr for fpr in others if _is_authenticated(asked, fpr)]:
            roots[fpr] = AMOUNTS[others.pop(fpr)]
            found = True
    return roots


def _is_authenticated(view: View, fpr: str) -> bool:
    certificate = view.keyring.certificate(fpr)
    return certificate is not None and any(view.ask(fpr, 120, uid).amount >= 120 for uid in certificate.user_ids)
