"""What somebody needs who begins: a keyring for the service, and a root to look from."""

from __future__ import annotations

import os
from typing import Any

from ..client import Client
from ..command import gpg
from ..command.exit_statuses import NoAnswer
from ..command.service_commands import absolute
from ..keyrings.gpg_keyring import home_directory
from ..keyrings.service_keyring import served_keyring
from .names import Names

VIEW = "found"


def offered(client: Client, time: int, is_own: bool) -> dict[str, Any]:
    """gpg's keyring, if there is one that can be added, and the roots that gpg's owner trust makes. Only the user's own
    service takes keyrings: one for named inputs has what was named."""
    keyring = served_keyring(client)
    names = Names(keyring)
    roots: dict[str, int] = {}
    if is_own and os.path.isdir(home_directory()):
        try:
            roots = gpg.roots_of(gpg.owner_trust(), keyring.view(time, {}, VIEW))
        except NoAnswer:
            pass  # gpg isn't installed, or can't say: the user finds the root by its name.
    held = {fpr: amount for fpr, amount in roots.items() if names.note(fpr)}
    has_gpg = is_own and os.path.isdir(home_directory()) and any(map(os.path.exists, gpg.keyring_files()))
    return {"may_add": is_own, "gpg": has_gpg, "home": home_directory() if has_gpg else None,
            "roots": [{"fingerprint": fpr, "amount": amount, "name": names.found.get(fpr, "")}
                      for fpr, amount in held.items()]}


def add(client: Client, name: str) -> dict[str, Any]:
    """Has the service read a keyring: a file, a certificate directory, or `gpg`."""
    if not name or "\0" in name:
        raise ValueError("a keyring is named by the path of a file or a directory")
    if name != "gpg" and not os.path.isabs(name := os.path.expanduser(name)):
        raise ValueError("write the whole path of the keyring, from / on")
    added = client.add_keyring(absolute(name))
    return {"certificates": added.certificates, "verdicts": added.verdicts}
