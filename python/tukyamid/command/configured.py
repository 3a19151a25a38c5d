"""What the configuration file says for a question, where its words say nothing: roots, inputs and the amount."""

from __future__ import annotations

import os

from ..configuration import config_values
from ..configuration.config_values import GPG, SERVICE
from ..fast_imports import TYPE_CHECKING
from .output import printable

if TYPE_CHECKING:
    from ..configuration.config_values import Config
    from .parsed_words import Given


def configure(given: Given) -> None:
    """Fills in what the words leave open. ConfigUnusable if the file can't be used, even if the words say it all: who
    relies on the file would otherwise not notice. `--root` and `--gpg` name roots, and so the file's aren't used."""
    config = config_values.load()
    given.amount = given.amount or config.policy.amount
    has_own = bool(config.roots) and not given.root and not given.gpg and given.question != "path"
    if has_own:
        given.root = list(config.roots.items())
        given.roots_note = note_on_roots(config)
    if not (given.keyring or given.directory or given.gpg or given.gpg_keyring):
        _take_inputs(given, config)


def note_on_roots(config: Config) -> str:
    """Where the roots come from."""
    path = printable(config.path or "")
    return f"the root is your own, of {path}" if len(config.roots) == 1 else f"the roots are your own, of {path}"


def _take_inputs(given: Given, config: Config) -> None:
    for one in config.inputs:
        if one == GPG and given.root:
            given.gpg_keyring = True
        elif one == GPG:
            given.gpg = True
        elif one != SERVICE:
            (given.directory if os.path.isdir(one) else given.keyring).append(one)
