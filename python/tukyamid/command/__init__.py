"""The command `tukyamid`."""

from __future__ import annotations

import sys

from ..fast_imports import TYPE_CHECKING
from .after_answer import do_now
from .exit_statuses import run_guarded

if TYPE_CHECKING:
    from collections.abc import Sequence


def main(words: Sequence[str] | None = None) -> int:
    """Runs the command, and returns its exit status. Whatever fails is said in one line."""
    status = run_guarded(lambda: _run(list(sys.argv[1:] if words is None else words)))
    do_now()
    return status


def _run(words: list[str]) -> int:
    from . import dispatch
    return dispatch.run(words)
