"""The words of a question, read."""

from __future__ import annotations

from ..fast_imports import TYPE_CHECKING

if TYPE_CHECKING:
    from ..planning.spoken import Spoken


class Given:
    """What the words of a question say. The readers of words set what is named here."""
    question: str | None
    words: list[str]
    keyring: list[str]
    directory: list[str]
    gpg: bool
    gpg_keyring: bool
    root: list[tuple[str, int]]
    roots_note: str = ""  # Where the roots come from, if not from the words.
    time: int | None
    amount: int
    email: bool
    strict: bool
    paths: bool
    suppose: list[Spoken]
    format: str
    no_service: bool
    cache: str | None
    no_cache: bool
    anew: bool
    engine: str | None
    verifier: str | None
    quiet: bool
    help: bool
    version: bool

    def __init__(self, **named: object) -> None:
        vars(self).update(named)
