"""The lines with which a question begins, as far as its words say them: all go to the service at once, and no call
waits for the one before it. Each call still sends its own line, unless it is among these."""

from __future__ import annotations

from ..fast_imports import TYPE_CHECKING
from ..keyrings.keyring import VIEW, WHOLE
from ..protocol import commands
from ..protocol.service_lines import MOST_OF_AN_EXCERPT, Excerpt, Find, Issuers, Unverified
from . import option_values

if TYPE_CHECKING:
    from collections.abc import Iterable, Iterator

    from ..protocol.command_base import Line
    from .parsed_words import Given

_KEY_ID_DIGITS = 16


def lines_ahead(given: Given, at: int) -> list[bytes]:
    """The lines of a question at this time. It has none if its roots have to be looked up first."""
    roots = dict(given.root)
    if not roots or given.gpg or given.question == "path" or any(map(_is_key_id, roots)):
        return []
    if given.suppose:
        return _unique(_supposing(given, at, roots))
    lines: list[Line] = [Unverified(), *map(commands.Export, roots), commands.Close(VIEW), commands.Time(VIEW, at)]
    lines += [commands.Root(VIEW, fpr, amount) for fpr, amount in roots.items()]
    lines += _about(given)
    if given.question != "list" or given.paths:
        lines += map(Issuers, roots)  # For their names.
    return _unique(lines)


def _unique(lines: Iterable[Line]) -> list[bytes]:
    return list(dict.fromkeys(line.line() for line in lines))


def _supposing(given: Given, at: int, roots: Iterable[str]) -> Iterator[Line]:
    """What is asked for an engine in which something is supposed: what is there already, but nothing supposed."""
    yield Unverified()
    yield from map(commands.Export, roots)
    if given.question not in ("authenticate", "explain") or given.email:
        return
    fpr = option_values.read_key(given.words[0])
    named = {key for one in given.suppose for key in (one.issuer, one.key) if one.issuer}
    if not any(map(_is_key_id, (fpr, *named))):
        yield from map(commands.Export, sorted({fpr, *named}))
        leading = sorted({*roots, *(named - {fpr})})
        if leading:
            yield Excerpt("question", [fpr, *leading][:MOST_OF_AN_EXCERPT])
        yield from (commands.Close(WHOLE), commands.Time(WHOLE, at))
        yield commands.Explain(WHOLE, fpr, option_values.read_user_id(given.words[1]))
        yield from map(Issuers, [fpr, *roots])


def _is_key_id(key: str) -> bool:
    return len(key) == _KEY_ID_DIGITS


def _about(given: Given) -> Iterator[Line]:
    """What a question asks first."""
    if given.question == "list":
        yield commands.List(VIEW, given.amount)
    elif given.question == "lookup":
        if not given.email and given.words[0]:
            yield Find("user-id", option_values.read_user_id(given.words[0]))
    else:
        key = option_values.read_key(given.words[0])
        if not _is_key_id(key):
            yield from _about_key(given, key)


def _about_key(given: Given, fpr: str) -> Iterator[Line]:
    if given.question != "identify" and not given.email:
        user_id = option_values.read_user_id(given.words[1])
        yield commands.Ask(VIEW, fpr, given.amount, user_id)
        yield commands.Explain(VIEW, fpr, user_id)
    yield commands.Export(fpr)
    yield Issuers(fpr)
