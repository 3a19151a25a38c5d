"""Reads the words of a question at once, where they are in order.

`parser` reads whatever this doesn't, and so says what is wrong. Where both read words, they come to the same; what
`argparse` takes to import is more than a whole question takes.

>>> vars(read(["--root", "ab" * 20, "list", "carol"]))["root"], read(["--rot"]), read(["list", "--", "-x"])
([('abababababababababababababababababababab', 120)], None, None)
"""

from __future__ import annotations

from ..fast_imports import TYPE_CHECKING
from .options import QUESTION
from .parsed_words import Given

if TYPE_CHECKING:
    from collections.abc import Iterator, Sequence

    from .options import Option


def read(words: Sequence[str]) -> Given | None:
    """What the words say; None if they are for the parser."""
    given = Given(question=None, words=[], **_defaults())
    by_name = {option.name: option for option in QUESTION}
    left, named = iter(words), []
    for word in left:
        name, equals, value = word.partition("=")
        option = by_name.get(name)
        if option is not None:
            if not _take(given, option, value if equals else None, left):
                return None
        elif word.startswith("-") and word != "-":
            return None
        else:
            named.append(word)
    given.question, given.words = (named[0] if named else None), named[1:]
    return given


def _defaults() -> dict[str, object]:
    """What holds unless it is given. Of several options for one thing, the first one's default counts."""
    defaults: dict[str, object] = {}
    for option in QUESTION:
        defaults.setdefault(option.dest, [] if option.is_many else option.default)
    return defaults


def _take(given: Given, option: Option, value: str | None, left: Iterator[str]) -> bool:
    """Takes an option, and whether that could be done: with its value behind `=`, or in the next word."""
    if option.means is not None:
        setattr(given, option.dest, option.means)
        return value is None
    if value is None:
        value = next(left, "-?")
        if value.startswith("-") and value != "-":
            return False
    if option.choices and value not in option.choices:
        return False
    try:
        said = value if option.read is None else option.read(value)
    except ValueError:
        return False
    if option.is_many:
        getattr(given, option.dest).append(said)
    else:
        setattr(given, option.dest, said)
    return True
