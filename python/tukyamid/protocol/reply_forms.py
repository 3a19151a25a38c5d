"""The forms of the lines of replies: which fields a line has.

>>> match("bind N FPR REST", f"bind 120 {'ab' * 20} Carol <carol@example.org>")[2]
'Carol <carol@example.org>'

A form has no regular expression: importing `re` takes as long as the interpreter takes to start.
"""

from __future__ import annotations

from ..fast_imports import TYPE_CHECKING
from . import spelling
from .refusals import ProtocolError

if TYPE_CHECKING:
    from collections.abc import Callable

    Fits = Callable[[str], bool]


def _is_hint(text: str) -> bool:
    return text == "-" or len(text) in (16, 40, 64) and spelling.is_hexadecimal(text)


def _is_field(text: str) -> bool:
    return text != "" and " " not in text


# What fits the fields of a form. REST is whatever is left of a line.
_KINDS: dict[str, Fits] = {
    "N": spelling.is_decimal, "FPR": spelling.is_fingerprint, "NUM": spelling.is_number, "WORD": spelling.is_word,
    "NAME": spelling.is_view_name, "FIELD": _is_field, "HINT": _is_hint, "REST": lambda text: True}


class _Form:
    """A line's form: its words, with the kinds above in capitals."""
    __slots__ = ("count", "fits", "places")
    made: dict[str, _Form] = {}

    def __init__(self, text: str) -> None:
        words = text.split(" ")
        self.count = len(words)
        self.fits: list[Fits] = [_KINDS[word] if word in _KINDS else word.__eq__ for word in words]
        self.places = [place for place, word in enumerate(words) if word in _KINDS]
        self.made[text] = self

    def fields(self, line: str) -> list[str] | None:
        """The fields of a line; None if it has another form."""
        words = line.split(" ", self.count - 1)
        if len(words) != self.count:
            return None
        for fits, word in zip(self.fits, words):
            if not fits(word):
                return None
        return [words[place] for place in self.places]


def match(form: str, line: str) -> list[str]:
    """The fields of a line of this form; ProtocolError if it has another."""
    fields = (_Form.made.get(form) or _Form(form)).fields(line)
    if fields is None:
        raise no_place(line)
    return fields


def no_place(line: str) -> ProtocolError:
    return ProtocolError(f"this line has no place in the reply: {line[:200]!r}")
