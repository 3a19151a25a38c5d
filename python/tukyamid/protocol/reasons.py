"""The words of the engine's `explain`, with what each means for people.

They are no enumerations of Python's: importing `enum` takes almost as long as the interpreter takes to start.

>>> ReasonWord("issuer-hard").meaning
"the issuer's key is revoked, with effect at all times"
>>> TargetWord.OK == "ok", TargetWord("ok") is TargetWord.OK, len(list(TargetWord))
(True, True, 7)
"""

from __future__ import annotations

from ..fast_imports import TYPE_CHECKING, Any, ClassVar, TypeVar

if TYPE_CHECKING:
    from abc import ABCMeta as Kind  # To checkers strings are sequences, which are of this type.
    from collections.abc import Iterator
    from typing import Self
else:
    Kind = type

T = TypeVar("T")


class _Words(Kind):
    """The type of sets of words, which are gone through in their order."""

    def __iter__(cls: type[T]) -> Iterator[T]:
        return iter(vars(cls)["_words"].values())


class Word(str, metaclass=_Words):
    """A word of a set, with its meaning. Each is made once, of what its class says. `TargetWord("ok")` finds it, and
    raises a ValueError if there is none."""
    name: str
    meaning: str
    _words: ClassVar[dict[str, Any]] = {}

    def __new__(cls, word: str) -> Self:
        found: Self | None = cls._words.get(word)
        if found is None:
            raise ValueError(f"{word!r} is no {cls.__name__}")
        return found

    def __init_subclass__(cls) -> None:
        cls._words = {}
        for name, said in list(vars(cls).items()):
            if isinstance(said, tuple):
                word = str.__new__(cls, said[0])
                word.name, word.meaning = name, said[1]
                cls._words[word] = word
                setattr(cls, name, word)

    def __repr__(self) -> str:
        return f"<{type(self).__name__}.{self.name}: {str.__repr__(self)}>"


def _said(word: str, meaning: str) -> Any:
    """What a word is made of."""
    return word, meaning


class TargetWord(Word):
    """What a key and a user ID come to as the end of paths: `ok`, or the first of the others that applies."""
    OK: TargetWord = _said("ok", "the key and the user ID are in order")
    STANDING: TargetWord = _said("standing", "no signature of its own governs the key")
    YOUNG: TargetWord = _said("young", "the key wasn't created yet")
    ENDED: TargetWord = _said("ended", "the key has expired")
    HARD: TargetWord = _said("hard", "the key is revoked, with effect at all times")
    SOFT: TargetWord = _said("soft", "the key is retired or superseded")
    UID: TargetWord = _said("uid", "the key has revoked this user ID")


class MissingWord(Word):
    """What the client says where the engine has nothing to explain."""
    ABSENT: MissingWord = _said("absent", "the key isn't in the keyring")
    NO_UID: MissingWord = _said("no-uid", "the key has no such user ID")


class ReasonWord(Word):
    """What a certification comes to: `edge` where it counts, or the first of the others that applies."""
    EDGE: ReasonWord = _said("edge", "counts")
    UNSOUND: ReasonWord = _said("unsound", "the signature isn't well-formed")
    UNJUDGED: ReasonWord = _said("unjudged", "nobody has verified it: its issuer isn't in the input")
    BAD: ReasonWord = _said("bad", "it doesn't verify")
    FOREIGN: ReasonWord = _said("foreign", "it names a different issuer than the key that made it")
    POLICY: ReasonWord = _said("policy", "its hash algorithm is too weak for its date")
    EARLY: ReasonWord = _said("early", "it wasn't created yet")
    EXPIRED: ReasonWord = _said("expired", "it has expired")
    REVOKED: ReasonWord = _said("revoked", "its issuer has revoked it")
    OLDER: ReasonWord = _said("older", "its issuer has made a newer one")
    ISSUER_ABSENT: ReasonWord = _said("issuer-absent", "its issuer isn't in the keyring")
    ISSUER_STANDING: ReasonWord = _said("issuer-standing", "no signature of its own governs the issuer's key")
    ISSUER_YOUNG: ReasonWord = _said("issuer-young", "the issuer's key was created later than it")
    ISSUER_ENDED: ReasonWord = _said("issuer-ended", "the issuer's key had expired when it was made")
    ISSUER_HARD: ReasonWord = _said("issuer-hard", "the issuer's key is revoked, with effect at all times")
    ISSUER_SOFT: ReasonWord = _said("issuer-soft", "the issuer's key was retired before it was made")
