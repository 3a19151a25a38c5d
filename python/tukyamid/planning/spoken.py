"""Suppositions as people write them: `ISSUER certifies KEY USERID depth 1 amount 60 for REGEX`.

A user ID may have any words in it. So where it ends is known only once the certificate is there: it is the longest one
of the key's that what follows the key begins with.
"""

from __future__ import annotations

from ..command.exit_statuses import NoAnswer, WrongWords
from ..command.key_names import resolve
from ..command.option_values import read_key
from ..fast_imports import TYPE_CHECKING
from ..protocol import spelling
from ..records import Value
from .suppositions import FULL, MOST_DEPTH, MOST_SCOPE, Certifies, Revokes, WithoutKey, WithoutSignature

if TYPE_CHECKING:
    from collections.abc import Iterable

    from ..keyrings.keyring import Keyring
    from .suppositions import Supposition

FORMS = "ISSUER certifies KEY USERID [depth N] [amount N] [for REGEX], ISSUER revokes KEY USERID, without KEY|NUMBER"


class Spoken(Value):
    """A supposition as it is written: who, `certifies` or `revokes`, which key, and what follows; or `without`, and
    a key or a signature's number."""
    __slots__ = ("issuer", "verb", "key", "rest")

    def __init__(self, issuer: str, verb: str, key: str, rest: str) -> None:
        self.issuer, self.verb, self.key, self.rest = issuer, verb, key, rest


def read(text: str) -> Spoken:
    """The words of a supposition; ValueError if they are none."""
    words = text.split(None, 3)
    if len(words) == 2 and words[0] == "without":
        return Spoken("", "without", read_key(words[1]), "")
    if len(words) == 4 and words[1] in ("certifies", "revokes"):
        return Spoken(read_key(words[0]), words[1], read_key(words[2]), words[3])
    raise ValueError(f"{text!r} supposes nothing: write {FORMS}")


def resolved(keyring: Keyring, spoken: Iterable[Spoken]) -> tuple[Supposition, ...]:
    """The suppositions, with fingerprints and whole user IDs as the keyring has them."""
    return tuple(_resolved(keyring, one) for one in spoken)


def _resolved(keyring: Keyring, one: Spoken) -> Supposition:
    key = resolve(keyring, one.key)
    if one.verb == "without":
        is_key = keyring.certificate(key) is not None
        if not is_key and len(key) != 64:
            raise NoAnswer(f"the key {key} isn't in the keyring, so it can't be left out")
        return WithoutKey(key) if is_key else WithoutSignature(key)
    issuer = resolve(keyring, one.issuer)
    for fpr in issuer, key:
        if keyring.certificate(fpr) is None:
            raise NoAnswer(f"the key {fpr} isn't in the keyring, so nothing can be supposed of it")
    user_id, behind = _user_id(keyring, key, one.rest)
    said = _options(behind)
    if said is None or one.verb == "revokes" and behind:
        raise WrongWords(f"{behind.strip()!r} can't follow a user ID in a supposition: write {FORMS}")
    if one.verb == "revokes":
        return Revokes(issuer, key, user_id)
    depth, amount = int(said.get("depth", 0)), int(said.get("amount", FULL))
    if depth > MOST_DEPTH or not 1 <= amount <= 255:
        raise WrongWords(f"a supposed depth is at most {MOST_DEPTH}, and an amount from 1 to 255")
    return Certifies(issuer, key, user_id, depth, amount, _scopes(said.get("for")))


def _options(text: str) -> dict[str, str] | None:
    """What follows a user ID: `depth N`, `amount N` and `for REGEX`, in this order, each preceded by white space. None
    if it is something else.

    >>> _options(" depth 1 for @example[.]org>$"), _options(""), _options(" deep")
    ({'depth': '1', 'for': '@example[.]org>$'}, {}, None)
    """
    found: dict[str, str] = {}
    for name in "depth", "amount":
        word, *left = text.split(None, 2)[:3] or [""]
        if word == name and left and text[0].isspace():
            if not (left[0].isascii() and left[0].isdigit() and len(left[0]) <= 3):
                return None
            found[name] = left[0]
            text = text.lstrip()[len(name):].lstrip()[len(left[0]):]
    word, *rest = text.split(None, 1) or [""]
    if word == "for" and rest and text[0].isspace():
        return {**found, "for": rest[0]}
    return found if not text else None


def _scopes(text: str | None) -> tuple[bytes, ...]:
    if text is None:
        return ()
    if len(text) > MOST_SCOPE:
        raise WrongWords(f"a regular expression of more than {MOST_SCOPE} characters matches nothing")
    return (spelling.user_id(text),)


def _user_id(keyring: Keyring, fpr: str, text: str) -> tuple[bytes, str]:
    """The user ID of the key that a text begins with, or that has the address that it begins with; and what follows."""
    certificate = keyring.certificate(fpr)
    user_ids = sorted(certificate.user_ids if certificate else (), key=len, reverse=True)
    for user_id in user_ids:
        for shown in user_id.decode("utf-8", "surrogateescape"), spelling.for_people(user_id):
            if text.startswith(shown) and _options(text[len(shown):]) is not None:
                return user_id, text[len(shown):]
    address = text.split(None, 1)[0] if text[:1].strip() else ""
    if "@" in address[1:-1]:
        from ..openpgp.addresses import address_of, canonical
        having = [one for one in user_ids if address_of(one) == canonical(address)]
        if len(having) == 1:
            return having[0], text[len(address):]
    shown = ", ".join(spelling.for_people(one) for one in user_ids) or "no user ID"
    raise WrongWords(f"the key {fpr} has no such user ID: {text!r}; it has {shown}")
