"""What the page asks about, read from JSON. Everything is checked: a ValueError says what is wrong."""

from collections.abc import Mapping
from typing import Any, NamedTuple

from ..command.option_values import MOST_AMOUNT, MOST_TIME, MOST_WANTED
from ..planning.fragile_making import DAYS, MOST_DAYS
from ..planning.meeting import MOST_COMERS
from ..planning.suppositions import (FULL, MOST_DEPTH, MOST_SCOPE, MOST_SCOPES, Certifies, Revokes, Supposition,
                                     WithoutKey, WithoutSignature)
from ..protocol import spelling

MOST_ROOTS = MOST_LEFT_OUT = MOST_SUPPOSED = 64
MOST_OPENED = 200


class Standpoint(NamedTuple):
    """From where one looks: a time, and the amount of each root."""
    time: int
    roots: Mapping[str, int]


class Subject(NamedTuple):
    """A question: a binding, the wanted amount, and what is supposed: keys and certifications that are left out, and
    certifications that nobody has made."""
    fpr: str
    user_id: bytes
    wanted: int
    standpoint: Standpoint
    left_out: tuple[WithoutKey | WithoutSignature, ...] = ()
    added: tuple[Certifies | Revokes, ...] = ()

    @property
    def supposed(self) -> tuple[Supposition, ...]:
        return (*self.left_out, *self.added)


Json = Mapping[str, Any]


def read_standpoint(asked: Json) -> Standpoint:
    roots = {_fingerprint(one, "fingerprint"): number(one, "amount", 1, MOST_AMOUNT)
             for one in _list(asked, "roots", MOST_ROOTS)}
    return Standpoint(number(asked, "time", 0, MOST_TIME), roots)


def read_subject(asked: Json) -> Subject:
    left_out = tuple(_left_out(one) for one in _list(asked, "without", MOST_LEFT_OUT))
    fpr = _fingerprint(asked, "fingerprint")
    if WithoutKey(fpr) in left_out:
        raise ValueError("the key that is asked about can't be left out")
    added = tuple(_added(one) for one in _list(asked, "suppose", MOST_SUPPOSED))
    return Subject(fpr, _user_id(asked, "user_id"), number(asked, "wanted", 1, MOST_WANTED), read_standpoint(asked),
                   left_out, added)


def read_unsupposed(asked: Json) -> Subject:
    """A question that a proof is wanted for."""
    subject = read_subject(asked)
    if subject.supposed:
        raise ValueError("a proof is about the whole keyring as it is: include what is left out first, and suppose "
                         "nothing")
    return subject


def read_plan(asked: Json) -> tuple[Subject, tuple[str, ...], int]:
    """A question that a plan is wanted for, who may certify, and how many certifications may be proposed together."""
    by = tuple(dict.fromkeys(_texts(asked, "by", MOST_ROOTS)))
    return read_subject(asked), tuple(map(spelling.fingerprint, by)), number({"most": 2, **asked}, "most", 1, 8)


def read_fragile(asked: Json) -> tuple[Standpoint, dict[str, Any]]:
    """From where one looks, the amount that counts, and within how many days something ends."""
    asked = {"wanted": FULL, "days": DAYS, **asked}
    return read_standpoint(asked), {"wanted": number(asked, "wanted", 1, MOST_WANTED),
                                    "days": number(asked, "days", 1, MOST_DAYS)}


def read_meeting(asked: Json) -> tuple[Standpoint, dict[str, Any]]:
    """From where one looks, the amount that counts, who comes, and the depth of what they certify."""
    asked = {"wanted": FULL, "depth": 0, **asked}
    who = [spelling.fingerprint(one) for one in _texts(asked, "who", MOST_COMERS)]
    if not who:
        raise ValueError("nobody comes to this meeting")
    return read_standpoint(asked), {"wanted": number(asked, "wanted", 1, MOST_WANTED), "who": who,
                                    "depth": number(asked, "depth", 0, MOST_DEPTH)}


def _texts(asked: Json, name: str, most: int) -> list[str]:
    value = asked.get(name, [])
    if not isinstance(value, list) or len(value) > most or not all(isinstance(one, str) for one in value):
        raise ValueError(f"{name} isn't a list of at most {most} texts")
    return value


def _left_out(one: Json) -> WithoutKey | WithoutSignature:
    if "key" in one:
        return WithoutKey(_fingerprint(one, "key"))
    return WithoutSignature(spelling.number(text(one, "signature")))


def _added(one: Json) -> Certifies | Revokes:
    """A supposition, in the form in which `supposition_forms` writes it."""
    binding = _fingerprint(one, "issuer"), _fingerprint(one, "target"), _user_id(one, "user_id_spelled")
    if one.get("kind") == "revokes":
        return Revokes(*binding)
    if one.get("kind") != "certifies":
        raise ValueError("a supposition certifies or revokes")
    scopes = _texts(one, "scopes", MOST_SCOPES)
    if any(len(scope) > MOST_SCOPE for scope in scopes):
        raise ValueError(f"a scope has more than {MOST_SCOPE} characters")
    return Certifies(*binding, number(one, "depth", 0, MOST_DEPTH), number(one, "amount", 1, MOST_AMOUNT),
                     tuple(map(spelling.user_id, scopes)))


def _user_id(asked: Json, name: str) -> bytes:
    return spelling.read_user_id(text(asked, name).encode("ascii"))


def read_opened(asked: Json) -> list[str]:
    """The names of the groups that are open in a picture of the network."""
    value = asked.get("open", [])
    if not isinstance(value, list) or len(value) > MOST_OPENED or not all(isinstance(one, str) for one in value):
        raise ValueError(f"open isn't a list of at most {MOST_OPENED} texts")
    return value


def fingerprint(asked: Json) -> str:
    return _fingerprint(asked, "fingerprint")


def number(asked: Json, name: str, least: int, most: int) -> int:
    return spelling.decimal(asked.get(name, -1), least, most, name)


def text(asked: Json, name: str, most: int = 65536) -> str:
    value = asked.get(name, "")
    if not isinstance(value, str) or len(value) > most:
        raise ValueError(f"{name} isn't a text of at most {most} characters")
    return value


def _fingerprint(asked: Json, name: str) -> str:
    return spelling.fingerprint(text(asked, name))


def _list(asked: Json, name: str, most: int) -> list[Json]:
    value = asked.get(name, [])
    if not isinstance(value, list) or len(value) > most or not all(isinstance(one, dict) for one in value):
        raise ValueError(f"{name} isn't a list of at most {most} objects")
    return value
