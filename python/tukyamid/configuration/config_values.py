"""What the configuration file says. Unknown keys, wrong types and values out of range are errors.

`tukyamid-gpg` reads the same file, and refuses what is refused here.

>>> read_text('[roots]\\n' + 'AB' * 20 + ' = 60').roots
{'abababababababababababababababababababab': 60}
>>> read_text('strikt = true')
Traceback (most recent call last):
ValueError: the key 'strikt' isn't known
"""

from __future__ import annotations

import os

from ..fast_imports import TYPE_CHECKING
from ..protocol.spelling import is_hexadecimal
from ..records import Value
from . import config_file, plain_toml

if TYPE_CHECKING:
    from collections.abc import Mapping

FULL, MOST_ROOT, MOST_AMOUNT, MOST_ROOTS, MOST_SIGNERS, MOST_SETS = 120, 255, 2**32 - 1, 1000, 64, 64
SERVICE, GPG = "service", "gpg"
_POLICY = ("amount", "for", "threshold", "strict")
_MOST_DOTS = 100
_IN_A_NAME = frozenset("abcdefghijklmnopqrstuvwxyz0123456789-_")


class Policy(Value):
    """What a signer has to be. `whom` is empty if anybody may sign."""
    __slots__ = ("amount", "whom", "threshold", "strict")

    def __init__(self, amount: int = FULL, whom: tuple[str, ...] = (), threshold: int = 1,
                 strict: bool = False) -> None:
        self.amount, self.whom, self.threshold, self.strict = amount, whom, threshold, strict


class Config(Value):
    """What a file says. `path` is None if there is no file. `roots` are fingerprints in lower case with their
    amounts. `sets` are the named sets of roots that `tukyamid web --public` offers."""
    __slots__ = ("path", "roots", "inputs", "policy", "callers", "sets")

    def __init__(self, path: str | None, roots: Mapping[str, int], inputs: tuple[str, ...], policy: Policy,
                 callers: Mapping[str, Policy], sets: Mapping[str, Mapping[str, int]]) -> None:
        self.path, self.roots, self.inputs, self.policy = path, roots, inputs, policy
        self.callers, self.sets = callers, sets


def load() -> Config:
    """The file that counts; without one there are no roots. ConfigUnusable if it can't be used."""
    found = config_file.find()
    if found is None:
        return Config(None, {}, (SERVICE,), Policy(), {}, {})
    return read_checked(*found)


def own_roots() -> dict[str, int]:
    """The user's own trust roots: fingerprints with their amounts, as `tukyamid root list` shows them."""
    return dict(load().roots)


def read_checked(path: str, text: str) -> Config:
    """What a file with this text says; ConfigUnusable if it is damaged."""
    try:
        return read_text(text).but(path=path)
    except ValueError as error:
        raise config_file.ConfigUnusable(path, str(error)) from None


def read_text(text: str) -> Config:
    """What a text says; a ValueError says what is wrong with it."""
    _check_form(text)
    table = plain_toml.read(text)
    if table is None:
        table = _read_toml(text)
    policy = _policy(table, Policy())
    for key in table:
        if key not in (*_POLICY, "roots", "inputs", "socket", "homes", "caller", "sets"):
            raise ValueError(f"the key {key!r} isn't known")
    if "socket" in table:
        _absolute("socket", table["socket"])
    for home in _texts("homes", table.get("homes", [])):
        _absolute("homes", home)
    return Config(None, _roots("roots", table.get("roots", {})), _inputs(table.get("inputs", [SERVICE])), policy,
                  _callers(table.get("caller", {}), policy), _sets(table.get("sets", {})))


# A program's policy by keys with dots, and by a table.
_TWO_FORMS = r"^\s*[\"']?caller[\"']?\s*\.", r"^\s*\[\s*[\"']?caller"


def _check_form(text: str) -> None:
    """Refuses what the reader of `tukyamid-gpg` refuses, and Python's own takes."""
    if text.count(".") >= _MOST_DOTS:
        import re
        # A key has few parts. The library takes minutes for one that has thousands.
        if any(part.count(".") >= _MOST_DOTS for part in re.split(r"[=\[\]{},#\n]", text)):
            raise ValueError("it is nested too deeply")
    if "caller" in text:
        import re
        if all(re.search(form, text, re.M) for form in _TWO_FORMS):
            raise ValueError("programs stand both in keys as caller.NAME and in tables [caller.NAME]")


def _read_toml(text: str) -> dict[str, object]:
    import tomllib
    try:
        return tomllib.loads(text)
    except RecursionError:
        raise ValueError("it is nested too deeply") from None


def _roots(what: str, value: object) -> dict[str, int]:
    roots: dict[str, int] = {}
    table = _table(what, value)
    if len(table) > MOST_ROOTS:
        raise ValueError(f"{what} has more than {MOST_ROOTS} entries")
    for digits, amount in table.items():
        if len(digits) not in (40, 64) or not is_hexadecimal(digits.lower()):
            raise ValueError(f"{what}: {digits!r} isn't a fingerprint of 40 or 64 digits")
        if digits.lower() in roots:
            raise ValueError(f"{what}: {digits} is there twice")
        roots[digits.lower()] = _number(f"{what}: {digits}", amount, MOST_ROOT)
    return roots


def _sets(value: object) -> dict[str, Mapping[str, int]]:
    table = _table("sets", value)
    if len(table) > MOST_SETS:
        raise ValueError(f"sets has more than {MOST_SETS} entries")
    for name, roots in table.items():
        if not is_set(name):
            raise ValueError(f"sets: {name!r} isn't a name of 1 to 32 letters, digits, - and _")
        if not _table(f"sets.{name}", roots):
            raise ValueError(f"sets.{name} has no roots")
    return {name: _roots(f"sets.{name}", roots) for name, roots in table.items()}


def is_set(name: str) -> bool:
    """Whether a set of roots can have this name."""
    return name.isascii() and is_caller(name.lower())


def _inputs(value: object) -> tuple[str, ...]:
    inputs = _texts("inputs", value)
    for one in inputs:
        if one not in (SERVICE, GPG):
            _absolute("inputs", one)
    if SERVICE in inputs and len(inputs) > 1 or not inputs:
        raise ValueError('inputs is either ["service"], or a list of "gpg" and absolute paths')
    return inputs


def _callers(value: object, policy: Policy) -> dict[str, Policy]:
    callers = {}
    for name, table in _table("caller", value).items():
        if not is_caller(name):
            raise ValueError(f"caller: {name!r} isn't the name of a program")
        keys = _table(f"caller.{name}", table)
        for key in keys:
            if key not in _POLICY:
                raise ValueError(f"caller.{name}: the key {key!r} isn't known")
        callers[name] = _policy(keys, policy, f"caller.{name}: ")
    return callers


def is_caller(name: str) -> bool:
    """Whether a program can have this name: 1 to 32 of the characters `a` to `z`, `0` to `9`, `-` and `_`."""
    return 1 <= len(name) <= 32 and set(name) <= _IN_A_NAME


def _policy(table: Mapping[str, object], default: Policy, where: str = "") -> Policy:
    """The policy of a table; what it doesn't say is as in `default`."""
    strict = table.get("strict", default.strict)
    if not isinstance(strict, bool):
        raise ValueError(f"{where}strict is neither true nor false")
    whom = _texts(f"{where}for", table["for"]) if "for" in table else default.whom
    if "for" in table:
        _check_whom(where, whom)
    return Policy(_number(f"{where}amount", table.get("amount", default.amount), MOST_AMOUNT), whom,
                  _number(f"{where}threshold", table.get("threshold", default.threshold), MOST_SIGNERS), strict)


def _check_whom(where: str, whom: tuple[str, ...]) -> None:
    from ..verify.expected_signer import Whom
    if not whom:
        raise ValueError(f"{where}for names nobody")
    for one in whom:
        Whom.read(one)


def _table(what: str, value: object) -> dict[str, object]:
    if not isinstance(value, dict):
        raise ValueError(f"{what} isn't a table")
    return value


def _number(what: str, value: object, most: int) -> int:
    if not isinstance(value, int) or isinstance(value, bool) or not 1 <= value <= most:
        raise ValueError(f"{what} isn't a number from 1 to {most}")
    return value


def _texts(what: str, value: object) -> tuple[str, ...]:
    if not isinstance(value, list) or not all(isinstance(one, str) for one in value):
        raise ValueError(f"{what} isn't a list of texts")
    return tuple(value)


def _absolute(what: str, value: object) -> None:
    if not isinstance(value, str) or not os.path.isabs(value):
        raise ValueError(f"{what}: {value!r} isn't an absolute path")
