"""A question as it is spelled in an address: every parameter is checked, and what is left is a value. Two addresses
that ask for the same have the same value, so answers can be kept by it."""

from __future__ import annotations

import json
import time
from collections.abc import Callable, Mapping
from typing import Any, NamedTuple
from urllib.parse import parse_qsl

from ..command.option_values import read_key, read_root, read_time, read_wanted
from .root_sets import Sets, set_named

MOST_ROOTS, MOST_KEYS, MOST_PARAMETERS = 16, 12, 64
MOST_LISTED, MOST_BEGIN, MOST_TEXT = 500, 10**7, 2000
FULL, MINUTE = 120, 60
NEEDED = {"authenticate": ("key", "user_id"), "explain": ("key", "user_id"), "lookup": ("user_id",),
          "identify": ("key",), "path": ("key", "user_id"), "list": (), "absence": ("key", "user_id"),
          "proof": ("key", "user_id")}
_COMMON = {"amount", "time", "roots", "root"}
_ALLOWED = {**{name: {*needed, *_COMMON} for name, needed in NEEDED.items()},
            "list": {"pattern", "address", "begin", "most", *_COMMON}}
_BY_ADDRESS = {"authenticate", "explain", "lookup", "path"}
_STRICT = {"authenticate", "lookup", "identify", "explain", "list"}
# What starts a program of its own, or reads much.
_LONG = frozenset({"path", "absence", "proof", "list"})


class Question(NamedTuple):
    """What is asked: the call, from which roots, as of when, and the other parameters. What is long has half of the
    workers at most."""
    call: str
    time: int
    roots: tuple[tuple[str, int], ...]
    asked: str
    is_long: bool = False

    def as_line(self, state: str) -> bytes:
        """What a worker reads."""
        return json.dumps([self.call, self.time, self.roots, json.loads(self.asked), state]).encode() + b"\n"


def now_rounded(seconds: float) -> int:
    """The present, rounded up to a whole minute, so that answers can be kept. What expires within this minute has
    already expired, and what was revoked in it is already revoked: so no answer is too good."""
    return -int(-seconds // MINUTE) * MINUTE


def read_question(call: str, query: str, sets: Sets, clock: Callable[[], float] = time.time) -> Question:
    """A question of the API. ValueError says what is wrong with it."""
    pairs = read_pairs(query)
    allowed = {*_ALLOWED[call], *({"email"} if call in _BY_ADDRESS else ()), *({"strict"} if call in _STRICT else ())}
    for name, _ in pairs:
        if name not in allowed:
            raise ValueError(f"{call} has no parameter {name[:40]!r}")
    one = _single(pairs)
    at = read_time(one["time"]) if "time" in one else now_rounded(clock())
    asked = _asked(call, pairs, one)
    return Question(call, at, _roots(call, pairs, one, sets), json.dumps(asked, sort_keys=True), call in _LONG)


def read_pairs(query: str, most: int = MOST_TEXT) -> list[tuple[str, str]]:
    """The parameters of an address; octets that aren't UTF-8 stay what they are."""
    if not query:
        return []
    pairs = parse_qsl(query, keep_blank_values=True, strict_parsing=True, encoding="utf-8", errors="surrogateescape",
                      max_num_fields=MOST_PARAMETERS)
    for name, value in pairs:
        if len(value) > most:
            raise ValueError(f"{name[:40]!r} has more than {most} characters")
    return pairs


def _single(pairs: list[tuple[str, str]]) -> Mapping[str, str]:
    """The parameters that may be given once."""
    one: dict[str, str] = {}
    for name, value in pairs:
        if name in one and name not in ("root", "key"):
            raise ValueError(f"{name} is given twice")
        one[name] = value
    return one


def _asked(call: str, pairs: list[tuple[str, str]], one: Mapping[str, str]) -> dict[str, Any]:
    asked: dict[str, Any] = {"amount": read_wanted(one.get("amount", str(FULL))), "strict": _flag(one, "strict")}
    keys = [read_key(value) for name, value in pairs if name == "key"]
    if "key" in NEEDED[call]:
        if not 1 <= len(keys) <= (MOST_KEYS if call == "path" else 1):
            raise ValueError(f"path takes 1 to {MOST_KEYS} keys" if call == "path" else f"{call} takes one key")
        asked["keys"] = keys
    if "user_id" in NEEDED[call]:
        if ("user_id" in one) == ("email" in one):
            raise ValueError("give either user_id or email" if call in _BY_ADDRESS else "user_id is missing")
        asked["email"] = "email" in one
        asked["user_id"] = one["email" if "email" in one else "user_id"]
    if call == "list":
        asked |= {"pattern": one.get("pattern", ""), "address": _flag(one, "address"),
                  "begin": _number(one, "begin", 0, 0, MOST_BEGIN), "most": _number(one, "most", 100, 1, MOST_LISTED)}
    return asked


def _roots(call: str, pairs: list[tuple[str, str]], one: Mapping[str, str], sets: Sets) -> tuple[tuple[str, int], ...]:
    own = [read_root(value) for name, value in pairs if name == "root"]
    if own and "roots" in one:
        raise ValueError("give either roots, the name of a set, or root, once for each key")
    if len(own) > MOST_ROOTS:
        raise ValueError(f"more than {MOST_ROOTS} roots")
    if own:
        return tuple(sorted(dict(own).items()))
    if "roots" in one:
        return tuple(sorted(set_named(sets, one["roots"]).items()))
    if call == "path":
        return ()
    if not sets:
        raise ValueError("a trust root is missing: give root=FINGERPRINT[:AMOUNT]")
    return tuple(sorted(sets[next(iter(sets))].items()))


def _flag(one: Mapping[str, str], name: str) -> bool:
    if one.get(name, "0") not in ("0", "1", "false", "true"):
        raise ValueError(f"{name} is either true or false")
    return one.get(name, "0") in ("1", "true")


def _number(one: Mapping[str, str], name: str, otherwise: int, least: int, most: int) -> int:
    text = one.get(name, str(otherwise))
    if not (text.isascii() and text.isdigit() and len(text) < 12 and least <= int(text) <= most):
        raise ValueError(f"{name} isn't a number from {least} to {most}")
    return int(text)
