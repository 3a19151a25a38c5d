"""Dates, names and sentences as people read them."""

import time

from ..keyrings.assessment import Assessment, Certification, Report
from ..keyrings.keyring import Keyring
from ..openpgp.lifetimes import Expired
from ..protocol.reasons import TargetWord
from ..protocol.spelling import for_people


MOST_SHOWN = 160
MOST_DRAWN = 120


def moment(seconds: int) -> str:
    """A time in full, in UTC.

    >>> moment(1764547200)
    '2025-12-01 00:00:00 UTC'
    """
    return time.strftime("%Y-%m-%d %H:%M:%S UTC", time.gmtime(seconds))


def day(seconds: int | None) -> str:
    return "at an unknown time" if seconds is None else time.strftime("%Y-%m-%d", time.gmtime(seconds))


def cut(user_id: bytes, most: int = MOST_SHOWN) -> str:
    """A user ID for people, of which no more than this many characters are shown. A user ID may have 64 kB.

    >>> cut(b"Carol"), cut(b"C" * 300, 8)
    ('Carol', 'CCCCCCCC… (300 octets)')
    """
    text = for_people(user_id)
    return text if len(text) <= most else f"{text[:most]}… ({len(user_id)} octets)"


def name(report: Report, fpr: str | None, most: int = MOST_SHOWN) -> str:
    """A user ID of the key, to say whose it is, or nothing if none is known."""
    uid = report.names.get(fpr)
    return "" if uid is None else cut(uid, most)


class Called:
    """What to call the keys of a keyring in a sentence."""

    def __init__(self, keyring: Keyring) -> None:
        self._keyring = keyring
        self._kept: dict[str, str] = {}

    def of(self, fpr: str) -> str:
        if fpr not in self._kept:
            name = self._keyring.name(fpr)
            self._kept[fpr] = f"the key {fpr}" if name is None else cut(name)
        return self._kept[fpr]


def called(report: Report, fpr: str) -> str:
    """What to call a key in a sentence."""
    return name(report, fpr) or f"the key {fpr}"


def supposed(report: Report) -> list[str]:
    """A sentence for each thing that was supposed."""
    return [one.said(lambda fpr: called(report, fpr)) for one in report.supposed]


def count(number: int, noun: str) -> str:
    return f"{number} {noun}" if number == 1 else f"{number} {noun}s"


def dates(certification: Certification) -> str:
    made = "supposed" if certification.supposed else f"made {day(certification.made)}"
    return made if certification.ends is None else f"{made}, ends {day(certification.ends)}"


def scopes(certification: Certification) -> list[str]:
    """The regular expressions, with their backslashes unchanged."""
    return [for_people(pattern, "\\") for pattern in certification.scopes]


def result(one: Assessment) -> str:
    if one.reached:
        return "reached"
    return "not reached, because of --strict" if one.amount >= one.wanted else "not reached"


def no_path(one: Assessment) -> str | None:
    """Why there is no path to a binding; None if there is one, or if paths weren't asked for."""
    if one.word is not TargetWord.OK:
        return f"no path may end here ({one.word}): {one.word.meaning}"
    return None if one.paths or one.brief else "no path from a root"


def said_elsewhere(expired: Expired) -> str:
    """What other programs say about a key that the engine doesn't treat as expired."""
    verb = "treat" if len(expired.programs) > 1 else "treats"
    return (f"{expired.who} {verb} this key as expired (since {day(expired.since)}), because of a self-signature on a "
            "user ID. Here another signature decides, and it sets no such end")
