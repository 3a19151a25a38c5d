"""What the words of the command say: times, amounts, keys and roots. A ValueError says what is wrong with one."""

from ..fast_imports import TYPE_CHECKING
from ..protocol import spelling

if TYPE_CHECKING:
    from ..planning.spoken import Spoken

AMOUNTS = {"partial": 40, "full": 120, "double": 240}
MOST_TIME, MOST_WANTED, MOST_AMOUNT = 2**32 - 1, 2**32 - 1, 255


def read_time(text: str) -> int:
    """Seconds since 1970, of a date and time by ISO 8601, or of `@SECONDS`. Digits alone are seconds if they are nine
    or more; eight are a date.

    >>> read_time("2024-01-01"), read_time("20240101"), read_time("@20240101"), read_time("1704067200")
    (1704067200, 1704067200, 20240101, 1704067200)
    """
    digits = text.removeprefix("@")
    if digits.isascii() and digits.isdigit() and (text != digits or len(digits) > 8):
        return _within(int(digits), 0, MOST_TIME, f"{text} isn't a time")
    from datetime import datetime, timezone
    try:
        moment = datetime.fromisoformat(text)
    except ValueError:
        raise ValueError(f"{text!r} isn't a time: write a date as 2024-01-31, a date and time as 2024-01-31T12:00:00Z, "
                         "or seconds since 1970 as @1706702400") from None
    moment = moment if moment.tzinfo else moment.replace(tzinfo=timezone.utc)
    return _within(int(moment.timestamp()), 0, MOST_TIME, f"{text} isn't between 1970 and 2106")


def read_wanted(text: str) -> int:
    """A wanted amount: a number, or one of the words."""
    if text in AMOUNTS:
        return AMOUNTS[text]
    return _number(text, MOST_WANTED, f"{text!r} is no amount: write a number from 1 on, or {', '.join(AMOUNTS)}")


def read_key(text: str) -> str:
    """A fingerprint or a key ID in lower case, as gpg and sq print them: with `0x`, or with spaces.

    >>> read_key("0xFAC804259D6B2997AFE074FCD2112D7C6C04741C"), read_key("D211 2D7C 6C04 741C")
    ('fac804259d6b2997afe074fcd2112d7c6c04741c', 'd2112d7c6c04741c')
    """
    digits = "".join(text.split()).lower().removeprefix("0x")
    if len(digits) == 8 and spelling.is_hexadecimal(digits):
        raise ValueError(f"{text!r} is a short key ID, which anybody can forge: give the fingerprint")
    if len(digits) not in (16, 40, 64) or not spelling.is_hexadecimal(digits):
        raise ValueError(f"{text!r} is neither a fingerprint nor a key ID of 16 digits")
    return digits


def read_root(text: str) -> tuple[str, int]:
    """A trust root: a key and its amount, which is 120 unless it is given behind a colon."""
    key, colon, amount = text.partition(":")
    said = f"{amount!r} is no amount of a root: write a number from 1 to {MOST_AMOUNT}"
    return read_key(key), _number(amount, MOST_AMOUNT, said) if colon else 120


def read_supposition(text: str) -> "Spoken":
    """What is supposed, as it is written."""
    from ..planning import spoken
    return spoken.read(text)


def read_threshold(text: str) -> int:
    """How many are needed, at least one."""
    return _number(text, MOST_WANTED, f"{text!r} is no threshold: write a number from 1 on")


def read_user_id(text: str) -> bytes:
    return spelling.user_id(text)


def _number(text: str, most: int, wrong: str) -> int:
    if not (text.isascii() and text.isdigit()):
        raise ValueError(wrong)
    return _within(int(text), 1, most, wrong)


def _within(value: int, least: int, most: int, wrong: str) -> int:
    if not least <= value <= most:
        raise ValueError(wrong)
    return value
