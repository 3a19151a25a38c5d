"""How the fields of lines are spelled: fingerprints, signature numbers, view names, decimals and user IDs."""

from __future__ import annotations

from ..fast_imports import TYPE_CHECKING

if TYPE_CHECKING:
    from collections.abc import Callable

LONGEST_LINE = 16_777_216

UserId = str | bytes | bytearray | memoryview

_PLAIN = frozenset(range(0x20, 0x7F)) - {0x5C}
_DIGITS, _LETTERS = "0123456789", "abcdefghijklmnopqrstuvwxyz"
_HEXADECIMAL = _DIGITS + "abcdef"
_EITHER_CASE = b"0123456789abcdefABCDEF"


def has_reply(line: bytes) -> bool:
    """Whether this line, given without its line feed, has a reply. An empty line and a comment (`#`) have none, unless
    they are too long: those are refused like any other."""
    return len(line) > LONGEST_LINE or not (line == b"" or line.startswith(b"#"))


def is_hexadecimal(text: str) -> bool:
    """Whether there is nothing but hexadecimal digits in lower case."""
    return not text.strip(_HEXADECIMAL)


def is_fingerprint(text: str) -> bool:
    return len(text) in (40, 64) and not text.strip(_HEXADECIMAL)


def is_number(text: str) -> bool:
    """Whether it is the number of a signature."""
    return len(text) == 64 and not text.strip(_HEXADECIMAL)


def is_view_name(text: str) -> bool:
    return 0 < len(text) <= 32 and not text.strip(_LETTERS + _DIGITS + "_-")


def is_decimal(text: str) -> bool:
    """Whether it is a decimal as the other side writes it: of at most 20 digits, without zeros before it."""
    return 0 < len(text) <= 20 and not text.strip(_DIGITS) and (text[0] != "0" or text == "0")


def is_word(text: str) -> bool:
    """Whether it is a word of letters and hyphens."""
    return text != "" and not text.strip(_LETTERS + "-")


def _whole(is_spelled: Callable[[str], bool], text: str, what: str) -> str:
    if not isinstance(text, str) or not is_spelled(text):
        raise ValueError(f"{text!r} is no {what}")
    return text


def fingerprint(text: str) -> str:
    """A fingerprint in lower-case digits; takes digits of either case, and spaces between them.

    >>> fingerprint("FAC8 0425 9D6B 2997 AFE0  74FC D211 2D7C 6C04 741C")
    'fac804259d6b2997afe074fcd2112d7c6c04741c'
    """
    return _whole(is_fingerprint, text.replace(" ", "").lower() if isinstance(text, str) else text, "fingerprint")


def number(text: str) -> str:
    """A signature's number: 64 digits."""
    return _whole(is_number, text.lower() if isinstance(text, str) else text, "signature number")


def view_name(text: str) -> str:
    """The name of a view, a cursor or a watch."""
    return _whole(is_view_name, text, "name of a view")


def decimal(value: int, least: int, most: int, what: str) -> int:
    """A number from `least` to `most`; `what` names it in the error."""
    if not isinstance(value, int) or isinstance(value, bool) or not least <= value <= most:
        raise ValueError(f"{value!r} is no {what} from {least} to {most}")
    return value


def user_id(value: UserId) -> bytes:
    """A user ID's octets; a text is encoded as UTF-8."""
    if isinstance(value, str):
        return value.encode("utf-8", "surrogateescape")
    return bytes(value)


def write_user_id(octets: bytes) -> str:
    r"""A user ID as the engine prints it.

    >>> write_user_id("Zo\u00eb <z@example.org>".encode())
    'Zo\\xc3\\xab <z@example.org>'
    """
    if not octets.translate(None, bytes(_PLAIN)):
        return octets.decode("ascii")
    return "".join(chr(o) if o in _PLAIN else "\\\\" if o == 0x5C else f"\\x{o:02x}" for o in octets)


def read_user_id(spelled: bytes) -> bytes:
    r"""The octets of a spelled user ID; ValueError if a backslash is malformed.

    >>> read_user_id(b"a\\\\b\\x00")
    b'a\\b\x00'
    """
    first, *behind = bytes(spelled).split(b"\\")
    octets, parts = [first], iter(behind)
    for part in parts:
        if part == b"" and (plain := next(parts, None)) is not None:  # Between two backslashes.
            octets += b"\\", plain
        elif part[:1] == b"x" and len(part) > 2 and not part[1:3].strip(_EITHER_CASE):
            octets += bytes([int(part[1:3], 16)]), part[3:]
        else:
            raise ValueError(f"a malformed backslash in {spelled!r}")
    return b"".join(octets)


def for_people(octets: bytes, backslash: str = "\\\\") -> str:
    r"""A user ID as it may be shown on a terminal or a page: octets that are no text, and characters that don't print
    (among them those that change the direction of writing), become `\xhh`, and a backslash becomes two.

    >>> for_people(b"Eve \x1b[2J <eve@example.org>")
    'Eve \\x1b[2J <eve@example.org>'
    """
    def shown(character: str) -> str:
        if character == "\\":
            return backslash
        if character.isprintable():
            return character
        return "".join(f"\\x{o:02x}" for o in character.encode("utf-8", "surrogateescape"))

    text = octets.decode("utf-8", "surrogateescape")
    return text if text.isprintable() and "\\" not in text else "".join(map(shown, text))
