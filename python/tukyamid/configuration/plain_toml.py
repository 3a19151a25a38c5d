"""A reader of plain configuration files. Python's own reader of TOML takes as long to import as a question takes to be
answered, so a file as `tukyamid root add` writes it is read here. Anything else is left to that reader.

>>> read('amount = 60 # a comment\\n[roots]\\nabab = 120\\n[caller.git]\\nstrict = true\\nfor = ["@x.org"]\\n')
{'amount': 60, 'roots': {'abab': 120}, 'caller': {'git': {'strict': True, 'for': ['@x.org']}}}
>>> read('amount = 0x3c') is None, read('amount = 1\\namount = 1') is None, read('for = ["a", "b\\\\n"]') is None
(True, True, True)
"""

from __future__ import annotations

from ..fast_imports import TYPE_CHECKING

if TYPE_CHECKING:
    Table = dict[str, object]

_LONGEST_NUMBER = 18


def read(text: str) -> Table | None:
    """The table of a text; None if it has anything that isn't plain, be it wrong or not."""
    whole: Table = {}
    table = whole
    for line in text.split("\n"):
        front, mark, _ = line.partition("#")
        if not line.isprintable() or mark and ('"' in front or "'" in front):
            return None
        front = front.strip(" ")
        if front.startswith("["):
            found = _begun(whole, front)
            if found is None:
                return None
            table = found
        elif front and not _takes(table, front):
            return None
    return whole


def _begun(whole: Table, header: str) -> Table | None:
    """The new table of a header, `[NAME]` or `[NAME.NAME]`; None if it isn't plain, or is there already."""
    names = header[1:-1].split(".")
    if not header.endswith("]") or len(names) > 2 or not all(map(_is_bare, names)):
        return None
    above = whole
    if len(names) == 2:
        held = whole.setdefault(names[0], {})
        if not isinstance(held, dict) or not all(isinstance(one, dict) for one in held.values()):
            return None
        above = held
    if names[-1] in above:
        return None
    begun: Table = {}
    above[names[-1]] = begun
    return begun


def _takes(table: Table, line: str) -> bool:
    """Whether a line is a key with a plain value, which the table has then."""
    key, mark, said = line.partition("=")
    key, value = key.strip(" "), _value(said.strip(" "))
    if not mark or not _is_bare(key) or key in table or value is None:
        return False
    table[key] = value
    return True


def _is_bare(name: str) -> bool:
    return name.isascii() and name.replace("-", "a").replace("_", "a").isalnum()


def _value(text: str) -> object:
    """A number, `true`, `false`, a string, or a list of strings; None if it is anything else."""
    if text in ("true", "false"):
        return text == "true"
    if text.isascii() and text.isdigit():
        return int(text) if len(text) <= _LONGEST_NUMBER and (text == "0" or text[0] != "0") else None
    if text.startswith("[") and text.endswith("]"):
        items = [_string(item.strip(" ")) for item in text[1:-1].split(",")]
        return None if None in items else items
    return _string(text)


def _string(text: str) -> str | None:
    inner = text[1:-1]
    is_plain = len(text) >= 2 and text[0] == text[-1] == '"' and '"' not in inner and "\\" not in inner
    return inner if is_plain else None
