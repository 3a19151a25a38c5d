"""Reads the lines of a script, as of a dump: the command of each. How a line is read follows from the command's `form`.

>>> read_command(b"view me root fac804259d6b2997afe074fcd2112d7c6c04741c 120")
Root(view='me', fpr='fac804259d6b2997afe074fcd2112d7c6c04741c', amount=120)
"""

from collections.abc import Callable

from . import claims, commands, spelling
from .command_base import Line


def _user_id(text: str) -> bytes:
    return spelling.read_user_id(text.encode("latin-1"))


# How the fields with these names are read. Any other field is passed on as it is in the line.
_FIELDS: dict[str, Callable[[str], object]] = {
    "amount": int, "count": int, "time": int, "wanted": int, "digits": bytes.fromhex, "uid": _user_id,
    "paths_text": claims.read_paths, "table_text": claims.read_table,
}


class _Form:
    """The form of a command: its words, and how each of its fields is read."""

    def __init__(self, make: Callable[..., Line], form: str) -> None:
        self._make = make
        self.word, *parts = form.split(" ")
        self.second = parts.pop(1) if len(parts) > 1 and not parts[1].startswith("{") else ""
        names = [part.removeprefix("{0.").removesuffix("}") for part in parts]
        self._readers: list[Callable[[str], object]] = [_FIELDS.get(name, str) for name in names]
        # A user ID is the rest of the line, so the line is cut at no more spaces than these.
        self.spaces = len(parts) - 1 + bool(self.second) if names[-1:] == ["uid"] else -1

    def read(self, fields: list[str]) -> Line:
        """The command with these fields; ValueError if they are too many, too few or malformed."""
        return self._make(*(read(field) for read, field in zip(self._readers, fields, strict=True)))


_ALL = [_Form(made, made.form) for made in vars(commands).values()
        if isinstance(made, type) and issubclass(made, Line) and "form" in vars(made)]
_FORMS = {(form.word, form.second): form for form in _ALL}
_TWO_WORDS = {form.word for form in _ALL if form.second}
_SPACES = {form.word: form.spaces for form in _ALL if form.spaces >= 0}


def read_command(line: bytes) -> Line:
    """The command of a line; ValueError if the client knows none."""
    word, space, rest = line.decode("latin-1").removesuffix("\n").partition(" ")
    fields = rest.split(" ", _SPACES.get(word, -1)) if space else []
    second = fields.pop(1) if word in _TWO_WORDS and len(fields) > 1 else ""
    try:
        return _FORMS[word, second].read(fields)
    except KeyError:
        raise ValueError(f"{line[:200]!r} isn't a command") from None
