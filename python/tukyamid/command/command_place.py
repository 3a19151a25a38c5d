"""Where the command is among the words: options may come before it.

>>> place_of_command(["--root", "ab", "verify", "-x"]), place_of_command(["--root=ab", "-q", "web"])
(2, 2)
>>> place_of_command(["--for", "verify"]), place_of_command([])
(None, None)
"""

from __future__ import annotations

from ..fast_imports import TYPE_CHECKING
from .options import QUESTION

if TYPE_CHECKING:
    from collections.abc import Sequence

# The options of single commands that take a value. Those of questions are in `options`.
OWN_VALUES = frozenset(("--for", "--threshold", "--when", "--output", "--port", "--socket", "--state", "--every",
                        "--shell", "--by", "--most", "--days", "--meeting", "--depth"))


def place_of_command(words: Sequence[str]) -> int | None:
    """The place of the first word that is neither an option nor its value."""
    values = OWN_VALUES | {option.name for option in QUESTION if option.means is None}
    place = 0
    while place < len(words):
        word = words[place]
        if word == "--" or word == "-" or not word.startswith("-"):
            return place
        place += 2 if word in values else 1
    return None
