"""The options of a question: what each is called, what it takes, and what it is for.

`quick_parser` reads the usual words by them. `parser` has the help, and says what is wrong with any others.
"""

from __future__ import annotations

from ..fast_imports import TYPE_CHECKING
from ..formats import FORMS
from . import option_values

if TYPE_CHECKING:
    from collections.abc import Callable
    from typing import Any, NoReturn

    Read = Callable[[str], Any]


class Option:
    """An option. It takes a value, which `read` reads (a ValueError says what is wrong with it), unless it means one
    itself (`means`). One without `help` is hidden. `default` holds if no option of this `dest` is given."""
    __slots__ = ("name", "short", "help", "metavar", "read", "dest", "default", "means", "is_many", "choices")

    def __init__(self, name: str, help: str = "", metavar: str = "", read: Read | None = None, dest: str = "",
                 default: object = None, means: object = None, is_many: bool = False, short: str = "",
                 choices: tuple[str, ...] = ()) -> None:
        self.name, self.short, self.help, self.metavar, self.read = name, short, help, metavar, read
        self.dest = dest or name.removeprefix("--").replace("-", "_")
        self.default, self.means, self.is_many, self.choices = default, means, is_many, choices


def _switch(name: str, help: str, short: str = "") -> Option:
    """An option that is given or not."""
    return Option(name, help, default=False, means=True, short=short)


def _known_notation(name: str) -> NoReturn:
    """An option of sq-wot's, which has no counterpart here."""
    raise ValueError("no notation can be made known: in the engine a signature with a critical notation never counts; "
                     "`explain` names the notation")


INPUTS = (
    Option("--keyring", "a keyring, binary or armored; - is standard input; may be given several times", "FILE",
           is_many=True),
    Option("--directory", "a certificate directory", "FOLDER", is_many=True),
    _switch("--gpg", "gpg's own keyring, and its owner trust as roots"),
    _switch("--gpg-keyring", "gpg's own keyring, without its owner trust"),
    Option("--root", "a trust root, with amount 120 by default; without --root, gpg's with --gpg, otherwise your "
           "own (tukyamid root list), the directory's trust-root with --directory, or sq's", "KEY[:AMOUNT]",
           option_values.read_root, is_many=True),
)
TIME_AND_AMOUNT = (
    Option("--time", "as of this time (UTC): 2024-01-31, 2024-01-31T12:00:00Z, or @SECONDS since 1970", "TIME",
           option_values.read_time),
    Option("--amount", "the wanted amount: partial is 40, full 120 (the default), double 240",
           "N|partial|full|double", option_values.read_wanted, default=0),
    *(Option(f"--{word}", f"--amount {word}", dest="amount", means=amount)
      for word, amount in option_values.AMOUNTS.items()),
)
ANSWERS = (
    _switch("--email", "USERID is an e-mail address, in upper or lower case"),
    _switch("--strict", "a key that gpg or Sequoia treats as expired counts as not reached"),
    _switch("--paths", "list: show the paths too"),
    Option("--suppose", "what the answer would be if: ISSUER certifies KEY USERID [depth N] [amount N] [for REGEX], "
           "ISSUER revokes KEY USERID, without KEY|NUMBER; may be given several times", "WHAT",
           option_values.read_supposition, is_many=True),
    Option("--format", f"how the answer is shown: {', '.join(FORMS)}", "FORM", default=FORMS[0], choices=FORMS),
)
PROGRAMS = (
    _switch("--no-service", "start an engine just for this question"),
    Option("--cache", "where verified keyrings are kept", "FOLDER"),
    _switch("--no-cache", "don't use a cache"),
    _switch("--anew", "ignore the cache, and verify again"),
    Option("--engine", "the engine's program", "PROGRAM"),
    Option("--verifier", "the program wot-verdicts", "PROGRAM"),
    Option("--known-notation", read=_known_notation),
    _switch("--quiet", "print no answer: the exit status has it", short="-q"),
    _switch("--version", "print the versions and exit"),
    _switch("--help", "print this help and exit", short="-h"),
)
QUESTION = (*INPUTS, *TIME_AND_AMOUNT, *ANSWERS, *PROGRAMS)
