"""Which part of the command runs: a question, or one of the commands that come first and have words of their own."""

from __future__ import annotations

import gc

from ..fast_imports import TYPE_CHECKING
from . import quick_parser
from .command_place import place_of_command
from .exit_statuses import NOT_REACHED, REACHED, WrongWords
from .output import is_coloured, say, write

if TYPE_CHECKING:
    from collections.abc import Callable

    from .parsed_words import Given

    Run = Callable[[list[str]], int]


def run(words: list[str]) -> int:
    """Runs what the words say, and returns the exit status."""
    place = place_of_command(words)
    command = _command(words[place]) if place is not None else None
    if command is not None:
        return command([*words[:place], *words[(place or 0) + 1:]])
    gc.disable()  # A question ends before there is anything to collect, and looking for it takes time.
    given = quick_parser.read(words) or _parsed(words)
    if given.help:
        from . import parser
        write(parser.help_text())
        return REACHED
    if given.version:
        from .version_text import version_text
        write(version_text(given.verifier))
        return REACHED
    if given.question is None:
        raise WrongWords("a question is missing")
    return _answer(given)


def _parsed(words: list[str]) -> Given:
    """The words as the parser reads them, or says what is wrong with them."""
    from . import parser
    return parser.read(words)


def _command(word: str) -> Run | None:
    """A command with words of its own; its modules are imported only for it."""
    if word in ("keyring", "status", "log"):
        from . import service_commands
        return lambda words: service_commands.run(word, words)
    if word == "root":
        from . import root_command
        return root_command.run
    if word == "setup":
        from ..setup import setup_command
        return setup_command.run
    if word == "plan":
        from ..planning import plan_command
        return plan_command.run
    if word == "fragile":
        from ..planning import fragile_command
        return fragile_command.run
    if word == "verify":
        from ..verify import verify_command
        return verify_command.run
    if word == "watch":
        from ..watch import watch_command
        return watch_command.run
    if word == "web":
        from ..web import web_command
        return web_command.run
    if word == "check":
        from ..proofs import check_command
        return check_command.run
    if word == "doctor":
        from . import doctor
        return doctor.run
    return None


def _answer(given: Given) -> int:
    from ..formats import form
    from . import answer_text
    text, is_reached = answer_text.answer(given, form(given.format, is_coloured()), say)
    if not given.quiet:
        write(text)
    return REACHED if is_reached else NOT_REACHED
