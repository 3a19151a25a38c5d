"""The parser of the command's words: their help, and what is wrong with them."""

from __future__ import annotations

import argparse
from collections.abc import Callable, Iterable, Sequence
from typing import Any, NoReturn

from . import options
from .exit_statuses import WrongWords
from .parsed_words import Given

HELP = """usage: tukyamid [option..] QUESTION ARGUMENT..

questions:
  authenticate KEY USERID   how confident can I be that this user ID belongs to this key?
  lookup USERID             which keys does this user ID belong to, best first?
  identify KEY              which user IDs belong to this key, best first?
  list [PATTERN]            list all bindings that reach the amount; PATTERN is a part of the user ID
  path KEY.. USERID         is there a path along these certificates, and if not, which step breaks it?
  explain KEY USERID        does each certification of this user ID count, and if not, why?

other commands, each with its own --help:
  verify FILE [SIGNATURE] --for WHOM   is this file signed by WHOM?
  watch KEY USERID          report each change of the answer, and run a command if you like
  plan KEY USERID           which new certifications would raise the amount of this user ID?
  fragile                   what rests on a single key or certification, and what ends soon?
  web                       open a page in the browser: who vouches for whom, and what would change that
  check FILE                check an answer that somebody else saved in a file
  keyring add|remove|list   change or list the keyrings that the service keeps
  root add|remove|list      change or list your own trust roots
  setup PROGRAM             have git, apt or another program ask Tukyamid whether signatures are good
  status                    show what the service holds
  log                       show who changed what
  doctor                    check the installation, and say how to repair it

KEY is a fingerprint or a key ID, with or without 0x in front."""
EPILOG = """exit status: 0 the amount is reached, by at least one binding; 1 it isn't; 2 the arguments are wrong;
3 there is no answer, and standard error says why; 130 it was interrupted.
environment: TUKYAMID_ENGINE and TUKYAMID_VERIFIER name the two programs; NO_COLOR turns colours off.
"""


class Parser(argparse.ArgumentParser):
    """A parser whose errors are WrongWords."""

    def error(self, message: str) -> NoReturn:
        _, is_unknown, words = message.partition("unrecognized arguments: ")
        names = [word.partition("=")[0] for word in words.split()] if is_unknown else []
        for name in names:
            if any(name in (option.name, option.short) for option in options.QUESTION):
                raise WrongWords(f"{name} goes with questions, such as tukyamid list; {self.prog} doesn't take it")
        raise WrongWords(message)

    def parse_intermixed_args(self, args: Sequence[str] | None = None,
                              namespace: Any = None) -> Any:
        """Of `args`, what follows `--` are words and no options: Python's own method takes them for options."""
        given = list(args or ())
        place = given.index("--") if "--" in given else len(given)
        read = super().parse_intermixed_args(given[:place], namespace)
        rest = given[place + 1:]
        *single, words = (action.dest for action in self._actions if not action.option_strings)
        for name in single:
            if rest and getattr(read, name) is None:
                setattr(read, name, rest.pop(0))
        getattr(read, words).extend(rest)
        return read


def read(words: Sequence[str]) -> Given:
    """The words as they are given; WrongWords if they can't be read."""
    return Given(**vars(parser().parse_intermixed_args(words)))


def help_text() -> str:
    return parser().format_help()


def parser() -> Parser:
    made = Parser(prog="tukyamid", description=HELP, epilog=EPILOG, add_help=False, allow_abbrev=False,
                  formatter_class=Help)
    made.add_argument("question", nargs="?", help=argparse.SUPPRESS)
    made.add_argument("words", nargs="*", help=argparse.SUPPRESS)
    add_inputs(made)
    group = made.add_argument_group("the question and its answer")
    add_time_and_amount(group)
    add_options(group, options.ANSWERS)
    add_programs(made)
    return made


class Help(argparse.RawDescriptionHelpFormatter):
    """The help without argparse's own line of usage: the description has it."""

    def __init__(self, prog: str) -> None:
        super().__init__(prog, width=100)  # To ask for the terminal's width would take longer than all the rest here.

    def add_usage(self, *_: Any, **__: Any) -> None:
        pass


def add_inputs(made: Parser) -> None:
    group = made.add_argument_group("where certificates come from (by default the service's keyring)")
    add_options(group, options.INPUTS)


def add_time_and_amount(group: argparse._ArgumentGroup) -> None:
    """As of when, and how far."""
    add_options(group, options.TIME_AND_AMOUNT)


def add_programs(made: Parser) -> None:
    add_options(made.add_argument_group("programs and caches"), options.PROGRAMS)


def add_options(group: argparse._ArgumentGroup, added: Iterable[options.Option]) -> None:
    for option in added:
        group.add_argument(*filter(None, (option.name, option.short)), **_words_of(option))


def _words_of(option: options.Option) -> dict[str, Any]:
    """An option in argparse's words."""
    words = {"dest": option.dest, "help": option.help or argparse.SUPPRESS, "default": option.default}
    if option.means is not None:
        return words | {"action": "store_const", "const": option.means}
    if option.is_many:
        words |= {"action": "append", "default": []}
    if option.read is not None:
        words["type"] = typed(option.read)
    return words | {"metavar": option.metavar or None, "choices": option.choices or None}


def typed(read_word: Callable[[str], Any]) -> Callable[[str], Any]:
    """What reads an argument: a ValueError is printed unchanged."""
    def read(text: str) -> Any:
        try:
            return read_word(text)
        except ValueError as error:
            raise argparse.ArgumentTypeError(str(error)) from None
    return read
