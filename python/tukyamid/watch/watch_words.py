"""The words of `tukyamid watch`."""

from __future__ import annotations

import argparse

from ..command import options
from ..command.exit_statuses import WrongWords
from ..command.option_values import read_root
from ..command.parsed_words import Given
from ..command.parser import Help, Parser, add_options, typed
from ..fast_imports import TYPE_CHECKING

if TYPE_CHECKING:
    from collections.abc import Sequence

HELP = """usage: tukyamid watch [option..] KEY USERID [--exec COMMAND [ARGUMENT..]]

Prints how far this user ID belongs to this key, and then each change of that, with who changed the keyring in between.
It waits for changes until it is ended.

COMMAND is run at each change. Its standard input is what is printed, and its environment has TUKYAMID_KEY,
TUKYAMID_USER_ID, TUKYAMID_AMOUNT, TUKYAMID_BEFORE, TUKYAMID_WANTED, TUKYAMID_REACHED (yes or no), TUKYAMID_TIME (in
seconds since 1970), TUKYAMID_CHANGES (a line for each change of the keyring) and TUKYAMID_TEXT. If it fails or takes
longer than a minute, the watch ends. No shell runs it, unless --shell is given instead.
"""
EPILOG = """exit status: with --once, 0 if the amount is reached and 1 if it isn't; 2 the arguments are wrong; 3 the
service or COMMAND failed, or signatures that wait to be verified may change the answer; 130 it was interrupted.
"""
MOST_SECONDS = 86_400


class Wanted(Given):
    """What the words say. `command` is what `--exec` or `--shell` runs, empty without either."""
    state: str | None
    once: bool
    every: int
    shell: str | None
    command: list[str]


def read(words: Sequence[str]) -> Wanted:
    """The words, read; WrongWords if they are wrong. What follows `--exec` is the command's."""
    place = words.index("--exec") if "--exec" in words else len(words)
    given = Wanted(**vars(parser().parse_intermixed_args(words[:place])))
    given.command = list(words[place + 1:])
    if given.help:
        return given
    if place < len(words) and not given.command:
        raise WrongWords("--exec takes a command")
    if given.shell is not None and given.command:
        raise WrongWords("give --exec or --shell, not both")
    if given.shell is not None:
        given.command = ["/bin/sh", "-c", given.shell]
    return given


def help_text() -> str:
    return parser().format_help()


def parser() -> Parser:
    made = Parser(prog="tukyamid watch", description=HELP, epilog=EPILOG, add_help=False, allow_abbrev=False,
                  formatter_class=Help)
    made.add_argument("words", nargs="*", help=argparse.SUPPRESS)
    group = made.add_argument_group("the watch")
    group.add_argument("--root", metavar="KEY[:AMOUNT]", type=typed(read_root), action="append", default=[],
                       help="a trust root, with amount 120 by default; without --root your own (tukyamid root list)")
    add_options(group, [one for one in options.TIME_AND_AMOUNT if one.dest == "amount"])
    group.add_argument("--once", action="store_true", help="end after the first change")
    group.add_argument("--state", metavar="FILE", help="keep the last report here: what changed while no watch ran is "
                       "reported when one starts")
    group.add_argument("--every", metavar="SECONDS", type=typed(_read_seconds), default=60,
                       help="how often to look whether time alone has changed the amount (60)")
    group.add_argument("--shell", metavar="TEXT", help="run this text by /bin/sh at each change")
    group.add_argument("--quiet", "-q", action="store_true", help="print nothing")
    group.add_argument("--help", "-h", action="store_true", help="print this help and exit")
    made.set_defaults(question="watch", keyring=[], directory=[], gpg=False, gpg_keyring=False, time=None, email=False,
                      strict=False, paths=False, format="", no_service=False, cache=None, no_cache=False, anew=False,
                      engine=None, verifier=None, version=False)
    return made


def _read_seconds(text: str) -> int:
    if not (text.isascii() and text.isdigit() and 1 <= int(text) <= MOST_SECONDS):
        raise ValueError(f"{text!r} isn't a number of seconds from 1 to {MOST_SECONDS:,}")
    return int(text)
