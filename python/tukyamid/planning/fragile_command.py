"""`tukyamid fragile`: what rests on a single key or certification, and what ends soon?"""

from __future__ import annotations

import argparse
import json
import sys
import time
from collections.abc import Callable, Sequence
from typing import TextIO

from ..command import parser
from ..command.configured import configure
from ..command.exit_statuses import REACHED, NoAnswer, WrongWords
from ..command.keyring_choice import Inputs
from ..command.option_values import read_threshold
from ..command.output import say, write
from ..command.parsed_words import Given
from ..command.trust_roots import Roots
from ..formats.phrases import Called, moment
from .fragile_making import DAYS, MOST_DAYS, fragile_in
from .fragile_tables import as_text, tables

HELP = """usage: tukyamid fragile [--days N] [option..]

Says which bindings rest on a single key or certification, what would make them safe, and which bindings fall when
something ends within the next days. The engine answers each question without the key or the certification."""


class Wanted(Given):
    """The words of `tukyamid fragile`, beside those of a question."""
    days: int


def run(words: Sequence[str]) -> int:
    """Runs the command, and returns the exit status."""
    made = words_parser()
    given = Wanted(**vars(made.parse_args(words)))
    if given.help:
        write(made.format_help())
        return REACHED
    if given.days > MOST_DAYS:
        raise WrongWords(f"--days takes at most {MOST_DAYS}")
    configure(given)
    at = int(time.time()) if given.time is None else given.time
    with Inputs(given, say) as inputs:
        waiting = inputs.keyring.index.waiting()
        if waiting is not None:
            raise NoAnswer(f"nothing can be said yet: {waiting}")
        roots = Roots(given, inputs).find(at)
        program = [given.engine] if given.engine else None
        found = fragile_in(inputs.keyring, at, roots.amounts, given.amount, given.days, progress_for(sys.stderr),
                           program)
        called = Called(inputs.keyring)
        if given.format == "json":
            shown = {"question": "fragile", "time": at, "wanted": given.amount, "days": given.days,
                     "reached": found.reached, "tables": tables(found, called.of), "notes": list(roots.notes)}
            write(json.dumps(shown, indent=2, ensure_ascii=False) + "\n")
        elif not given.quiet:
            notes = "".join(f"note: {note}\n" for note in roots.notes)
            write(f"as of {moment(at)}\n\n{as_text(found, called.of)}{notes}")
    return REACHED


def progress_for(error: TextIO) -> Callable[[str], None]:
    """What says how far it is: to people who wait at a terminal, and else nothing."""
    def show(text: str) -> None:
        if error.isatty():
            say(text)
    return show


def words_parser() -> parser.Parser:
    """The parser of its words."""
    made = parser.Parser(prog="tukyamid fragile", description=HELP, add_help=False, allow_abbrev=False,
                         formatter_class=parser.Help)
    parser.add_inputs(made)
    group = made.add_argument_group("what is looked for")
    parser.add_time_and_amount(group)
    group.add_argument("--days", metavar="N", type=parser.typed(read_threshold), default=DAYS,
                       help=f"what ends within this many days ({DAYS})")
    group.add_argument("--format", choices=("tree", "json"), default="tree", help=argparse.SUPPRESS)
    parser.add_programs(made)
    made.set_defaults(question="fragile", words=[], paths=False, strict=False, email=False, suppose=[])
    return made
