"""The words of `tukyamid plan`."""

from __future__ import annotations

import argparse

from ..command import options, parser
from ..command.option_values import read_key, read_threshold
from ..command.parsed_words import Given
from .plan_making import MOST_TOGETHER
from .suppositions import MOST_DEPTH

HELP = """usage: tukyamid plan KEY USERID [--by KEY].. [--most K] [option..]
       tukyamid plan --meeting FILE [--depth N] [--most K] [option..]

Says which new certifications raise the amount of this user ID: the fewest that are enough, the cheapest first. Each
proposal is supposed in an engine of its own, and has the amount that the engine answers. Nothing is signed or kept.

With --meeting it says who of those who come should certify whom, in an order, until nothing is gained: a list for each
person, or with --format html a sheet for each to print. FILE has a fingerprint on each line."""
EPILOG = ("exit status: 0 if the amount is reached, or a proposal reaches it, or a meeting gains something; 1 if not;\n"
          "2 and 3 as for questions.\n")


class Wanted(Given):
    """The words of `tukyamid plan`, beside those of a question."""
    by: list[str]
    most: int | None
    meeting: str | None
    depth: int


def words_parser() -> parser.Parser:
    """The parser of its words."""
    made = parser.Parser(prog="tukyamid plan", description=HELP, epilog=EPILOG, add_help=False, allow_abbrev=False,
                         formatter_class=parser.Help)
    made.add_argument("words", nargs="*", help=argparse.SUPPRESS)
    parser.add_inputs(made)
    group = made.add_argument_group("the plan")
    parser.add_time_and_amount(group)
    group.add_argument("--by", metavar="KEY", type=parser.typed(read_key), action="append", default=[],
                       help="who may certify; may be given several times (the roots)")
    group.add_argument("--most", metavar="K", type=parser.typed(read_threshold),
                       help=f"propose at most K certifications together ({MOST_TOGETHER}; for a meeting any number)")
    group.add_argument("--meeting", metavar="FILE", help="the fingerprints of those who come to a meeting")
    group.add_argument("--depth", metavar="N", type=parser.typed(_read_depth), default=0,
                       help="at a meeting, make those who are certified introducers of this depth (0)")
    parser.add_options(group, [one for one in options.ANSWERS if one.name in ("--email", "--suppose")])
    group.add_argument("--format", choices=("tree", "json", "html"), default="tree", help="how the plan is shown")
    parser.add_programs(made)
    made.set_defaults(question="plan", paths=False, strict=False)
    return made


def _read_depth(text: str) -> int:
    if not (text.isascii() and text.isdigit() and int(text) <= MOST_DEPTH):
        raise ValueError(f"{text!r} is no depth: write a number from 0 to {MOST_DEPTH}")
    return int(text)
