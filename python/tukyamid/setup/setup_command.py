"""The words of `tukyamid setup`."""

import argparse
import os
from collections.abc import Sequence

from ..command.exit_statuses import REACHED, NoAnswer, WrongWords
from ..command.output import printable, write
from ..command.parser import Parser
from .programs import PROGRAMS, steps_of, undone_steps_of

HELP = f"""usage: tukyamid setup PROGRAM [--strict] [--show] [--undo]

Has a program ask Tukyamid whether signatures are good, by tukyamid-gpg. PROGRAM is one of
  {', '.join(PROGRAMS)}.

  --strict   the program refuses what the engine doesn't reach
  --show     print what would be set, and change nothing
  --undo     take back what was set

gpgme is the library of many mail programs. dpkg is dpkg-source, dscverify, uscan and debsig-verify; debootstrap is
mmdebstrap as well; pacman is pacman-key and makepkg as well. Only root can set up apt and pacman. See docs/CLIENTS.md.
"""


class Words(argparse.Namespace):
    """What the words say."""
    words: list[str]
    strict: bool
    show: bool
    undo: bool
    quiet: bool


def parser() -> Parser:
    """The parser of this command."""
    made = Parser(prog="tukyamid setup", add_help=False, allow_abbrev=False)
    made.add_argument("words", nargs="*")
    made.add_argument("--strict", action="store_true", help="it refuses what the engine doesn't reach")
    made.add_argument("--show", action="store_true", help="print what would be set, and change nothing")
    made.add_argument("--undo", action="store_true", help="take back what was set")
    made.add_argument("--quiet", "-q", action="store_true", help="print nothing if all is well")
    return made


def run(words: Sequence[str]) -> int:
    """Runs the command, and returns the exit status."""
    if any(word in ("--help", "-h") for word in words):
        write(HELP)
        return REACHED
    given = Words()
    parser().parse_intermixed_args(words, given)
    if len(given.words) != 1 or given.words[0] not in PROGRAMS:
        raise WrongWords(f"setup takes one of: {', '.join(PROGRAMS)}")
    if given.undo and (given.strict or given.show):
        raise WrongWords("--undo goes without --strict and --show")
    name, = given.words
    if PROGRAMS[name].is_of_host and os.geteuid() != 0 and not given.show:
        raise NoAnswer(f"only root can set up {name} for the host; --show prints what it takes")
    if name == "gpgme" and given.strict:
        raise WrongWords("gpgme is a library: name the program in the configuration ([caller.NAME] strict = true)")
    lines = _undo(name) if given.undo else _do(name, given)
    if not given.quiet:
        write("".join(printable(line) + "\n" for text in lines for line in text.splitlines()))
    return REACHED


def _undo(name: str) -> list[str]:
    for step in reversed(undone_steps_of(name)):
        step.undo()
    return [f"{name} no longer asks Tukyamid"]


def _do(name: str, given: Words) -> list[str]:
    steps = steps_of(name, given.strict)
    if not given.show:
        for step in steps:
            step.do()
    said = [] if given.show else [f"{name} asks Tukyamid now; this was set:"]
    return [*said, *(step.shown() for step in steps)]
