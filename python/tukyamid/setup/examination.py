"""Which programs ask Tukyamid, as far as `tukyamid setup` had them do so."""

from collections.abc import Iterator

from ..command.exit_statuses import NoAnswer
from ..protocol.refusals import TukyamidError
from .programs import PROGRAMS, steps_of


def asking() -> Iterator[str]:
    """The names of the programs that ask. A program that isn't here, or can't be looked at, doesn't."""
    for name in PROGRAMS:
        try:
            if all(step.is_done() for step in steps_of(name, is_strict=False)):
                yield name
        except (NoAnswer, TukyamidError, OSError):
            continue
