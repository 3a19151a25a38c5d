"""The service that the page asks: the user's own, or one for the inputs that the words name."""

from __future__ import annotations

from collections.abc import Callable
from typing import TYPE_CHECKING, NamedTuple

from ..command.keyring_choice import Inputs
from ..command.named_inputs import sources_of
from ..command.parsed_words import Given
from ..safe_folders import runtime_file

if TYPE_CHECKING:
    from ..command.keyring_choice import Say


class Service(NamedTuple):
    """Its socket, what starts it again if it has ended, and whether it is the user's own, which keeps keyrings."""
    socket: str
    start: Callable[[], object]
    is_own: bool


def service_for(given: Given, inputs: Inputs, say: Say) -> Service:
    """The service, which is started unless it runs. Named inputs are verified first, unless they were before."""
    sources = sources_of(given)
    if not sources:
        from ..service.start_on_demand import ensure
        ensure()
        return Service(runtime_file("tukyamid.socket"), ensure, True)
    from ..command.input_service_client import Reopening
    reopening = Reopening(given, sources, lambda: inputs.as_paths(sources))
    say("reading the inputs; the first time, this takes as long as verifying them")
    start = reopening.ensure(lambda: inputs.verified(sources))
    return Service(start(), start, False)
