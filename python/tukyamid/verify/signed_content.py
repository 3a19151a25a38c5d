"""What a signed message holds: kept aside until it is verified, and then put in its place whole, or dropped."""

from pathlib import Path
from types import TracebackType

from ..output_files import Output
from ..service.paths_and_locks import default_database


class Content:
    """The place of a message's content: a file, standard output (`-`), or nowhere (None)."""

    def __init__(self, place: str | None) -> None:
        self._output = None if place is None else Output(place, [default_database()])

    def __enter__(self) -> "Content":
        if self._output is not None:
            self._output.__enter__()
        return self

    def __exit__(self, kind: type[BaseException] | None, error: BaseException | None,
                 traceback: TracebackType | None) -> None:
        if self._output is not None:
            self._output.__exit__(kind, error, traceback)

    @property
    def path(self) -> Path | None:
        """Where the verifier writes it: a file that doesn't exist yet. None if it isn't wanted."""
        return None if self._output is None else self._output.path

    def keep(self) -> None:
        """Puts it in its place."""
        if self._output is not None:
            self._output.keep()
