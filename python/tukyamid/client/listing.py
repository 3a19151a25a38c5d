"""A long reply of the synchronous client."""

from __future__ import annotations

from ..fast_imports import TYPE_CHECKING, Generic, RLock, TypeVar, cast
from ..protocol.refusals import ProtocolError
from ..protocol.reply_reader import ListingHead

if TYPE_CHECKING:
    from collections.abc import Callable, Iterator

    from .streams import Wire

T = TypeVar("T")
U = TypeVar("U")


class Listing(Generic[T]):
    """A long reply: `count` items, each read when it is asked for. It is gone through once.

    Another command may be given at any time; what is left of the listing is then read into memory first."""

    def __init__(self, head: ListingHead, wire: Wire, lock: RLock) -> None:
        self.count = head.count
        self._item = head.item
        self._read: Callable[[str], T] = cast("Callable[[str], T]", head.read)
        self._wire = wire
        self._lock = lock
        self._left = head.count
        self._kept: list[T] = []  # The last one first.

    def of(self, item: type[U]) -> Listing[U]:
        """This listing, if its items are of this type; else a ProtocolError."""
        if self._item is not item:
            raise ProtocolError(f"a listing of {item.__name__} was asked for, and one of {self._item.__name__} came")
        return cast("Listing[U]", self)

    def __iter__(self) -> Listing[T]:
        return self

    def __length_hint__(self) -> int:
        return self._left + len(self._kept)

    def __next__(self) -> T:
        with self._lock:
            if self._kept:
                return self._kept.pop()
            if not self._left:
                raise StopIteration
            return self._take()

    def octets(self) -> Iterator[bytes]:
        """What is left as it comes, in pieces that end anywhere: the quick way for a long dump. There must be no watch,
        since its lines would come in between."""
        while self._left:
            with self._lock:
                piece = self._wire.some()
                self._left -= piece.count(b"\n")
            if self._left < 0 or not self._left and not piece.endswith(b"\n"):
                raise ProtocolError("more came than the reply has")
            yield piece

    def read_ahead(self) -> None:
        """Reads what is left into memory."""
        if self._left:
            self._kept = [self._take() for _ in range(self._left)][::-1]

    def skip(self) -> None:
        """Reads what is left, and drops it."""
        while self._left:
            self._take()

    def _take(self) -> T:
        item = self._read(self._wire.line())
        self._left -= 1
        return item
