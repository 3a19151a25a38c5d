"""What a reader is started with: words for a process of its own, and the descriptors that it inherits."""

from __future__ import annotations

import json
from dataclasses import asdict, dataclass


@dataclass(frozen=True)
class ReaderWords:
    """`parent` is the service's process. `control`, `feed` and `published` are descriptors."""
    readers: int
    database: str
    program: list[str]
    engines: int
    budget: int
    patience: float
    max_age: float | None
    order: str | None
    parent: int = 0
    control: int = -1
    feed: int = -1
    published: int = -1
    has_others: bool = False
    is_sliced: bool = False

    def spelled(self) -> str:
        return json.dumps(asdict(self))


def read_words(text: str) -> ReaderWords:
    return ReaderWords(**json.loads(text))


@dataclass(frozen=True)
class ClientWords:
    """A client that is handed to a reader: its number, and what it may do."""
    number: int
    may_change: bool
    most_views: int
    users: list[int] | None

    def spelled(self) -> bytes:
        return b"client " + json.dumps(asdict(self)).encode()


def read_client(text: bytes) -> ClientWords:
    return ClientWords(**json.loads(text))
