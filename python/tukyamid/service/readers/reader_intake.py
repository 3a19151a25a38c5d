"""Where a reader's lines come in. What the service has committed comes in here too."""

from __future__ import annotations

import os
from collections.abc import Awaitable, Callable, Sequence
from functools import partial

from ..line_intake import LineIntake
from ..sliced.sliced_keyring import Sliced
from ..storage.change_feed import Numbered
from ..storage.database_threads import Access
from ..whole.engine_pool import Hub
from .following_hub import FollowingHub
from .following_slices import FollowingSliced
from .moments import HasMoments
from .published import Published


async def _has_no_room() -> bool:
    return False


class ReaderIntake(LineIntake):
    def __init__(self, program: Sequence[str], most_engines: int, access: Access, budget: int, most_age: float | None,
                 published: Published, is_sliced: bool) -> None:
        super().__init__(program, most_engines, access, budget, most_age)
        self._is_sliced = is_sliced  # Whether the service holds the keyring in slices.
        self.published = published
        self._is_awaited = False  # Whether lines wait for changes to come.
        self._before: list[tuple[int, bytes]] = []  # What came before there was an engine.

    async def start(self) -> None:
        has_room = not self._is_sliced and await self._capacity.has_all()
        held: Hub | Sliced = self._whole() if has_room and not self._is_sliced else self._sliced()
        await held.start()
        if self._is_sliced and isinstance(held, Hub):  # By now.
            await held.close()
            held = self._sliced()
            await held.start()
        self._access.note(0, b"# begins behind change %d" % held.count)
        self._held = held
        self.take(self._before)

    @property
    def age(self) -> float:
        return self.published.age or 0.0

    @property
    def is_too_old(self) -> bool:
        age = self.published.age
        return self.most_age is not None and (age is None or age > self.most_age)

    @property
    def is_away(self) -> bool:
        return False

    @property
    def queues_questions(self) -> bool:
        """Whether a question that has begun waits in a queue, and may see later changes until it is answered."""
        return isinstance(self.held, Sliced)

    def has(self, number: int) -> bool:
        """Whether a line may begin that has to see the change of this number; if not, it may once that has come. Over
        slices each line in the queue looks itself."""
        if not isinstance(self.held, Hub) or self.held.count >= number:
            return True
        self._is_awaited = True
        return False

    def take(self, lines: Numbered) -> None:
        """Takes what the service has committed."""
        if self._held is None:
            self._before.extend(lines)
        elif self._waiting.is_clear:
            self._take(lines)
        else:
            self._waiting.add(partial(self._take, lines))

    def _take(self, lines: Numbered) -> None:
        assert isinstance(self.held, FollowingHub | FollowingSliced)
        self.held.take(lines)
        if self._is_awaited:
            self._is_awaited = False
            self._resumed()

    def use_slices(self) -> None:
        """The service holds the keyring in slices from now on."""
        self._is_sliced = True
        if isinstance(self._held, FollowingHub) and not self._waiting.is_held_up:
            self._begin_slicing(self._held, _has_no_room, None)

    async def _slice_unless(self, hub: Hub, has_room: Callable[[], Awaitable[bool]]) -> None:
        """What comes from now on may be too much for an engine, or of another kind. A new reader begins in slices."""
        await super()._slice_unless(hub, has_room)
        if self.held is hub:
            os._exit(1)

    def note_change(self, session: int, line: bytes) -> None:
        """Nothing: the service writes it down."""

    def note(self, session: int, line: bytes) -> None:
        if isinstance(self.held, FollowingSliced) and self._access.notes:
            self.held.note(session, line)
        else:
            self._access.note(session, line)

    def has_begun(self) -> None:
        """A client's line has begun."""
        if self._access.notes and isinstance(self.held, FollowingSliced):
            self.held.has_begun()

    def _whole(self) -> Hub:
        return FollowingHub(self._program, self._most_engines, self.database, self._access, self.published)

    def _sliced(self) -> Sliced:
        assert isinstance(self.database, HasMoments)
        count = self._held.count if self._held is not None else None
        return FollowingSliced(self._program, self._access, self.database, self._capacity.certificates, self.published,
                               count)
