"""The network that was asked for last: it is gathered in a thread, and shown as far as it is meanwhile."""

from __future__ import annotations

import asyncio
from collections.abc import Collection
from typing import Any

from ..keyrings.keyring import Keyring
from .names import Names
from .network import Network
from .network_picture import Picture, Tree
from .page_requests import Standpoint
from .service_connections import ServiceConnections

# What is done within this time is shown at once, so that a small keyring is drawn once.
PATIENCE = 0.4
MANY, LATER_PATIENCE = 2000, 1.5
MOST_LISTED = 30


class Networks:
    """Keeps one network. One of another standpoint, or of an earlier keyring, is given up."""

    def __init__(self, connections: ServiceConnections) -> None:
        self._connections = connections
        self._kept: tuple[object, Network] | None = None
        self._task: asyncio.Task[None] | None = None
        self._whole: Tree | None = None

    async def ask(self, standpoint: Standpoint, opened: Collection[str]) -> dict[str, Any]:
        """The picture as far as it is, and how many keys are authenticated."""
        network = await self._network(standpoint)
        if self._task is not None and not network.is_done:
            # To draw what is there takes time too, so it is done less often the more there is.
            await asyncio.wait([self._task], timeout=LATER_PATIENCE if network.asked > MANY else PATIENCE)
        if self._task is not None and self._task.done() and not network.is_done:
            self._kept = None
            if (failure := self._task.exception()) is not None:
                raise failure
        drawn = await asyncio.to_thread(lambda: Picture(self._tree(network), opened).drawn())
        return {**drawn, **network.counts(), "asked": network.asked, "total": network.total, "done": network.is_done}

    def _tree(self, network: Network) -> Tree:
        """The tree as it is; that of a whole network is made once."""
        if self._whole is None or self._whole.network is not network:
            tree = Tree(network)
            self._whole = tree if network.is_done else None
            return tree
        return self._whole

    async def others(self, standpoint: Standpoint, begin: int) -> dict[str, Any]:
        """Some of the keys that aren't authenticated."""
        network = await self._network(standpoint)
        if self._task is not None and not network.is_done:
            await asyncio.wait([self._task], timeout=PATIENCE)
        sought = network.others[begin:begin + MOST_LISTED]
        names = await self._connections.do(lambda keyring: _named(keyring, sought))
        return {"count": len(network.others), "begin": begin, "keys": sought, "names": names}

    async def whole(self, standpoint: Standpoint) -> Network | None:
        """The network once all of it is there; None if that takes longer."""
        network = await self._network(standpoint)
        if self._task is not None and not network.is_done:
            await asyncio.wait([self._task], timeout=PATIENCE)
        return network if network.is_done else None

    async def _network(self, standpoint: Standpoint) -> Network:
        async with self._connections.talking() as client:
            change = max([one.number async for one in await client.log(1)], default=0)
        of = (standpoint.time, tuple(standpoint.roots.items()), change)
        if self._kept is None or self._kept[0] != of:
            self.close()
            network = Network(standpoint)
            self._kept = of, network
            self._task = asyncio.create_task(self._connections.ask(network.gather, True))
        return self._kept[1]

    def close(self) -> None:
        """Gives up what is under way."""
        if self._kept is not None:
            self._kept[1].is_given_up = True
        self._kept = self._whole = None


def _named(keyring: Keyring, fprs: list[str]) -> dict[str, str]:
    names = Names(keyring)
    names.note(*fprs)
    return names.found
