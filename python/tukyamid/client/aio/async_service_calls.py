"""The calls that only a service answers, asynchronous."""

from __future__ import annotations

import os
from abc import ABC
from typing import TYPE_CHECKING

from ...protocol import service_lines
from ...protocol.service_lines import Certified, Change, Found, Issued, KeyringAdded, KeyringLine, Waiting
from ...protocol.spelling import UserId
from ..reply_matching import no_progress
from .async_calls import Calls
from .async_listing import Listing

if TYPE_CHECKING:
    from collections.abc import Iterable

    from ..reply_matching import Progress


class ServiceCalls(Calls, ABC):
    """What a service can be asked besides."""

    async def status(self) -> dict[str, str]:
        """What the service holds and how it does, by name."""
        return {figure.name: figure.value async for figure in await self.do(service_lines.Status())}

    async def find(self, by: str, sought: UserId) -> Listing[Found]:
        """The user IDs that have an `address`, are a `user-id`, or have a `part` (`first`: the first hundred of these),
        and those of a `key` (a fingerprint or a key ID)."""
        return await self.do(service_lines.Find(by, sought))

    async def issuers(self, fpr: str) -> Listing[Issued]:
        """The signatures of a certificate with a good verdict, and who made each."""
        return await self.do(service_lines.Issuers(fpr))

    async def certified(self, fpr: str) -> Listing[Certified]:
        """The other certificates that have a good signature by this key, those with trust signatures first."""
        return await self.do(service_lines.CertifiedBy(fpr))

    async def excerpt(self, word: str, fprs: Iterable[str]) -> Listing[bytes]:
        """Lines `import` and `verdict` that make a part of the keyring, as in the synchronous client."""
        return await self.do(service_lines.Excerpt(word, fprs))

    async def log(self, count: int) -> Listing[Change]:
        """The last changes, newest first: when each was made, and by whom."""
        return await self.do(service_lines.Log(count))

    async def keyrings(self) -> list[KeyringLine]:
        """The keyrings that the service keeps, each with why it couldn't be read or isn't verified, if so."""
        return service_lines.with_faults([line async for line in await self.do(service_lines.KeyringList())])

    async def unverified(self) -> Waiting | None:
        """The signatures that no verifier has looked at; None if there are none. Ask this before a question: an amount
        that isn't reached says little while signatures wait."""
        return next(iter([one async for one in await self.do(service_lines.Unverified())]), None)

    async def add_keyring(self, name: str | os.PathLike[str], progress: Progress = no_progress) -> KeyringAdded:
        """Has the service read a keyring, by its absolute path or `gpg`, and again whenever it changes. Returns when
        its certificates are verified; `progress` is called meanwhile."""
        command = service_lines.KeyringAdd(name)
        return command.take(await self.send_line(command.line(), progress))

    async def remove_keyring(self, name: str | os.PathLike[str]) -> None:
        """Has the service watch a keyring no longer. What was taken from it stays."""
        await self.do(service_lines.KeyringRemove(name))
