"""The calls that only a service answers."""

from __future__ import annotations

import os
from abc import ABC

from ..fast_imports import TYPE_CHECKING
from ..protocol import service_lines
from ..protocol.service_lines import Certified, Change, Found, Issued, KeyringAdded, KeyringLine, Waiting
from ..protocol.spelling import UserId
from .calls import Calls
from .listing import Listing
from .reply_matching import no_progress

if TYPE_CHECKING:
    from collections.abc import Iterable

    from .reply_matching import Progress


class ServiceCalls(Calls, ABC):
    """What a service can be asked besides."""

    def status(self) -> dict[str, str]:
        """What the service holds and how it is doing, by name."""
        return {figure.name: figure.value for figure in self.do(service_lines.Status())}

    def find(self, by: str, sought: UserId) -> Listing[Found]:
        """The user IDs that have an `address`, are a `user-id`, or have a `part` (`first`: the first hundred of these),
        and those of a `key` (a fingerprint or a key ID)."""
        return self.do(service_lines.Find(by, sought))

    def issuers(self, fpr: str) -> Listing[Issued]:
        """The signatures of a certificate with a good verdict, and who made each."""
        return self.do(service_lines.Issuers(fpr))

    def certified(self, fpr: str) -> Listing[Certified]:
        """The other certificates that have a good signature by this key, those with trust signatures first."""
        return self.do(service_lines.CertifiedBy(fpr))

    def excerpt(self, word: str, fprs: Iterable[str]) -> Listing[bytes]:
        """Lines `import` and `verdict` that make a part of the keyring: a `key` alone; `from` some keys, whoever trust
        signatures lead to, and with `reach` all that those have certified; `about` keys, the issuers of their
        signatures too, and with `to` whoever leads to these. `question` is for asking about the first key from the
        others as roots."""
        return self.do(service_lines.Excerpt(word, fprs))

    def log(self, count: int) -> Listing[Change]:
        """The last changes, newest first: when each was made, and by whom."""
        return self.do(service_lines.Log(count))

    def keyrings(self) -> list[KeyringLine]:
        """The keyrings that the service keeps, each with why it couldn't be read or isn't verified, if so."""
        return service_lines.with_faults(self.do(service_lines.KeyringList()))

    def unverified(self) -> Waiting | None:
        """The signatures that no verifier has looked at; None if there are none. Ask this before a question: an amount
        that isn't reached says little while signatures wait."""
        return next((one for one in self.do(service_lines.Unverified())), None)

    def add_keyring(self, name: str | os.PathLike[str], progress: Progress = no_progress) -> KeyringAdded:
        """Has the service read a keyring, by its absolute path or `gpg`, and again whenever it changes. Returns when
        its certificates are verified; `progress` is called meanwhile."""
        command = service_lines.KeyringAdd(name)
        return command.take(self.send_line(command.line(), progress))

    def remove_keyring(self, name: str | os.PathLike[str]) -> None:
        """Has the service watch a keyring no longer. What was taken from it stays."""
        self.do(service_lines.KeyringRemove(name))
