"""What to call the keys that an answer has."""

from ..keyrings.keyring import Keyring
from ..protocol.spelling import for_people


class Names:
    """A user ID to say whose a key is, for each fingerprint that was noted; empty if none is known."""

    def __init__(self, keyring: Keyring) -> None:
        self._keyring = keyring
        self.found: dict[str, str] = {}

    def note(self, *fprs: str | None) -> bool:
        """Looks these up. Returns whether the keyring has all of them."""
        for fpr in fprs:
            if fpr is not None and len(fpr) >= 40 and fpr not in self.found:
                name = self._keyring.name(fpr)
                self.found[fpr] = "" if name is None else for_people(name)
        return all(fpr is not None and len(fpr) >= 40 and self._keyring.certificate(fpr) is not None for fpr in fprs)

    def of(self, fpr: str) -> str:
        """What to call a key in a sentence."""
        self.note(fpr)
        return self.found.get(fpr) or f"the key {fpr}"
