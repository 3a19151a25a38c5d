"""From a key as people name it to its fingerprint."""

from ..keyrings.keyring import Keyring
from .exit_statuses import NoAnswer, WrongWords

_KEY_ID_DIGITS = 16


def resolve(keyring: Keyring, key: str) -> str:
    """The fingerprint of a fingerprint or of a key ID. A key ID must be that of one key of the keyring."""
    if len(key) != _KEY_ID_DIGITS:
        return key
    found = keyring.index.by_key_id(key)
    if not found:
        raise NoAnswer(f"no key in the keyring has the key ID {key}")
    if len(found) > 1:
        raise WrongWords(f"several keys have the key ID {key}, so give a fingerprint: {', '.join(found)}")
    return found[0]
