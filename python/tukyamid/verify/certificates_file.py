"""The certificates that a keyring holds, as a file for the verifier: so both programs use the same ones."""

import contextlib
import tempfile
from collections.abc import Iterator

from ..keyrings.keyring import Keyring
from ..protocol.refusals import RefusedAbsent


@contextlib.contextmanager
def certificate_file(keyring: Keyring) -> Iterator[str]:
    """The path of a file of all certificates, which is there as long as it is needed."""
    with tempfile.NamedTemporaryFile(prefix="tukyamid-") as file:
        for key in list(keyring.engine.keys()):
            try:
                file.write(keyring.engine.export(key.fpr))
            except RefusedAbsent:
                continue  # Somebody else has dropped it meanwhile.
        file.flush()
        yield file.name
