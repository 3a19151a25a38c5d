"""What `--version` prints."""

from ..keyrings.verifier import Verifier, VerifierFailed
from ..version import version_text as own_text
from .output import printable


def version_text(verifier: str | None) -> str:
    """The versions of the command and of the verifier."""
    try:
        verified_by = Verifier([verifier] if verifier else None).version
    except VerifierFailed as error:
        verified_by = f"no verifier: {printable(str(error))}"
    return f"{own_text()}{verified_by}\n"
