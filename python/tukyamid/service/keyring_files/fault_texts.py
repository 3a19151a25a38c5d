"""What is wrong with a keyring, in words and as the service's lines have it."""

from __future__ import annotations

import os
from collections.abc import Sequence

from tukyamid.protocol.spelling import write_user_id


def fault_of(refused: int, total: int, left_out: Sequence[str]) -> str:
    """What is wrong with a keyring that was imported; empty if nothing is."""
    faults = [f"{refused} of {total} certificates were refused"] if refused else []
    if left_out:
        faults.append(left_out[0] + (f" (and {len(left_out) - 1} more)" if len(left_out) > 1 else ""))
    return "; ".join(faults)


def why_of(error: Exception) -> str:
    """Why a keyring couldn't be verified."""
    return error.strerror if isinstance(error, OSError) and error.strerror else str(error)


def is_text(name: str) -> bool:
    """Whether the database can keep a name."""
    return not any("\ud800" <= character <= "\udfff" for character in name)


def line_of(text: object) -> bytes:
    """A text of people's as one line."""
    return str(write_user_id(os.fsencode(str(text)))).encode() + b"\n"
