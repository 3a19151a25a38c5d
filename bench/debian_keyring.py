"""Debian's keyring as lines for the engine: its certificates, and the verdicts of the verifier on their signatures."""

import os
import subprocess
import sys
from pathlib import Path

from developer import TOP, fingerprint
from sequoia import DEBIAN

sys.path.insert(0, os.path.join(TOP, "model"))
from wot_model.packets import read_packets  # type: ignore[import]  # noqa: E402

VERIFIER = os.environ.get("TUKYAMID_VERIFIER", os.path.join(TOP, "verifier", "out", "wot-verdicts"))
KEY, USER_ID = 6, 13
# A certificate's fingerprint and a user ID.
Binding = tuple[str, str]


def is_here() -> bool:
    """Whether the keyring and the verifier are on this machine."""
    return os.access(VERIFIER, os.X_OK) and os.path.exists(DEBIAN.keyring)


def need() -> None:
    if not is_here():
        sys.exit(f"this needs {VERIFIER} (verifier/build) and {DEBIAN.keyring} (apt-get install debian-keyring)")


def certificates(octets: bytes) -> list[tuple[str, bytes, list[str]]]:
    """Each certificate's fingerprint, octets and user IDs that need no escapes; the root is the first one."""
    packets = read_packets(octets)
    starts = [index for index, packet in enumerate(packets) if packet.kind == KEY]
    found = []
    for first, last in zip(starts, starts[1:] + [len(packets)]):
        end = packets[last].at if last < len(packets) else len(octets)
        names = [packet.body for packet in packets[first:last] if packet.kind == USER_ID]
        texts = [name.decode() for name in names if name.isascii()]
        plain = [text for text in texts if text.isprintable() and "\\" not in text]
        found.append((fingerprint(packets[first].body).hex(), octets[packets[first].at : end], plain))
    return sorted(found, key=lambda each: each[0] != DEBIAN.root.lower())


def verified(keyring: Path) -> list[bytes]:
    """The engine's lines for a keyring: imports and verdicts."""
    ran = subprocess.run([VERIFIER, str(keyring)], capture_output=True, check=False)
    if not ran.stdout:
        sys.exit(f"{VERIFIER}: {ran.stderr.decode()}")
    return ran.stdout.splitlines(keepends=True)


def ask(binding: Binding) -> bytes:
    return b"ask v %s 120 %s\n" % (binding[0].encode(), binding[1].encode())
