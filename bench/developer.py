"""A keyring as a developer's directory has it, made again from one seed: what the benches of keyrings run on.

900 certificates of some 30 kB: an RSA key of 4096 bits, three user IDs with fourteen certifications each (one of them
the key's own), a picture, two subkeys. Certifications are by random earlier keys, one in eight of them as an
introducer of depth 1 to 3. 40,000 verdicts, each good by the issuer.
"""

import hashlib
import os
import random
import subprocess
import sys
from collections.abc import Callable, Iterable, Iterator
from typing import IO

TOP = os.path.dirname(os.path.dirname(os.path.abspath(__file__)))
PROGRAM = os.environ.get("WOT_PROGRAM", os.path.join(TOP, "crates", "wot_cli", "out", "wot_cli"))
BENCH = os.path.join(TOP, "crates", "wot_bench", "out", "wot_bench")
CERTS = 900
DIRECT = 400
CREATED = 1400000000
NOW = 1700000000
Key = tuple[bytes, bytes]


def packet(kind: int, body: bytes) -> bytes:
    size = len(body)
    if size < 192:
        length = bytes([size])
    elif size < 8384:
        length = bytes([192 + ((size - 192) >> 8), (size - 192) & 255])
    else:
        length = b"\xff" + size.to_bytes(4, "big")
    return bytes([0xC0 | kind]) + length + body


def fingerprint(key: bytes) -> bytes:
    return hashlib.sha1(b"\x99" + len(key).to_bytes(2, "big") + key).digest()


def numbered(key: bytes, place: int, component: bytes) -> Callable[[bytes], bytes]:
    """What gives the number of each signature on a component."""
    fields = b"wot1", key, bytes([place]), component
    front = hashlib.sha256(b"".join(len(field).to_bytes(4, "big") + field for field in fields))

    def digest(signature: bytes) -> bytes:
        whole = front.copy()
        whole.update(len(signature).to_bytes(4, "big") + signature)
        return whole.digest()
    return digest


def number(key: bytes, place: int, component: bytes, signature: bytes) -> str:
    return numbered(key, place, component)(signature).hex()


def signature(
    draw: random.Random, kind: int, made: int, issuer: bytes, extra: bytes = b"", material: int = 514
) -> bytes:
    hashed = b"\x05\x02" + made.to_bytes(4, "big") + extra + b"\x16\x21\x04" + issuer
    unhashed = b"\x09\x10" + issuer[-8:]
    areas = len(hashed).to_bytes(2, "big") + hashed + len(unhashed).to_bytes(2, "big") + unhashed
    return bytes([4, kind, 1, 8]) + areas + draw.randbytes(2 + material)


class Certificate:
    """The octets of a certificate, its fingerprint, its user IDs, and its signatures: (number, issuer)."""

    def __init__(self, draw: random.Random, index: int, keys: list[Key]) -> None:
        self.key, self.fpr = keys[index]
        self.user_ids = [b"user %d <u%d.%d@example.org>" % (index, index, place) for place in range(3)]
        self.verdicts: list[tuple[str, bytes]] = []
        parts = [packet(6, self.key)]
        if index < DIRECT:
            parts.append(self.signed(draw, 0, b"", 0x1F, self.fpr))
        for user_id in self.user_ids:
            parts.append(packet(13, user_id))
            parts.append(self.signed(draw, 1, user_id, 0x13, self.fpr))
            for _ in range(13):
                issuer = keys[draw.randrange(max(index, 1))][1]
                trust = bytes([3, 5, draw.randrange(1, 4), draw.randrange(60, 121)]) if draw.randrange(8) == 0 else b""
                parts.append(self.signed(draw, 1, user_id, 0x10, issuer, trust))
        picture = draw.randbytes(3100)
        parts.append(packet(17, picture))
        for _ in range(2):
            subkey = keys[draw.randrange(len(keys))][0]
            parts += [packet(14, subkey), self.signed(draw, 3, subkey, 0x18, self.fpr)]
        self.octets = b"".join(parts)

    def signed(
        self, draw: random.Random, place: int, component: bytes, kind: int, issuer: bytes, extra: bytes = b""
    ) -> bytes:
        made = CREATED + 1000 * CERTS + draw.randrange(200000000)
        body = signature(draw, kind, made, issuer, extra)
        self.verdicts.append((number(self.key, place, component, body), issuer))
        return packet(2, body)


def keys_of(draw: random.Random, count: int, material: int = 518) -> list[Key]:
    keys = []
    for index in range(count):
        key = b"\x04" + (CREATED + 1000 * index).to_bytes(4, "big") + b"\x01" + draw.randbytes(material)
        keys.append((key, fingerprint(key)))
    return keys


def developer() -> list[Certificate]:
    """The certificates, in order; the first is a good root, since the others are certified by earlier ones."""
    draw = random.Random(1)
    keys = keys_of(draw, CERTS)
    return [Certificate(draw, index, keys) for index in range(CERTS)]


def imports(certificates: Iterable[Certificate]) -> Iterator[bytes]:
    for certificate in certificates:
        yield b"import " + certificate.octets.hex().encode() + b"\n"


def verdicts(certificates: Iterable[Certificate]) -> Iterator[bytes]:
    for certificate in certificates:
        for signature_number, issuer in certificate.verdicts:
            yield f"verdict {signature_number} good {issuer.hex()}\n".encode()


def write_script(file: IO[bytes], certificates: list[Certificate]) -> None:
    file.writelines(imports(certificates))
    file.writelines(verdicts(certificates))


def build(*crates: tuple[str, list[str]]) -> None:
    """Builds these programs, unless they are built already or WOT_PROGRAM names another one."""
    for crate, words in crates:
        if crate == "wot_cli" and "WOT_PROGRAM" in os.environ:
            continue
        folder = os.path.join(TOP, "crates", crate)
        built = subprocess.run(["rt", "run", "--"] + words, cwd=folder, stdin=subprocess.DEVNULL, capture_output=True)
        if not os.path.exists(os.path.join(folder, "out", crate)):
            sys.exit(built.stderr.decode())


def run(words: list[str], source: str) -> tuple[float, int]:
    """Seconds of processor time, and kilobytes held at most."""
    with open(source, "rb") as stdin, open(os.devnull, "wb") as stdout:
        process = subprocess.Popen(words, stdin=stdin, stdout=stdout)
        _, status, usage = os.wait4(process.pid, 0)
    if status != 0:
        sys.exit(f"{words[0]} ended with the wait status {status}")
    return usage.ru_utime + usage.ru_stime, usage.ru_maxrss
