#!/usr/bin/env python3
"""Stands for the verifier, as the service starts it. `--certificates` writes the certificates of a keyring of plain
packets or of a certificate directory. `--pending` says that each signature is by whom it names by a fingerprint of
version 4, or by its certificate's own key."""

import hashlib
import re
import sys
from pathlib import Path

KEY, SIGNATURE = 6, 2
PLACES = {KEY: 0, 13: 1, 17: 2, 14: 3}
NAMED = re.compile(rb"\x16\x21\x04(.{20})", re.DOTALL)


def packets(text):
    """Where each packet begins, its type, and its body."""
    at = 0
    while at < len(text):
        begin, first, lead = at, text[at], text[at + 1]
        if not first & 0x40:
            kind, size, at = first >> 2 & 15, 1 << (first & 3), at + 1
        elif lead == 255:
            kind, size, at = first & 63, 4, at + 2
        else:
            kind, size, at = first & 63, 1 if lead < 192 else 2, at + 1
        length = int.from_bytes(text[at:at + size], "big")
        start = at + size
        at = start + length - (0xC000 - 192 if size == 2 and first & 0x40 else 0)
        yield begin, kind, text[start:at]


def certificates(path):
    for file in sorted(path.glob("*/*")) + [path / "trust-root"] if path.is_dir() else [path]:
        text = sys.stdin.buffer.read() if str(file) == "-" else file.read_bytes() if file.exists() else b""
        begins = [begin for begin, kind, _ in packets(text) if kind == KEY]
        for begin, end in zip(begins, [*begins[1:], len(text)]):
            print("import", text[begin:end].hex())


def signatures(text):
    """The number of each signature, and who it says made it."""
    key, place, component, fpr = b"", 0, b"", ""
    for _, kind, body in packets(text):
        if kind == SIGNATURE:
            fields = b"wot1", key, bytes([place]), component, body
            framed = b"".join(len(field).to_bytes(4, "big") + field for field in fields)
            named = NAMED.search(body)
            yield hashlib.sha256(framed).hexdigest(), named[1].hex() if named else fpr
        elif kind in PLACES:
            place, component = PLACES[kind], body
        if kind == KEY:
            key, component = body, b""
            fpr = hashlib.sha1(b"\x99" + len(key).to_bytes(2, "big") + key).hexdigest()


def main():
    *words, path = sys.argv[1:]
    if words == ["--public", "--certificates", "--"]:
        certificates(Path(path))
        return 0
    keys = words[3:4] if words[2:3] == ["--with"] else []
    if words[:1] != ["--seconds"] or words[2:] != [*(["--with", *keys] if keys else []), "--pending", "--"]:
        return 2
    asked = {line.split(" ")[1] for line in sys.stdin.read().splitlines()[1:]}
    for number, issuer in signatures(Path(path).read_bytes()):
        if number in asked:
            print(f"verdict {number} good {issuer}")
    return 0


sys.exit(main())
