#!/usr/bin/python3
"""A stand-in for the verifier, for keyrings that the tests know: takes each signature as good by the issuer that it
names, if that is there or in a file after --with. It verifies nothing. TRUSTING_LOG names a file that gets a line for
each run: its words."""

import os
import sys
from itertools import takewhile
from pathlib import Path

sys.path.insert(0, str(Path(__file__).resolve().parents[3] / "python"))

from tukyamid.openpgp.certificates import KEY, key_fingerprint, key_id, packets, read_certificate  # noqa: E402


def certificates(octets):
    """The packets of each certificate, written again with lengths of four octets."""
    found = []
    for kind, body in packets(octets):
        if kind == KEY:
            found.append(b"")
        if kind != 12:
            found[-1] += bytes([0xC0 | kind, 255]) + len(body).to_bytes(4, "big") + body
    return found


def read(names):
    for path in map(Path, names):
        for file in sorted(path.rglob("*")) if path.is_dir() else [path]:
            if str(file) == "-":
                yield from certificates(sys.stdin.buffer.read())
            elif file.is_file():
                yield from certificates(file.read_bytes())


def judge(octets, there, wanted):
    certificate = read_certificate(octets)
    lists = [certificate.direct, *certificate.user_ids.values()]
    for signature in (one for signatures in lists for one in signatures):
        issuer = there.get(signature.said.issuer or signature.said.key_id)
        if issuer is not None and (wanted is None or signature.number in wanted):
            print(f"verdict {signature.number} good {issuer}")


def beside(options):
    """The files that have further keys of issuers: what follows `--with`."""
    names = options[options.index("--with") + 1:] if "--with" in options else []
    return list(takewhile(lambda name: not name.startswith("--"), names))


def main(words):
    if os.environ.get("TRUSTING_LOG"):
        with open(os.environ["TRUSTING_LOG"], "a", encoding="utf-8") as log:
            log.write(" ".join(words) + "\n")
    if words == ["--version"]:
        print("wot-verdicts", os.environ.get("TRUSTING_VERSION", "1 (a stand-in)"))
        return
    options, paths = words[:words.index("--")], words[words.index("--") + 1:]
    whole = list(read(paths))
    fprs = [key_fingerprint(body) for octets in (*whole, *read(beside(options))) for kind, body in packets(octets)
            if kind == KEY]
    there = {name: fpr for fpr in fprs for name in (fpr, key_id(fpr))}
    wanted = {line.split()[1] for line in sys.stdin if line.startswith("sig ")} if "--pending" in options else None
    for octets in whole:
        if wanted is None:
            print(f"import {octets.hex()}")
        if "--certificates" not in options:
            judge(octets, there, wanted)


try:
    main(sys.argv[1:])
except ValueError as error:
    sys.stderr.write(f"wot-verdicts: {error}\n")
    sys.exit(3)
