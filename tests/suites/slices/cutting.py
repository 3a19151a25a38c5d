"""Networks with real signatures, cut into files at random; and what the verifier says of all files at once."""

import os
import shutil
import subprocess
import unittest
from pathlib import Path

import developer
from signed import SignedNetwork

ROOT = Path(__file__).resolve().parents[3]
VERIFIER = os.environ.get("TUKYAMID_VERIFIER") or str(ROOT / "verifier/out/wot-verdicts")
needs_verifier = unittest.skipUnless(shutil.which(VERIFIER), f"the verifier isn't built: {VERIFIER}")


def files_of(draw, folder, count=30):
    """Files of a network: parts of its certificates in any order, some of them more than once and with other
    signatures; some signatures are by keys that aren't there, and some by nobody."""
    network = SignedNetwork(count + 5, 6, draw.randrange(1 << 30))
    texts = [b""] * draw.randrange(2, 7)
    places = draw.sample(range(count), count)
    for place in places + draw.choices(places, k=count // 3):
        key, user_id, *signatures = certificate(draw, network, place)
        some = [one for one in signatures if draw.random() < 0.7]
        texts[draw.randrange(len(texts))] += b"".join([key, user_id, *some])
    files = [folder / f"{number}.pgp" for number, text in enumerate(texts) if text]
    for file, text in zip(files, filter(None, texts)):
        file.write_bytes(text)
    return files


def certificate(draw, network, place):
    """A certificate's packets. Some signatures are damaged, always in the same way."""
    issuers = [place, *(draw.randrange(network.count) for _ in range(6))]
    packets = [*network.packets(place, issuers)]
    if draw.random() < 0.3:
        packets[-1] = packets[-1][:-1] + bytes([packets[-1][-1] ^ 1])
    return packets


def script(files):
    """The verifier's lines about all of these files."""
    done = subprocess.run([VERIFIER, "--", *files], stdout=subprocess.PIPE, check=True)
    return done.stdout.splitlines()


def fingerprints(file):
    """Those of a file's certificates, whose keys are shorter than 192 octets."""
    text = file.read_bytes()
    found = []
    at = 0
    while at < len(text):
        length = text[at + 1] if text[at + 1] < 192 else (text[at + 1] - 192 << 8) + text[at + 2] + 192
        start = at + 2 + (text[at + 1] >= 192)
        if text[at] & 0x3F == 6:
            found.append(developer.fingerprint(text[start:start + length]).hex().encode())
        at = start + length
    return found
