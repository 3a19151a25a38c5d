"""An engine over slices takes no more memory the longer it is asked, from however many roots."""

import asyncio
import os
import unittest
from pathlib import Path

from outside import PROGRAM, needs_engine
from tukyamid.service.sliced.partial_engine import Loader
from tukyamid.service.storage.partial_reads import Part
from world import fingerprint, number as number_of, packet, signature

CERTIFICATES = 12_000
VIEWS = 40
MEGABYTE = 1 << 20


def part_of(number, issuer, size=0):
    """A certificate with its own signature and another's trust signature, and a picture of this size."""
    key, user_id = b"\4\0\0\x03\xe8\x1b" + number.to_bytes(4, "big"), b"user %d" % number
    octets, verdicts = packet(6, key), []
    direct = signature(0x1F, 1000)
    octets += packet(2, direct) + packet(13, user_id)
    verdicts.append((bytes.fromhex(number_of(key, 0, b"", direct).decode()), bytes.fromhex(fingerprint(key).decode())))
    by = fingerprint(b"\4\0\0\x03\xe8\x1b" + issuer.to_bytes(4, "big"))
    body = signature(0x10, 2000, bytes([3, 5, 255, 120]) + b"\x16\x21\x04" + bytes.fromhex(by.decode()))
    octets += packet(2, body)
    verdicts.append((bytes.fromhex(number_of(key, 1, user_id, body).decode()), bytes.fromhex(by.decode())))
    if size:
        octets += b"\xd1\xff" + size.to_bytes(4, "big") + os.urandom(size)
    return Part(bytes.fromhex(fingerprint(key).decode()), octets, tuple(verdicts))


def memory(pid):
    return int(Path(f"/proc/{pid}/statm").read_text().split()[1]) * os.sysconf("SC_PAGE_SIZE")


@needs_engine
class Memory(unittest.TestCase):
    @staticmethod
    def measure(parts, ask):
        """The memory of the engine after the first question, and at its most."""
        known = {part.fpr: part for part in parts}

        async def fetch(fprs):
            return [known[fpr] for fpr in fprs]

        async def run():
            loader = Loader([PROGRAM, "run"], 65_536)
            sizes = []
            try:
                async for _ in ask(loader, fetch):
                    sizes.append(memory(loader.pid))
            finally:
                await loader.close()
            return sizes[0], max(sizes)
        return asyncio.run(run())

    def test_views_of_many_roots(self):
        """A view's network is over all that is loaded."""
        parts = [part_of(number, max(0, number - 1 - number % 7)) for number in range(CERTIFICATES)]
        base = frozenset(part.fpr for part in parts)

        async def ask(loader, fetch):
            for place in range(VIEWS):
                root = parts[place].fpr.hex().encode()
                await loader.load(base, frozenset(), fetch)
                (reply,) = await loader.ask((b"5000", ((root, b"120"),)), lambda name: [
                    b"ask %s %s 120 user %d" % (name, parts[-1].fpr.hex().encode(), CERTIFICATES - 1)])
                assert reply.startswith(b"amount "), reply
                yield

        first, most = self.measure(parts, ask)
        self.assertLess(most, 4 * first)

    def test_large_certificates(self):
        """What is loaded has a bound of octets, too."""
        parts = [part_of(number, number, 400_000) for number in range(400)]

        async def ask(loader, fetch):
            for part in parts:
                await loader.load(frozenset(), frozenset({part.fpr}), fetch)
                await loader.ask((b"5000", ()), lambda name, part=part: [
                    b"ask %s %s 120 a" % (name, part.fpr.hex().encode())])
                yield

        _, most = self.measure(parts, ask)
        self.assertLess(most, 140 * MEGABYTE)
