"""What only the asynchronous clients have: calls that overlap, are cancelled or time out, and listings that are read as
they come."""

import asyncio
import signal
import sys
import unittest

from outside import FAKE_ENGINE
from stand_ins import FakeService
from tukyamid import EngineEnded, Gone, ServiceEnded, Taken, Watched
from tukyamid.client import aio
from tukyamid.client.aio import async_listing
from tukyamid.protocol.refusals import RefusedClash, RefusedView

A = "aa" * 20


class Asynchronous(unittest.IsolatedAsyncioTestCase):
    async def asyncSetUp(self):
        asyncio.get_running_loop().set_debug(False)
        self.service = FakeService()
        self.client = await aio.connect(self.service.path)

    async def asyncTearDown(self):
        await self.client.close()
        self.service.close()

    async def test_calls_overlap_and_each_has_its_own_reply(self):
        fprs = [f"{octet:02x}" * 20 for octet in range(256)]
        octets = await asyncio.gather(*map(self.client.export, fprs))
        self.assertEqual(octets, [bytes.fromhex(fpr) for fpr in fprs])

    async def test_a_refusal_among_overlapping_calls_is_its_own(self):
        outcomes = await asyncio.gather(self.client.export(A), self.client.close_view("v"),
                                        self.client.import_certificates(b"\6"), self.client.export(A),
                                        return_exceptions=True)
        self.assertEqual([type(one) for one in outcomes], [bytes, RefusedView, RefusedClash, bytes])

    async def test_a_cancelled_call_leaves_the_connection_usable(self):
        for delay in [0, 0, 0.0001, 0.001, 0.01] * 20:
            calls = [asyncio.create_task(call) for call in (
                self.client.export(A), self.client.keys(), self.client.close_view("v"), self.client.dump())]
            await asyncio.sleep(delay)
            for call in calls:
                call.cancel()
            await asyncio.gather(*calls, return_exceptions=True)
            self.assertEqual(await self.client.export("bb" * 20), b"\xbb" * 20)

    async def test_a_call_that_times_out_while_nothing_is_read(self):
        service = FakeService([sys.executable, "-c", SLOW])
        self.addCleanup(service.close)
        async with await aio.connect(service.path) as client:
            with self.assertRaises(TimeoutError):
                async with asyncio.timeout(0.2):
                    await client.import_certificates(b"\0" * 4_000_000)  # Longer than the socket holds.
            self.assertEqual(await client.import_certificates(b"\5"), Taken(2, 0, 0))

    async def test_a_listing_is_not_read_far_ahead(self):
        service = FakeService([sys.executable, "-c", LONG])
        self.addCleanup(service.close)
        async with await aio.connect(service.path) as client:
            listing = await client.keys()
            await asyncio.sleep(0.3)
            self.assertLess(len(listing._kept), 2 * async_listing.MOST_KEPT)
            self.assertEqual(len({key.user_ids async for key in listing}), 20_000)
            half = await client.keys()
            first = [key.user_ids async for key in first_of(half, 10)]
            again = await client.keys()  # What is left of the first is kept meanwhile.
            self.assertEqual(first + [key.user_ids async for key in half], list(range(20_000)))
            del again
            dropped = await client.keys()
            del dropped
            self.assertEqual((await client.keys()).count, 20_000)

    async def test_the_end_while_calls_wait(self):
        waiting = [asyncio.create_task(call) for call in (self.client.close_view("end"), self.client.keys(),
                                                          self.client.export(A))]
        for call in waiting:
            with self.assertRaises(ServiceEnded):
                await call
        with self.assertRaises(ServiceEnded):
            await self.client.keys()

    async def test_the_program_and_its_status(self):
        engine = await aio.start(FAKE_ENGINE)
        self.assertEqual(await engine.close(), 0)
        with self.assertRaises(EngineEnded) as caught:
            await engine.keys()
        self.assertEqual(caught.exception.status, 0)
        engine = await aio.start(FAKE_ENGINE)
        engine._process.kill()
        with self.assertRaises(EngineEnded) as caught:
            await engine.feed([b"import 05"] * 100_000)
        self.assertEqual(caught.exception.status, -signal.SIGKILL)
        await engine.close()

    async def test_what_watches_are_told_while_no_call_waits(self):
        service = FakeService([sys.executable, "-c", PUSHING])
        self.addCleanup(service.close)
        async with await aio.connect(service.path) as client:
            self.assertEqual(await client.watch("w", "v", A, 120, ""), 0)
            await asyncio.sleep(0.2)
            self.assertEqual(await client.told(), [Watched("w", 40), Gone("w")])
            self.assertFalse(await client.wait(0.01))

    async def test_waiting_for_what_watches_are_told(self):
        service = FakeService([sys.executable, "-c", PUSHING])
        self.addCleanup(service.close)
        async with await aio.connect(service.path) as client:
            await client.watch("w", "v", A, 120, "")
            self.assertTrue(await client.wait(60))
            self.assertEqual((await client.told())[0], Watched("w", 40))
            client.end_at_once()
            with self.assertRaises(ServiceEnded):
                await client.wait(60)


async def first_of(items, count):
    for _ in range(count):
        yield await anext(items)


# Reads nothing for a second, and answers then.
SLOW = """
import sys, time
time.sleep(1)
for line in sys.stdin:
    print("ok taken", 2 if len(line) < 100 else 1, "skipped 0 new 0", flush=True)
"""
LONG = """
import sys
for line in sys.stdin:
    print("keys 20000")
    for number in range(20_000):
        print("key", "aa" * 20, number, 0)
    sys.stdout.flush()
"""
PUSHING = """
import sys
for line in sys.stdin:
    if line == "?\\n":
        print("refused line", flush=True)
    else:
        print("watch w amount 0\\nwatch w amount 40\\nwatch w gone", flush=True)
"""
