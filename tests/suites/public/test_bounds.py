"""What one question, one address and all connections may take. No time passes but what a test lets pass."""

import asyncio
import contextlib
import json
import os
import signal
import socket
import unittest
from pathlib import Path

from everyone import PATIENCE, Public
from friends import PEOPLE
from inside import inside, run, until
from page import needs_page

from tukyamid.public.client_limits import Origins, Rates, read_networks
from tukyamid.public.worker import MOST_MEMORY


def workers():
    """The processes that answer questions for a server within this process."""
    found = []
    for children in Path("/proc/self/task").glob("*/children"):
        with contextlib.suppress(OSError):  # Threads and processes come and go.
            for child in children.read_text().split():
                if b"tukyamid.public.worker" in Path(f"/proc/{child}/cmdline").read_bytes():
                    found.append(int(child))
    return found


@needs_page
class Bounds(Public):
    def within(self, tried, **bounds):
        """Runs a test with a server of these bounds."""
        async def test():
            async with inside(self.service, self.sets, **bounds) as server:
                await tried(server)
        run(test())

    def test_an_address_has_a_limit_of_its_own(self):
        async def tried(server):
            for address in "192.0.2.1", "2001:db8::1":
                found = [await server.status("/x", X_Forwarded_For=f"203.0.113.9, {address}") for _ in range(3)]
                self.assertEqual(found, [404, 404, 429])
            for passed, after in (0, "5"), (4, "1"):
                server.move(passed)
                status, headers, octets = await asyncio.to_thread(server.request, "/x", X_Forwarded_For="192.0.2.1")
                self.assertEqual((status, json.loads(octets)["status"], headers["Retry-After"]), (429, 3, after))
            self.assertEqual(await server.status("/health", X_Forwarded_For="192.0.2.1"), 200)
            server.move(1)
            self.assertEqual([await server.status("/x", X_Forwarded_For="192.0.2.1") for _ in range(2)], [404, 429])
            self.assertEqual(await server.status("/x", X_Forwarded_For="2001:db8:0:1::2"), 404)
        self.within(tried, rate=0.2, burst=2, proxies=["127.0.0.1"])

    def test_all_of_a_network_of_64_bits_share_a_limit(self):
        async def tried(server):
            found = [await server.status("/x", X_Forwarded_For=f"2001:db8::{number}") for number in range(3)]
            self.assertEqual(found, [404, 404, 429])
        self.within(tried, rate=1, burst=2, proxies=["127.0.0.1"])

    def test_a_stranger_cant_name_another_address(self):
        async def tried(server):
            found = [await server.status("/x", X_Forwarded_For=f"192.0.2.{number}") for number in range(3)]
            self.assertEqual(found, [404, 404, 429])
        self.within(tried, rate=1, burst=2)

    def test_a_line_of_a_visitors_own_before_the_proxys_changes_nothing(self):
        async def tried(server):
            found = [await asyncio.to_thread(
                server.raw, b"GET /x HTTP/1.1\r\nHost: x\r\nConnection: close\r\nX-Forwarded-For: 192.0.2.%d\r\n"
                b"X-Forwarded-For: 203.0.113.1\r\n\r\n" % number) for number in range(3)]
            self.assertEqual([one.split()[1] for one in found], [b"404", b"404", b"429"])
        self.within(tried, rate=1, burst=2, proxies=["127.0.0.1"])

    def test_connections_have_a_bound(self):
        def first(connection):
            connection.request("GET", "/health")
            return connection.getresponse().read()

        async def tried(server):
            held = [server.connection() for _ in range(3)]
            for one in held:
                self.assertEqual(await asyncio.to_thread(first, one), b"ok\n")
            status, headers, octets = await asyncio.to_thread(server.request, "/health")
            self.assertEqual((status, headers["Retry-After"]), (503, "5"))
            self.assertIn("too many connections", json.loads(octets)["error"])
            self.assertEqual((server.figure("connections"), server.figure("connections_refused")), (3, 1))
            for one in held:
                one.close()
            await until(lambda: server.figure("connections") == 0)
            self.assertEqual(await server.status("/health"), 200)
        self.within(tried, connections=3)

    def test_a_request_that_never_ends_is_ended(self):
        async def tried(server):
            with socket.create_connection(("127.0.0.1", server.port), PATIENCE) as slow:
                slow.sendall(b"GET / HTTP/1.1\r\nHost: x\r\n")
                await until(lambda: server.figure("connections") == 1)
                server.move(19)
                self.assertEqual(await server.status("/health"), 200)
                self.assertEqual(server.figure("connections_ended"), 0)
                server.move(2)
                with contextlib.suppress(ConnectionError):
                    self.assertEqual(await asyncio.to_thread(slow.recv, 100), b"")
            await until(lambda: server.figure("connections") == 0)
            self.assertEqual(server.figure("connections_ended"), 1)
        self.within(tried, patience=20)

    def test_headers_without_an_end_are_ended(self):
        async def tried(server):
            many = b"".join(b"X-%d: %s\r\n" % (number, b"y" * 4000) for number in range(100))
            self.assertEqual(await asyncio.to_thread(server.raw, b"GET / HTTP/1.1\r\nHost: x\r\n" + many), b"")
            await until(lambda: server.figure("connections") == 0)
            self.assertEqual(server.figure("connections_ended"), 1)
            self.assertEqual(await server.status("/health"), 200)
        self.within(tried)

    def test_a_question_that_costs_too_much_gets_a_reason(self):
        """What answers it is held, as if it had much to do, and then more time passes than a question may take."""
        async def tried(server):
            query = self.about("Carol", PEOPLE["Carol"])
            self.assertEqual((await asyncio.to_thread(server.ask, "authenticate", query))[0], 200)
            (worker,) = workers()
            os.kill(worker, signal.SIGSTOP)
            asked = asyncio.create_task(asyncio.to_thread(server.ask, "explain", query))
            await until(lambda: server.figure("workers_busy") == 1)
            server.move(11)
            status, headers, found = await asked
            self.assertEqual((status, headers["Retry-After"], headers["ETag"], found["status"]), (503, "5", None, 3))
            self.assertIn("takes more than 10 seconds", found["error"])
            self.assertEqual((server.parts.metrics.refused["costly"], workers()), (1, []))
            self.assertEqual((await asyncio.to_thread(server.ask, "explain", query))[0], 200)
        self.within(tried, seconds=10)

    def test_what_answers_has_a_bound_on_its_memory(self):
        async def tried(server):
            query = self.about("Carol", PEOPLE["Carol"])
            self.assertEqual((await asyncio.to_thread(server.ask, "authenticate", query))[0], 200)
            (worker,) = workers()
            limits = Path(f"/proc/{worker}/limits").read_text()
            self.assertRegex(limits, rf"Max address space +{MOST_MEMORY} +{MOST_MEMORY} ")
        self.within(tried)


class Limits(unittest.TestCase):
    def test_whose_request_it_is(self):
        origins = Origins(read_networks(["127.0.0.1", "10.0.0.0/8"]))
        for peer, headers, found in (
                ("192.0.2.1", {"X-Forwarded-For": "1.1.1.1"}, "192.0.2.1"),
                ("127.0.0.1", {"X-Forwarded-For": "1.1.1.1, 2.2.2.2, 10.1.1.1"}, "2.2.2.2"),
                ("127.0.0.1", {"X-Forwarded-For": "junk"}, "127.0.0.1"), ("127.0.0.1", {}, "127.0.0.1"),
                (None, {"X-Forwarded-For": "2.2.2.2:80"}, "2.2.2.2"), (None, {}, "unix"),
                (None, {"Forwarded": 'for=1.1.1.1, for="[2001:db8::7]:80";proto=https'}, "2001:db8::/64"),
                (None, {"Forwarded": "for=1.1.1.1", "X-Forwarded-For": "2.2.2.2"}, "2.2.2.2"),
                (None, {"Forwarded": "for=unknown"}, "unix"), ("::ffff:192.0.2.1", {}, "192.0.2.1")):
            self.assertEqual(origins.of(peer, headers), found, (peer, headers))

    def test_a_bucket_fills_again(self):
        now = [0.0]
        rates = Rates(2, 3, lambda: now[0])
        self.assertEqual([rates.wait("a") for _ in range(4)], [0, 0, 0, 0.5])
        self.assertEqual(rates.wait("b"), 0)
        now[0] = 0.5
        self.assertEqual([rates.wait("a"), rates.wait("a")], [0, 0.5])
        now[0] = 100
        self.assertEqual([rates.wait("a") for _ in range(4)], [0, 0, 0, 0.5])
