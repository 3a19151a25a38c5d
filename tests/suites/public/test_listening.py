"""Where the server listens: a Unix socket, and the metrics at an address of their own."""

import asyncio
import signal
import stat

from everyone import PATIENCE, Asking, Everyone, Public, needs_prometheus
from friends import PEOPLE
from inside import inside, metrics_of, run
from outside import COMMAND
from outside import run as command
from page import needs_page


def read(octets):
    """The samples that Prometheus would read: values by name and labels."""
    from prometheus_client.parser import text_string_to_metric_families
    return {(sample.name, *sorted(sample.labels.items())): sample.value
            for family in text_string_to_metric_families(octets.decode()) for sample in family.samples}


class At(Asking):
    """What is asked at an address that is known."""

    def __init__(self, address):
        self.address = address


@needs_page
class Unix(Public):
    def test_a_unix_socket(self):
        """Whoever connects there is a proxy, so each address that it names has a limit of its own."""
        path, query = self.service.own / "http", self.about("Carol", PEOPLE["Carol"])
        everyone = Everyone(self.service, *self.sets, "--rate", "0.001", listen=f"unix:{path}")
        try:
            self.assertEqual((everyone.address, stat.S_IMODE(path.stat().st_mode)), (f"unix:{path}", 0o666))
            found = [everyone.ask("authenticate", query, X_Forwarded_For=f"192.0.2.{last}") for last in (1, 1, 2)]
            self.assertEqual([one[0] for one in found], [200, 429, 200])
            status, headers, answer = self.everyone.ask("authenticate", query)
            for given in found[0], found[2]:
                self.assertEqual((given[0], given[1]["ETag"], given[2]), (status, headers["ETag"], answer))
            self.somebody_listens(path)
            everyone.process.send_signal(signal.SIGKILL)
            everyone.process.wait(PATIENCE)
            everyone.process.stdout.close()
            self.assertTrue(path.exists())
            everyone = Everyone(self.service, *self.sets, listen=f"unix:{path}")
            self.assertEqual(everyone.ask("authenticate", query)[0], 200)
        finally:
            everyone.close()

    def somebody_listens(self, path):
        done = command([COMMAND, "web", "--public", "--socket", self.service.questions, "--listen", f"unix:{path}"],
                       env=self.service.environment)
        self.assertEqual((done.returncode, done.stdout), (3, b""))
        self.assertIn(b"somebody listens", done.stderr)


@needs_page
@needs_prometheus
class Metrics(Public):
    def test_the_command_has_them_at_an_address_of_their_own(self):
        path, carol = self.service.own / "metrics", self.about("Carol", PEOPLE["Carol"])
        everyone = Everyone(self.service, *self.sets, "--metrics", f"unix:{path}")
        self.addCleanup(everyone.close)
        for _ in range(3):
            self.assertEqual(everyone.ask("authenticate", carol)[0], 200)
        self.assertEqual(everyone.ask("authenticate", {"key": "x"})[0], 400)
        self.assertEqual(everyone.request("/metrics")[0], 404)
        metrics = At(f"unix:{path}")
        status, headers, octets = metrics.request("/metrics")
        self.assertEqual((status, headers.get_content_type()), (200, "text/plain"))
        found = read(octets)
        for call, status, count in ("authenticate", 200, 3), ("authenticate", 400, 1), ("other", 404, 1):
            name = "tukyamid_public_requests_total", ("call", call), ("status", str(status))
            self.assertEqual(found[name], count)
        self.assertEqual(found["tukyamid_public_seconds_count",], 5)
        self.assertEqual(found["tukyamid_public_seconds_bucket", ("le", "+Inf")], 5)
        self.assertEqual(found["tukyamid_public_workers_busy",], 0)
        for wrong, method in ("/", "GET"), ("/api/v1/list", "GET"), ("/metrics", "POST"):
            self.assertEqual(metrics.request(wrong, method)[0], 404)

    def test_what_a_bound_refuses_is_counted(self):
        async def test():
            async with inside(self.service, self.sets, rate=1, burst=2) as server, metrics_of(server) as metrics:
                self.assertEqual([await server.status("/nothing") for _ in range(4)], [404, 404, 429, 429])
                found = read((await asyncio.to_thread(metrics.request, "/metrics"))[2])
                self.assertEqual(found["tukyamid_public_refused_total", ("reason", "rate")], 2)
                self.assertEqual(found["tukyamid_public_seconds_count",], 4)
        run(test())
