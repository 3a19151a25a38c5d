"""What isn't answered: changes, a socket that could change something, too much, and what isn't HTTP."""

import contextlib
import json

from everyone import Everyone, Public, Service, path_of
from friends import PEOPLE
from outside import COMMAND, run
from page import needs_page

from tukyamid.protocol.refusals import TukyamidError


@needs_page
class Refusing(Public):
    def test_nothing_writes(self):
        before = self.service.last_change()
        for method in "POST", "PUT", "DELETE", "PATCH", "OPTIONS":
            for path in "/", "/api/v1/list", "/call/add":
                status, headers, octets = self.everyone.request(path, method, b"{}", Content_Type="application/json")
                self.assertEqual((status, headers["Allow"]), (405, "GET, HEAD"), (method, path))
                self.assertIn("error", json.loads(octets))
        self.assertEqual(self.service.last_change(), before)

    def test_a_socket_that_could_change_something_isnt_used(self):
        before = self.service.last_change()
        done = run([COMMAND, "web", "--public", "--listen", "127.0.0.1:0", "--socket", self.service.changes],
                   env=self.service.environment)
        self.assertEqual((done.returncode, done.stdout), (3, b""))
        self.assertIn(b"isn't a read-only socket", done.stderr)
        self.assertEqual(self.service.last_change(), before)

    def test_words_that_are_wrong(self):
        for words, said in ((["--roots", "x"], b"NAME=FILE"), (["--roots", "x=/nothing"], b"No such file"),
                            (["--proxy", "x"], b"--proxy"), (["--rate", "0"], b"isn't a number"),
                            (["--listen", "x"], b"neither HOST:PORT")):
            done = run([COMMAND, "web", "--public", "--socket", self.service.questions, *words],
                       env=self.service.environment)
            self.assertEqual((done.returncode, done.stdout), (2, b""))
            self.assertIn(said, done.stderr)

    def test_every_reply_keeps_other_sites_out(self):
        for path in "/", "/x", "/ready", "/call/begin", "/api/v1/openapi.json", path_of("list", {}):
            headers = self.everyone.request(path)[1]
            policy = dict(part.strip().partition(" ")[::2] for part in headers["Content-Security-Policy"].split(";"))
            self.assertEqual((policy["default-src"], policy["script-src"]), ("'none'", "'self'"))
            self.assertEqual((headers["X-Content-Type-Options"], headers["Set-Cookie"]), ("nosniff", None))

    def test_no_file_is_served(self):
        for path in ("/..%2Fserver.py", "/../server.py", "/%2e%2e/x", "//etc/passwd", "/etc/passwd", "/main.js",
                     "/call/add"):
            self.assertEqual(self.everyone.request(path)[0], 404, path)
        self.assertEqual(self.everyone.request("/metrics")[0], 404)

    def test_what_isnt_http_or_is_too_much(self):
        long = b"GET /" + b"a" * 20000 + b" HTTP/1.1\r\n\r\n"
        for octets in b"\0" * 100 + b"\r\n\r\n", b"GET / HTTP/9\r\n\r\n", long:
            self.assertRegex(self.everyone.raw(octets), rb"\AHTTP/1.[01] 400 ", octets[:20])
        for query in "?", "%", "key=1&key", "&" * 5000, "a=b&" * 200, "user_id=" + "x" * 3000, "time=1&time=1":
            status, _, octets = self.everyone.request(f"/api/v1/list?{query}")
            self.assertEqual(status, 400, query[:20])
            self.assertIn("error", json.loads(octets))
        self.assertEqual(self.everyone.request("/health")[::2], (200, b"ok\n"))


@needs_page
class Away(Public):
    def test_without_a_service_nothing_is_said(self):
        service = Service([self.friends.keyring])
        everyone = Everyone(service, *self.sets)
        self.addCleanup(everyone.close)
        query = self.about("Frank", PEOPLE["Frank"])
        self.assertEqual(everyone.ask("authenticate", query)[0], 200)
        service.close()
        for path in "/ready", path_of("authenticate", query):
            status, headers, octets = everyone.request(path)
            self.assertEqual((status, headers["Retry-After"], headers["Cache-Control"]), (503, "5", "no-store"))
            self.assertEqual(json.loads(octets)["status"], 3)
        self.assertEqual(everyone.request("/health")[0], 200)

    def test_what_waits_to_be_verified_isnt_not_reached(self):
        service = Service([], verifier="/missing/wot-verdicts")
        self.addCleanup(service.close)
        with service.client() as client, contextlib.suppress(TukyamidError):
            client.add_keyring(self.friends.keyring)
        with service.client() as client:
            self.assertIsNotNone(client.unverified())
        everyone = Everyone(service, *self.sets)
        self.addCleanup(everyone.close)
        status, _, found = everyone.ask("authenticate", self.about("Carol", PEOPLE["Carol"]))
        self.assertEqual((status, found["status"]), (503, 3))
        self.assertIn("nothing can be said yet", found["error"])
