"""Who may ask the page's server, and what it says to everybody else."""

import json
import socket
import subprocess
from urllib.parse import urlsplit

from outside import COMMAND, run
from page import Page, Served, needs_page

EVIL = "http://evil.example"


@needs_page
class Guard(Served):
    def path(self, name=""):
        return urlsplit(self.page.address).path + name

    def test_the_address_alone_opens_the_page(self):
        self.assertRegex(self.page.address, r"\Ahttp://127\.0\.0\.1:[0-9]+/[A-Za-z0-9_-]{43}/\Z")
        status, headers, octets = self.page.request("GET", self.path())
        self.assertEqual((status, headers["Content-Type"]), (200, "text/html; charset=utf-8"))
        self.assertIn(b"<!DOCTYPE html>", octets)
        token = self.path().strip("/")
        for path in ("/", "/index.html", "//", f"/{token[:-1]}/", f"/{token}x/", f"/{token.upper()}/", "/call/begin",
                     f"/x/{token}/", "/%00/", "/%C3%A9/"):
            with self.subTest(path):
                status, _, octets = self.page.request("GET", path)
                self.assertEqual((status, octets), (403, b"Not here.\n"))

    def test_no_file_but_those_of_the_page(self):
        for name in ("..%2Fserver.py", "../server.py", "%2e%2e/server.py", "/etc/passwd", "main.js/", "x", "call/begin",
                     "d3.js?x", "index.html"):
            with self.subTest(name):
                status = self.page.request("GET", self.path(name))[0]
                self.assertEqual(status, 200 if name == "d3.js?x" else 405 if name == "call/begin" else 404)

    def test_another_host_or_origin_has_nothing(self):
        port = urlsplit(self.page.address).port
        for headers in ({"Host": "evil.example"}, {"Host": f"evil.example:{port}"}, {"Host": "127.0.0.1"}, {"Host": ""},
                        {"Host": f"127.0.0.1:{port}.evil.example"}, {"Host": f"127.0.0.1:{port + 1}"},
                        {"Origin": EVIL}, {"Origin": "null"}, {"Origin": f"http://localhost:{port}"},
                        {"Origin": f"https://127.0.0.1:{port}"}, {"Sec_Fetch_Site": "cross-site"},
                        {"Sec_Fetch_Site": "same-site"}):
            with self.subTest(headers):
                for method, path, body in ("GET", self.path(), None), ("POST", self.path("call/begin"), b"{}"):
                    status, answered, octets = self.page.request(
                        method, path, body, **{"Content_Type": "application/json", **headers})
                    self.assertEqual((status, octets), (403, b"Not here.\n"))
                    self.assertNotIn("Access-Control-Allow-Origin", answered)
        self.assertEqual(self.page.request("GET", self.path(), Host=f"localhost:{port}")[0], 200)
        goes_there = {"Sec_Fetch_Site": "cross-site", "Sec_Fetch_Mode": "navigate"}
        self.assertEqual(self.page.request("GET", self.path(), Sec_Fetch_Dest="document", **goes_there)[0], 200)
        self.assertEqual(self.page.request("GET", self.path(), Sec_Fetch_Dest="iframe", **goes_there)[0], 403)
        self.assertEqual(self.page.send("begin", b"{}", Sec_Fetch_Dest="document", **goes_there)[0], 403)
        self.assertEqual(self.page.send("begin", b"{}", Origin=f"http://127.0.0.1:{port}")[0], 200)

    def test_only_this_machine_is_listened_to(self):
        port = urlsplit(self.page.address).port
        with open("/proc/net/tcp", encoding="ascii") as table:
            bound = [line.split()[1] for line in table if line.split()[3] == "0A"]
        self.assertEqual([one for one in bound if one.endswith(f":{port:04X}")], [f"0100007F:{port:04X}"])
        with socket.socket() as other, self.assertRaises(OSError):
            other.bind(("127.0.0.1", port))
            other.listen()

    def test_every_reply_has_the_headers_that_keep_others_out(self):
        for path in self.path(), self.path("main.js"), self.path("x"), "/":
            headers = self.page.request("GET", path)[1]
            policy = dict(part.strip().partition(" ")[::2] for part in headers["Content-Security-Policy"].split(";"))
            self.assertEqual(policy.pop("default-src"), "'none'")
            self.assertEqual(policy.pop("trusted-types"), "reload")  # One policy, whose one address is a constant.
            for name, value in policy.items():
                self.assertIn(value, ("'none'", "'self'", "'self' data:", "'script'"), name)
            self.assertEqual(policy["script-src"], "'self'")
            self.assertEqual(policy["frame-ancestors"], "'none'")
            wanted = {"X-Content-Type-Options": "nosniff", "Referrer-Policy": "no-referrer",
                      "Cache-Control": "no-store", "Cross-Origin-Resource-Policy": "same-origin"}
            self.assertEqual({name: headers[name] for name in wanted}, wanted)

    def test_malformed_questions_are_refused_in_one_line(self):
        good = self.subject("Carol", "Carol <carol@example.org>")
        wrong = [{"fingerprint": "x"}, {"fingerprint": None}, {"user_id": "\\q"}, {"user_id": "\u00e9"}, {"user_id": 7},
                 {"wanted": 0}, {"wanted": 2**32}, {"wanted": "1"}, {"wanted": True}, {"time": -1}, {"time": 1.5},
                 {"roots": 5}, {"roots": [5]}, {"roots": [{"fingerprint": good["fingerprint"], "amount": 256}]},
                 {"without": [{"key": "zz"}]}, {"without": [{"signature": "zz"}]},
                 {"without": [{"key": good["fingerprint"]}]}, {"without": [{}] * 65}]
        bodies = [json.dumps({**good, **one}).encode() for one in wrong]
        bodies += [b"", b"[]", b"7", b"{", b"\xff", b"[" * 50000, b'{"fingerprint":']
        for body in bodies:
            with self.subTest(body[:300]):
                status, _, octets = self.page.send("answer", body)
                self.assertEqual(status, 400)
                self.assertRegex(json.loads(octets)["error"], r"\A[^\n]+\Z")
        self.assertEqual(self.page.send("answer", b"x" * 70000)[0], 413)
        self.assertEqual(self.page.send("answer", json.dumps(good).encode(), Content_Type="text/plain")[0], 404)
        self.assertEqual(self.page.send("nothing", b"{}")[0], 404)
        self.assertEqual(self.page.call("answer", **good)["amount"], 120)


@needs_page
class Words(Served):
    def test_words_that_are_wrong(self):
        for words, said in ((["--port", "80"], "isn't a port"), (["x"], "x"),
                            (["--root", "zz"], "neither a fingerprint"), (["--time", "never"], "isn't a time")):
            done = run([COMMAND, "web", "--no-browser", *words], env=self.page.environment)
            self.assertEqual((done.returncode, done.stdout), (2, b""))
            self.assertIn(said, done.stderr.decode())
        done = run([COMMAND, "web", "--help"], env=self.page.environment)
        self.assertEqual((done.returncode, done.stderr), (0, b""))
        self.assertIn(b"usage: tukyamid web", done.stdout)

    def test_it_ends_when_it_is_interrupted(self):
        page = Page([self.friends.keyring], [self.fpr["Alice"]])
        self.assertEqual(page.call("begin")["roots"][0]["name"], "Alice <alice@example.net>")
        self.assertEqual(page.close(), 0)

    def test_it_ends_while_an_overview_is_made(self):
        page = Page([self.friends.keyring], [self.fpr["Alice"]])
        self.assertIn("progress", page.call("overview", time=0, roots=[]))
        self.assertEqual(page.close(), 0)

    def test_the_address_is_opened_by_a_file_of_the_users_alone(self):
        """Others can read the words of the browser's process."""
        browser, seen = self.page.own / "browser", self.page.own / "seen"
        browser.write_text(f'#!/bin/sh\nstat -c %a "${{1#file://}}" > {seen}.new\ncat "${{1#file://}}" >> {seen}.new\n'
                           f'mv {seen}.new {seen}\n')
        browser.chmod(0o755)
        words = [COMMAND, "web", f"--root={self.fpr['Alice']}"]
        with subprocess.Popen(words, env={**self.page.environment, "BROWSER": str(browser)}, stdout=subprocess.PIPE,
                              stderr=subprocess.DEVNULL) as process:
            address = process.stdout.readline().decode().strip()
            subprocess.run(["sh", "-c", f"until [ -e {seen} ]; do sleep 0.05; done"], timeout=600, check=True)
            process.terminate()
        mode, text = seen.read_text().split("\n", 1)
        self.assertEqual(mode, "600")
        self.assertIn(f"url={address}", text)
        self.assertEqual(list(self.page.runtime.glob("*.html")), [])
