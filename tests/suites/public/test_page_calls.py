"""What the page for everyone asks: its calls beside those of the owner's page, for caches, and hostile ones."""

import asyncio
import json
import os
import re
import signal
from urllib.parse import quote, urlencode

from everyone import Public
from friends import PEOPLE
from inside import inside, run, until
from outside import folder
from page import DECEMBER, Page, needs_page
from test_bounds import workers


def address_of(call, asked):
    """Where the page asks something."""
    return f"/call/{call}?{urlencode({'q': json.dumps(asked)}, quote_via=quote)}"


class Calls(Public):
    def call(self, name, **asked):
        """What a call returns; AssertionError unless it worked."""
        status, _, octets = self.everyone.request(address_of(name, asked))
        self.assertEqual(status, 200, octets)
        return json.loads(octets)

    def subject(self, name, **more):
        return {"fingerprint": self.fpr[name], "user_id": PEOPLE[name], "wanted": 120, "time": DECEMBER,
                "set": "Alice", **more}

    def refused(self, call, query, status=400):
        found, headers, octets = self.everyone.request(f"/call/{call}{query}")
        self.assertEqual((found, headers["ETag"], headers["Cache-Control"]), (status, None, "no-store"), query[:60])
        said = json.loads(octets)
        self.assertIn("error", said)
        return said["error"]


@needs_page
class BesideTheOwners(Calls):
    @classmethod
    def setUpClass(cls):
        super().setUpClass()
        cls.page = Page([cls.friends.keyring, folder() / "hostile.pgp"], [cls.fpr["Alice"]])
        cls.addClassCleanup(cls.page.close)

    def same(self, name, asked):
        """Compares a reply with that of the owner's page, which gets the roots in the place of the set."""
        roots = {"roots": [{"fingerprint": self.fpr["Alice"], "amount": 120}]} if "set" in asked else {}
        wanted = self.page.call(name, **{key: value for key, value in asked.items() if key != "set"}, **roots)
        while wanted.get("progress") or wanted.get("done") is False:
            wanted = self.page.call(name, **{key: value for key, value in asked.items() if key != "set"}, **roots)
        found = self.call(name, **asked)
        self.assertEqual(found, wanted, name)
        return found

    def test_answers_and_what_they_rest_on(self):
        carol, frank = self.subject("Carol"), self.subject("Frank")
        without = {**carol, "without": [{"key": self.fpr["Bob"]}]}
        self.assertEqual([self.same("answer", one)["amount"] for one in (carol, frank, without)], [120, 0, 60])
        self.same("reasons", {**frank, "word": "expired", "begin": 0})
        self.same("moments", carol)
        self.same("changes", {**carol, "since": DECEMBER - 30_000_000})
        self.assertEqual(self.same("reach", frank)["amount"], 0)
        self.assertTrue(self.same("plan", {**frank, "by": [], "most": 2})["proposals"])

    def test_keys(self):
        bob = {"fingerprint": self.fpr["Bob"], "time": DECEMBER, "set": "Alice"}
        self.assertTrue(self.same("key", bob)["there"])
        for side in "by", "for":
            self.same("vouched", {**bob, "side": side, "begin": 0, "most": 20})
        self.same("life", bob)
        self.same("qr", bob)
        self.assertEqual(self.same("gone", bob)["lost"], 1)
        self.assertFalse(self.same("key", {**bob, "fingerprint": "0" * 40})["there"])

    def test_looking_around(self):
        for text in "carol", "example", self.fpr["Dave"], "0x" + self.fpr["Dave"][-16:], "c", "nobody at all":
            self.same("search", {"text": text})
        alice = {"time": DECEMBER, "set": "Alice"}
        found = self.same("network", {**alice, "open": []})
        people = {self.fpr[name] for name in ("Alice", "Bob", "Carol", "Dave")}
        self.assertEqual(people - {one["id"] for one in found["nodes"]}, set())
        self.assertGreater(len(found["nodes"]), len(people))
        self.same("others", {**alice, "begin": 0})

    def test_a_proof_holds(self):
        """The owner's page makes it of the same certificates."""
        wanted = self.page.call("proof", fingerprint=self.fpr["Carol"], user_id=PEOPLE["Carol"], wanted=120,
                                time=DECEMBER, roots=[{"fingerprint": self.fpr["Alice"], "amount": 120}])
        self.assertEqual(self.call("proof", **self.subject("Carol")), wanted)


@needs_page
class Kept(Calls):
    def test_the_page_and_its_files(self):
        """A browser keeps all of them but the page itself, which names them."""
        status, headers, page = self.everyone.request("/")
        self.assertEqual((status, headers["Content-Type"], headers["Cache-Control"]),
                         (200, "text/html; charset=utf-8", "public, no-cache"))
        self.assertIn(b'data-public="yes"', page)
        self.assertEqual(self.everyone.request("/", If_None_Match=headers["ETag"])[::2], (304, b""))
        named = re.findall(rb'(?:src|href)="([^"#]+)"', page)
        self.assertGreater(len(named), 5)
        for name in filter(None, named):
            status, headers, _ = self.everyone.request(f"/{name.decode()}")
            self.assertEqual((status, headers["Cache-Control"]), (200, "public, max-age=31536000, immutable"), name)
        self.assertEqual(self.everyone.request(f"/page-{'0' * 24}/main.js")[0], 404)

    def test_what_it_begins_with(self):
        status, headers, octets = self.everyone.request("/call/begin")
        begun = json.loads(octets)
        self.assertEqual((status, headers["Cache-Control"]), (200, "public, max-age=5"))
        self.assertEqual([one["name"] for one in begun["sets"]], ["Alice", "Bob"])
        self.assertEqual(begun["roots"], [{"fingerprint": self.fpr["Alice"], "amount": 120, "name": PEOPLE["Alice"],
                                           "there": True}])
        self.assertEqual((begun["time"] % 60, begun["notes"]), (0, []))

    def test_an_answer_is_named_and_not_sent_again(self):
        place = address_of("answer", self.subject("Carol"))
        status, headers, _ = self.everyone.request(place)
        self.assertEqual((status, headers["Cache-Control"]), (200, "public, max-age=5"))
        self.assertTrue(headers["ETag"].startswith(f'"{self.service.last_change()}-'))
        self.assertEqual(self.everyone.request(place, If_None_Match=headers["ETag"])[::2], (304, b""))
        tags = {self.everyone.request(address_of("answer", one))[1]["ETag"] for one in (
            self.subject("Carol"), self.subject("Dave"), self.subject("Carol", set="Bob"),
            self.subject("Carol", wanted=60), self.subject("Carol", time=DECEMBER + 60))}
        self.assertEqual((len(tags), headers["ETag"] in tags), (5, True))

    def test_a_change_shows_at_once(self):
        place = address_of("network", {"time": DECEMBER, "set": "Alice", "open": []})
        tag, before = (found := self.everyone.request(place))[1]["ETag"], json.loads(found[2])
        with self.service.client() as client:
            octets = client.export(self.fpr["Bob"])
            client.drop(self.fpr["Bob"])
        try:
            status, headers, without = self.everyone.request(place, If_None_Match=tag)
        finally:
            with self.service.client() as client:
                client.import_certificates(octets)
        self.assertEqual((status, headers["ETag"] == tag), (200, False))
        self.assertLess(json.loads(without)["full"], before["full"])
        self.assertEqual(json.loads(self.everyone.request(place)[2]), before)


@needs_page
class Hostile(Calls):
    def test_malformed_questions(self):
        for query in ("", "?q", "?q={", "?q=[]", "?q=1", "?x={}", "?q={}&q={}", "?q=" + quote('{"time":"x"}'),
                      "?q=" + quote("[" * 2500), "?q=" + quote('{"a":' * 300),
                      "?q=" + quote('{"a":' * 300 + "1" + "}" * 300),
                      "?q=" + quote('{"a":' + "[" * 990 + "]" * 990 + "}"), "?q=%ff", "?q=" + "0" * 5000,
                      "?q=" + quote(json.dumps({"fingerprint": "x" * 5000})), "?" + "q={}&" * 90, "?q=" + "x" * 6500):
            self.refused("answer", query)
        for wrong in ({"roots": 7}, {"roots": [7]}, {"roots": [{}]}, {"time": -1}, {"time": 10**30}, {"wanted": 0},
                      {"wanted": True}, {"user_id": "\udcff"}, {"user_id": 7}, {"without": [{"key": 7}]},
                      {"suppose": [{"kind": "x"}]}, {"fingerprint": "../../etc/passwd"}, {"without": "x"}):
            asked = {**self.subject("Carol"), **wrong}
            if "roots" in wrong:
                del asked["set"]
            self.refused("answer", f"?q={quote(json.dumps(asked))}")

    def test_roots_have_a_bound(self):
        roots = [{"fingerprint": f"{number:040x}", "amount": 1} for number in range(17)]
        asked = {"time": DECEMBER, "open": [], "fingerprint": self.fpr["Bob"], "roots": roots}
        self.assertIn("at most 16 roots", self.refused("key", f"?q={quote(json.dumps(asked))}"))
        self.assertFalse(self.call("key", **{**asked, "roots": roots[:16]})["root"])
        for name in "nobody's", 7, None, ["Alice"]:
            self.assertIn("there is no set of roots", self.refused(
                "key", f"?q={quote(json.dumps({**asked, 'set': name}))}"))

    def test_what_belongs_to_an_owner_isnt_there(self):
        before = self.service.last_change()
        for call in "add", "offered", "overview", "fragile", "meeting", "x", "", "answer/x", "../call/answer":
            self.refused(call, f"?q={quote(json.dumps({'name': '/etc/passwd'}))}", 404)
        self.assertEqual(self.service.last_change(), before)

    def test_a_question_that_costs_too_much_gets_a_reason(self):
        place = address_of("network", {"time": DECEMBER, "set": "Alice", "open": []})

        async def test():
            async with inside(self.service, self.sets, seconds=10) as server:
                self.assertEqual(await server.status(place), 200)
                (worker,) = workers()
                os.kill(worker, signal.SIGSTOP)
                asked = asyncio.create_task(asyncio.to_thread(
                    server.request, place.replace(str(DECEMBER), str(DECEMBER + 60))))
                await until(lambda: server.figure("workers_busy") == 1)
                server.move(11)
                status, headers, octets = await asked
                self.assertEqual((status, headers["Retry-After"], headers["ETag"]), (503, "5", None))
                self.assertIn("takes more than 10 seconds", json.loads(octets)["error"])
        run(test())

    def test_an_address_has_a_limit_for_files_too(self):
        """A file is a tenth of a request."""
        async def test():
            async with inside(self.service, self.sets, rate=0.001, burst=1, proxies=["127.0.0.1"]) as server:
                found = [await server.status("/", X_Forwarded_For="192.0.2.1") for _ in range(11)]
                self.assertEqual(found, [200] * 10 + [429])
                self.assertEqual(await server.status("/call/begin", X_Forwarded_For="192.0.2.1"), 429)
                self.assertEqual(await server.status("/", X_Forwarded_For="192.0.2.2"), 200)
        run(test())
