"""What a cache gets: tags, what is unchanged, and answers that follow a change at once."""

import json

from everyone import Public
from friends import PEOPLE
from page import DECEMBER, needs_page


@needs_page
class Caching(Public):
    def carol(self, **more):
        return self.about("Carol", PEOPLE["Carol"], **more)

    def test_an_answer_is_named_and_not_sent_again(self):
        status, headers, found = self.everyone.ask("authenticate", self.carol())
        tag = headers["ETag"]
        self.assertEqual((status, headers["Cache-Control"], headers["Set-Cookie"]), (200, "public, max-age=5", None))
        self.assertRegex(tag, rf'\A"{self.service.last_change()}-[0-9a-f]+"\Z')
        for given in tag, f"W/{tag}", f'"other", {tag}':
            status, headers, none = self.everyone.ask("authenticate", self.carol(), If_None_Match=given)
            self.assertEqual((status, headers["ETag"], none), (304, tag, None))
        for given in '"other"', "", tag.strip('"'):
            status, _, again = self.everyone.ask("authenticate", self.carol(), If_None_Match=given)
            self.assertEqual((status, again), (200, found))

    def test_the_tag_is_of_the_question(self):
        tags = set()
        asked = [self.carol(), self.carol(amount=60), self.carol(time=DECEMBER + 1), self.carol(roots="Bob"),
                 self.carol(root=f"{self.fpr['Alice']}:60"), self.carol(strict="true"),
                 self.about("Dave", PEOPLE["Dave"])]
        for query in asked:
            tags.add(self.everyone.ask("authenticate", query)[1]["ETag"])
        tags.add(self.everyone.ask("explain", self.carol())[1]["ETag"])
        self.assertEqual(len(tags), len(asked) + 1)
        same = self.everyone.ask("authenticate", {**self.carol(), "time": "2025-12-01", "roots": "Alice"})[1]["ETag"]
        self.assertIn(same, tags)

    def test_without_a_time_it_is_the_present_rounded_up_to_a_minute(self):
        query = {"key": self.fpr["Carol"], "user_id": PEOPLE["Carol"]}
        _, headers, found = self.everyone.ask("authenticate", query)
        self.assertEqual(found["time"] % 60, 0)
        _, named, _ = self.everyone.ask("authenticate", {**query, "time": f"@{found['time']}"})
        self.assertEqual(named["ETag"], headers["ETag"])

    def test_a_change_gives_another_answer_at_once(self):
        query = self.about("Bob", PEOPLE["Bob"])
        _, headers, found = self.everyone.ask("authenticate", query)
        (step,) = found["bindings"][0]["paths"][0]["steps"]
        before = headers["ETag"]
        for _ in range(3):
            with self.service.client() as client:
                client.judge_bad(step["signature"])
            status, headers, found = self.everyone.ask("authenticate", query, If_None_Match=before)
            self.assertEqual((status, found["reached"]), (200, False))
            changed = headers["ETag"]
            with self.service.client() as client:
                client.judge_good(step["signature"], self.fpr["Alice"])
            status, headers, found = self.everyone.ask("authenticate", query, If_None_Match=changed)
            self.assertEqual((status, found["reached"]), (200, True))
            self.assertNotIn(headers["ETag"], (before, changed))
            before = headers["ETag"]

    def test_ready_says_the_last_change(self):
        status, headers, octets = self.everyone.request("/ready")
        self.assertEqual((status, headers["Cache-Control"]), (200, "no-store"))
        self.assertEqual(json.loads(octets), {"ready": True, "change": self.service.last_change(), "waiting": None})
