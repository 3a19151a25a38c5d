"""The operator's sets of roots: from the configuration file, or from files that the command names."""

import json

from everyone import Everyone, Public
from outside import COMMAND, run
from page import needs_page


@needs_page
class Sets(Public):
    def setUp(self):
        self.file = self.service.own / "config.toml"
        self.addCleanup(self.file.unlink)

    def configure(self, text):
        self.file.write_text(text)
        self.file.chmod(0o600)
        return {**self.service.environment, "TUKYAMID_CONFIG": str(self.file)}

    def begun(self, *words):
        """What the page begins with, by the sets of the file or of the words: names with fingerprints."""
        everyone = Everyone(self.service, *words, config=self.file)
        try:
            status, _, octets = everyone.request("/call/begin")
            self.assertEqual(status, 200, octets)
            listed = everyone.request("/api/v1/list")
        finally:
            everyone.close()
        found = {one["name"]: [root["fingerprint"] for root in one["roots"]] for one in json.loads(octets)["sets"]}
        return found, listed

    def test_of_the_configuration_file(self):
        """The first set is the default one. The owner's own roots aren't shown to anybody."""
        self.configure(f"[roots]\n{self.fpr['Dave']} = 120\n[sets.Friends]\n{self.fpr['Bob']} = 60\n"
                       f"{self.fpr['Carol']} = 120\n[sets.me]\n{self.fpr['Alice']} = 120\n")
        found, (status, _, octets) = self.begun()
        self.assertEqual(found, {"Friends": [self.fpr["Bob"], self.fpr["Carol"]], "me": [self.fpr["Alice"]]})
        roots = {root["fingerprint"]: root["amount"] for root in json.loads(octets)["roots"]}
        self.assertEqual((status, roots), (200, {self.fpr["Bob"]: 60, self.fpr["Carol"]: 120}))

    def test_those_that_are_named_come_in_their_place(self):
        self.configure(f"[sets.Friends]\n{self.fpr['Bob']} = 60\n")
        found, _ = self.begun(*self.sets)
        self.assertEqual(found, {name: [self.fpr[name]] for name in ("Alice", "Bob")})

    def test_without_a_set_visitors_have_their_own_roots(self):
        self.configure("")
        found, (status, _, octets) = self.begun()
        self.assertEqual((found, status), ({}, 400))
        self.assertIn("a trust root is missing", json.loads(octets)["error"])

    def test_a_damaged_file_never_means_that_there_are_none(self):
        many = "".join(f"{number:040x} = 1\n" for number in range(65))
        for text, status, said in (("[sets.me]\nx = 1\n", 3, "isn't a fingerprint"), ("[sets.me]\n", 3, "has no roots"),
                                   (f"[sets.me]\n{many}", 2, "has more than 64 roots")):
            done = run([COMMAND, "web", "--public", "--listen", "127.0.0.1:0", "--socket", self.service.questions],
                       env=self.configure(text))
            self.assertEqual((done.returncode, done.stdout), (status, b""))
            self.assertIn(said, done.stderr.decode())
