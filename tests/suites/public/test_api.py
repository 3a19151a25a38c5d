"""The API: each reply beside the command's JSON over the same keyring, and beside its description."""

import json
import unittest

from everyone import Public
from friends import PEOPLE
from outside import COMMAND, folder, run
from page import DECEMBER, needs_page

try:
    import jsonschema
except ModuleNotFoundError:
    jsonschema = None


@needs_page
class Beside(Public):
    """What the command says over the same files, in which it verifies by the same stand-in."""

    def command(self, *words, root="Alice"):
        done = run([COMMAND, *words, "--format", "json", "--time", f"@{DECEMBER}", f"--root={self.fpr[root]}",
                    "--keyring", self.friends.keyring, "--keyring", folder() / "hostile.pgp", "--no-service"],
                   env=self.service.environment)
        self.assertIn(done.returncode, (0, 1), done.stderr)
        return json.loads(done.stdout)

    def both(self, call, query, *words, root="Alice"):
        status, _, found = self.everyone.ask(call, [*query, ("time", f"@{DECEMBER}"), ("roots", root)])
        self.assertEqual((status, found), (200, self.command(call, *words, root=root)))
        return found

    def test_authenticate_and_explain(self):
        amounts = {"Alice": 120, "Bob": 120, "Carol": 120, "Dave": 60, "Erin": 0, "Frank": 0}
        for name, user_id in PEOPLE.items():
            for call in "authenticate", "explain":
                with self.subTest(name, call=call):
                    found = self.both(call, [("key", self.fpr[name]), ("user_id", user_id)], self.fpr[name], user_id)
                    self.assertIs(found["reached"], amounts[name] == 120)
                    self.assertEqual([one["amount"] for one in found["bindings"]], [amounts[name]])

    def test_from_another_set_of_roots(self):
        found = self.both("authenticate", [("key", self.fpr["Carol"]), ("user_id", PEOPLE["Carol"])],
                          self.fpr["Carol"], PEOPLE["Carol"], root="Bob")
        self.assertTrue(found["reached"])
        found = self.both("authenticate", [("key", self.fpr["Alice"]), ("user_id", PEOPLE["Alice"])],
                          self.fpr["Alice"], PEOPLE["Alice"], root="Bob")
        self.assertFalse(found["reached"])

    def test_lookup_and_identify(self):
        self.both("lookup", [("email", "carol@example.org")], "--email", "carol@example.org")
        self.both("lookup", [("user_id", PEOPLE["Dave"])], PEOPLE["Dave"])
        self.assertEqual(self.both("lookup", [("user_id", "nobody")], "nobody")["bindings"], [])
        self.both("identify", [("key", self.fpr["Frank"])], self.fpr["Frank"])
        self.both("identify", [("key", self.fpr["Frank"][-16:])], self.fpr["Frank"][-16:])

    def test_path(self):
        keys = [self.fpr[name] for name in ("Alice", "Bob", "Carol")]
        query = [*(("key", key) for key in keys), ("user_id", PEOPLE["Carol"])]
        self.assertTrue(self.both("path", query, *keys, PEOPLE["Carol"])["reached"])
        keys = [self.fpr[name] for name in ("Alice", "Bob", "Dave")]
        query = [*(("key", key) for key in keys), ("user_id", PEOPLE["Dave"])]
        found = self.both("path", query, *keys, PEOPLE["Dave"])
        self.assertFalse(found["reached"])
        self.assertTrue(any("breaks the path" in note for note in found["notes"]), found["notes"])

    def test_the_list_in_pages_is_the_commands(self):
        whole, begin = self.command("list", "--amount", "1")["bindings"], 0
        pieces = []
        while begin is not None:
            status, _, found = self.everyone.ask("list", {"amount": 1, "time": f"@{DECEMBER}", "begin": begin,
                                                          "most": 3})
            self.assertEqual((status, found["count"]), (200, len(whole)))
            self.assertLessEqual(len(found["bindings"]), 3)
            pieces += found["bindings"]
            begin = found["next"]
        self.assertGreater(len(whole), 6)
        self.assertEqual(pieces, whole)

    def test_octets_that_are_no_text(self):
        user_id = b"=HYPERLINK(\"http://evil.example/\") \xff\xfe"
        _, _, listed = self.everyone.ask("list", {"amount": 1, "time": f"@{DECEMBER}", "pattern": "=HYPERLINK"})
        (one,) = listed["bindings"]
        status, _, found = self.everyone.ask("authenticate", [("key", one["fingerprint"]), ("user_id", user_id),
                                                              ("time", f"@{DECEMBER}")])
        self.assertEqual((status, found["reached"]), (200, True))
        self.assertEqual(found["bindings"][0]["user_id_spelled"], one["user_id_spelled"])

    def test_proofs_are_checked_by_the_command(self):
        for name, claim, answered in ("Carol", "answer", 0), ("Frank", "absence", 0):
            status, _, found = self.everyone.ask("proof", self.about(name, PEOPLE[name]))
            self.assertEqual((status, found["claim"]), (200, claim))
            file = folder() / f"{name}.proof"
            file.write_text(json.dumps(found))
            done = run([COMMAND, "check", file], env=self.service.environment)
            self.assertEqual(done.returncode, answered, done.stderr.decode())
            found["amount"] = 120 if claim == "absence" else 119
            file.write_text(json.dumps(found))
            self.assertNotEqual(run([COMMAND, "check", file], env=self.service.environment).returncode, 0)

    def test_from_roots_of_the_visitors_own(self):
        carol = self.about("Carol", PEOPLE["Carol"])
        for amount, reached in (120, True), (60, False):
            roots = [("root", f"{self.fpr['Alice']}:{amount}")]
            _, _, found = self.everyone.ask("authenticate", [*carol.items(), *roots])
            self.assertEqual((found["reached"], found["bindings"][0]["amount"]), (reached, amount))
        self.assertEqual(self.everyone.ask("authenticate", [*carol.items(), *roots * 16])[0], 200)
        status, _, found = self.everyone.ask("authenticate", [*carol.items(), *roots * 17])
        self.assertEqual((status, found["error"]), (400, "more than 16 roots"))

    def test_absence(self):
        status, _, found = self.everyone.ask("absence", self.about("Frank", PEOPLE["Frank"]))
        self.assertEqual((status, found["reached"], found["amount"], found["paths"]), (200, False, 0, []))
        status, _, found = self.everyone.ask("absence", self.about("Carol", PEOPLE["Carol"]))
        self.assertEqual((status, found["reached"], found["amount"]), (200, True, 120))


def validator(document, schema):
    """What checks a value against a schema that may refer to other parts of the document."""
    return jsonschema.Draft202012Validator({**schema, "components": document["components"]})


@needs_page
@unittest.skipIf(jsonschema is None, "python3-jsonschema isn't installed")
class Described(Public):
    """Each reply, by the document that the server serves."""

    def setUp(self):
        status, headers, octets = self.everyone.request("/api/v1/openapi.json")
        self.assertEqual((status, headers["Content-Type"]), (200, "application/json; charset=utf-8"))
        self.document = json.loads(octets)

    def schema(self, call, status):
        reply = self.document["paths"][f"/{call}"]["get"]["responses"][str(status)]
        if "$ref" in reply:
            reply = self.document["components"]["responses"][reply["$ref"].rpartition("/")[2]]
        return reply["content"]["application/json"]["schema"]

    def test_the_document_is_well_formed(self):
        self.assertEqual(self.document["openapi"], "3.1.0")
        self.assertEqual(set(self.document["paths"]), {f"/{call}" for call in (
            "authenticate", "explain", "lookup", "identify", "path", "list", "absence", "proof")})
        for schema in self.document["components"]["schemas"].values():
            jsonschema.Draft202012Validator.check_schema(schema)
        names = [one["get"]["operationId"] for one in self.document["paths"].values()]
        self.assertEqual(len(names), len(set(names)))

    def test_each_reply_is_as_described(self):
        person = self.about("Carol", PEOPLE["Carol"])
        asked = [("authenticate", person), ("explain", self.about("Frank", PEOPLE["Frank"])),
                 ("lookup", {"email": "dave@example.net"}), ("identify", {"key": self.fpr["Erin"]}),
                 ("path", person), ("list", {"amount": 1, "most": 2}), ("absence", person), ("proof", person),
                 ("absence", self.about("Frank", PEOPLE["Frank"])), ("proof", self.about("Frank", PEOPLE["Frank"])),
                 ("authenticate", self.about("Carol", "nobody"))]
        for call, query in asked:
            with self.subTest(call, query=query):
                status, _, found = self.everyone.ask(call, query)
                self.assertEqual(status, 200, found)
                validator(self.document, self.schema(call, 200)).validate(found)

    def test_each_error_is_as_described(self):
        unknown = "ab" * 20
        asked = [(400, "authenticate", {"key": "x", "user_id": "y"}), (400, "authenticate", {"key": unknown}),
                 (400, "list", {"most": 0}), (400, "list", {"most": 1, "nothing": 1}), (400, "list", {"roots": "Eve"}),
                 (400, "lookup", {"email": "nobody"}), (400, "list", {"time": "never"}),
                 (404, "identify", {"key": "ab" * 8}), (404, "list", {"root": unknown}),
                 (404, "proof", {"key": unknown, "user_id": "x"})]
        for status, call, query in asked:
            with self.subTest(call, query=query):
                given, headers, found = self.everyone.ask(call, query)
                self.assertEqual((given, headers["Cache-Control"]), (status, "no-store"), found)
                self.assertIsNone(headers["ETag"])
                validator(self.document, self.schema(call, status)).validate(found)
                self.assertEqual(found["status"], {400: 2, 404: 3}[status])

    def test_each_parameter_is_described_and_no_other(self):
        """The server refuses what the document doesn't name, and knows what it names."""
        for call, one in self.document["paths"].items():
            named = {self.resolved(parameter)["name"] for parameter in one["get"]["parameters"]}
            for name in named:
                _, _, found = self.everyone.ask(call.strip("/"), {name: "?"})
                self.assertNotIn("has no parameter", found.get("error", ""), name)
            _, _, found = self.everyone.ask(call.strip("/"), {"x-other": "?"})
            self.assertIn("has no parameter", found["error"])

    def resolved(self, parameter):
        if "$ref" in parameter:
            return self.document["components"]["parameters"][parameter["$ref"].rpartition("/")[2]]
        return parameter
