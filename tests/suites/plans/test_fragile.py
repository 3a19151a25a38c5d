"""What is fragile, over six people whose answers are known in advance (see `friends`)."""

import json

from asking import APRIL, Asking
from friends import PEOPLE
from outside import needs_engine, needs_gpg


@needs_engine
@needs_gpg
class Fragile(Asking):
    def tables(self, *words, **more):
        done = self.ask("fragile", "--format", "json", *words, **more)
        self.assertEqual((done.returncode, done.stderr), (0, b""))
        found = json.loads(done.stdout)
        return found["reached"], {table["name"]: [dict(zip(table["columns"], row)) for row in table["rows"]]
                                  for table in found["tables"]}

    def test_what_rests_on_one_key_or_certification(self):
        """At 120 Carol needs both Bob and Alice's own certification, and Bob needs Alice's alone, which is a root's own
        certification of the one binding that rests on it if Carol weren't there."""
        reached, tables = self.tables()
        self.assertEqual(reached, 3)
        self.assertEqual([(one["user ID"], one["bindings"], one["which"], one["safer with"])
                          for one in tables["fragile-keys"]],
                         [(PEOPLE["Bob"], 1, PEOPLE["Carol"], f"{PEOPLE['Alice']} certifies {PEOPLE['Carol']}: all")])
        made = {(one["by"], one["of"]): one["bindings"] for one in tables["fragile-certifications"]}
        self.assertEqual(made, {(PEOPLE["Alice"], PEOPLE["Bob"]): 2, (PEOPLE["Bob"], PEOPLE["Carol"]): 1})
        self.assertEqual(tables["fragile-falls"], [])

    def test_at_a_smaller_amount(self):
        """At 60 Carol no longer rests on Bob, and Dave rests on Carol and on both certifications of his path."""
        reached, tables = self.tables("--amount", "60")
        self.assertEqual(reached, 4)
        self.assertEqual({(one["user ID"], one["which"]) for one in tables["fragile-keys"]},
                         {(PEOPLE["Carol"], PEOPLE["Dave"])})
        made = {(one["by"], one["of"]): (one["bindings"], one["which"]) for one in tables["fragile-certifications"]}
        self.assertEqual(made, {(PEOPLE["Alice"], PEOPLE["Carol"]): (1, PEOPLE["Dave"]),
                                (PEOPLE["Carol"], PEOPLE["Dave"]): (1, PEOPLE["Dave"])})

    def test_what_falls_when_something_ends(self):
        """Bob's certification of Frank, made on 2 April, lasts for 30 days."""
        _, tables = self.tables(time=APRIL)
        self.assertEqual([(one["day"], one["which"]) for one in tables["fragile-falls"]],
                         [("2025-05-02", PEOPLE["Frank"])])
        self.assertIn(f"the certification of {PEOPLE['Frank']} by {PEOPLE['Bob']} ends",
                      tables["fragile-falls"][0]["what ends"])
        self.assertEqual(self.tables("--days", "10", time=APRIL)[1]["fragile-falls"], [])

    def test_a_supposed_certification_makes_it_safe(self):
        """What is proposed holds: with it, leaving out the carrier leaves the binding reached."""
        _, tables = self.tables("--amount", "60")
        (one,) = tables["fragile-keys"]
        self.assertEqual(one["safer with"], f"{PEOPLE['Alice']} certifies {PEOPLE['Dave']}: all")
        made = f"{self.fpr['Alice']} certifies {self.fpr['Dave']} {PEOPLE['Dave']}"
        for suppose, amount in ([], 0), (["--suppose", made], 120):
            _, report = self.answer("--suppose", f"without {self.fpr['Carol']}", *suppose, "authenticate",
                                    self.fpr["Dave"], PEOPLE["Dave"])
            self.assertEqual(report["bindings"][0]["amount"], amount)

    def test_what_people_read(self):
        text = self.ask("fragile", time=APRIL).stdout.decode()
        self.assertIn("What falls within 180 days (1)\n", text)
        self.fails(self.ask("fragile", "--days", "0"), 2, "threshold")
        self.fails(self.ask("fragile", "--days", "3651"), 2, "at most 3650")
