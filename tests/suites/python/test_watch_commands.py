"""The command that `tukyamid watch` runs at each change, over a real service."""

import os

from friends import PEOPLE
from outside import needs_engine, needs_gpg
from test_watch import PATIENCE, Watching

# Puts what it got into a file: its words, its standard input, and the facts of its environment.
SAVES = """import json, os, sys
facts = {name: value for name, value in os.environ.items() if name.startswith('TUKYAMID_')}
with open(sys.argv[1] + '.new', 'w') as file:
    json.dump([sys.argv[2:], sys.stdin.read(), facts], file)
os.rename(sys.argv[1] + '.new', sys.argv[1])"""


@needs_engine
@needs_gpg
class Commands(Watching):
    def saving(self, *more):
        self.place = self.own / "saved"
        return ["/usr/bin/python3", "-c", SAVES, self.place, *more]

    def test_the_facts(self):
        """The command's words stand as they are given: no shell reads them."""
        watch = self.watch(after=["--exec", *self.saving("$HOME; `x`", "--quiet")])
        self.report(watch, 120)
        self.assertFalse(self.place.exists())
        self.drop("Bob")
        words, given, facts = self.saved(self.place)
        self.assertEqual(words, ["$HOME; `x`", "--quiet"])
        self.report(watch, 60, 120)
        self.assertEqual({name: facts[f"TUKYAMID_{name}"] for name in
                          ("KEY", "USER_ID", "AMOUNT", "BEFORE", "WANTED", "REACHED")},
                         {"KEY": self.fpr["Carol"], "USER_ID": PEOPLE["Carol"], "AMOUNT": "60", "BEFORE": "120",
                          "WANTED": "120", "REACHED": "no"})
        self.assertIn(f"process {os.getpid()}: drop {self.fpr['Bob']}\n", facts["TUKYAMID_CHANGES"])
        self.assertEqual(facts["TUKYAMID_TEXT"], given)
        self.assertIn("not reached: 60 of 120; it was 120\n", given)

    def test_a_shell_if_it_is_asked_for(self):
        place = self.own / "by-shell"
        watch = self.watch("--shell", f'echo "$TUKYAMID_AMOUNT" | sed s/6/\\"6/ > {place}.new; mv {place}.new {place}')
        self.report(watch, 120)
        self.drop("Bob")
        self.wait_for(place)
        self.assertEqual(place.read_text(), '"60\n')

    def test_one_that_fails(self):
        """The watch ends. What wasn't taken is reported when it starts again."""
        file = self.own / "watch.json"
        watch = self.watch("--state", file, after=["--exec", "false"])
        self.report(watch, 120)
        self.wait_for(file)
        self.drop("Bob")
        self.assertEqual(watch.wait(PATIENCE), 3)
        self.assertEqual(watch.stderr.read(), b"tukyamid: false ended with status 1\n")
        watch = self.watch("--state", file, "--once", after=["--exec", *self.saving()])
        self.assertEqual(watch.wait(PATIENCE), 1)
        self.assertEqual(self.saved(self.place)[2]["TUKYAMID_BEFORE"], "120")
        watch = self.watch(after=["--exec", "/nonexistent/program"])
        self.report(watch, 60)
        self.drop("Carol")
        self.assertEqual((watch.wait(PATIENCE), watch.stderr.read()),
                         (3, b"tukyamid: /nonexistent/program: No such file or directory\n"))
