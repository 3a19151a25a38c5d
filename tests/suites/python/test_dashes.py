"""Words that look like options: strangers choose user IDs and names of files."""

import re
import shlex
import unittest

from outside import ROOT
from tukyamid.command import parser, root_command, service_commands
from tukyamid.planning import plan_words
from tukyamid.setup import setup_command
from tukyamid.verify import verify_command
from tukyamid.watch import watch_words

KEY = "ab" * 20
HOSTILE = "--shell=touch /tmp/x"
UNIT = ROOT / "packaging/systemd/user/tukyamid-watch@.service"


class Dashes(unittest.TestCase):
    def test_after_two_dashes_there_are_no_options(self):
        for made in (verify_command.parser(), watch_words.parser(), plan_words.words_parser(), root_command.parser(),
                     service_commands.parser("keyring"), setup_command.parser()):
            with self.subTest(made.prog):
                given = made.parse_intermixed_args(["one", "--quiet", "two", "--", "--quiet", HOSTILE, "--", "-x"])
                self.assertEqual(given.words, ["one", "two", "--quiet", HOSTILE, "--", "-x"])

    def test_a_question(self):
        for words in (["authenticate", KEY, "--", HOSTILE], ["authenticate", "--", KEY, HOSTILE],
                      ["--", "authenticate", KEY, HOSTILE]):
            given = parser.read(["--strict", *words])
            self.assertEqual((given.question, given.words, given.strict), ("authenticate", [KEY, HOSTILE], True))

    def test_the_unit_of_a_watch(self):
        """A user ID of its file is a user ID, whatever it looks like."""
        line = re.search(r"^ExecStart=(.*)$", UNIT.read_text().replace("\\\n", ""), re.M)[1]
        values = {"${KEY}": [KEY], "${USER_ID}": [HOSTILE], "$OPTIONS": ["--every", "5"]}
        words = [value for word in shlex.split(line) for value in values.get(word, [word])]
        given = watch_words.read(words[words.index("watch") + 1:])
        self.assertEqual((given.words, given.every, given.shell), ([KEY, HOSTILE], 5, None))
        self.assertEqual(given.command, ["/usr/lib/tukyamid/watch-notice"])
