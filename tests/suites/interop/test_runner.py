"""The runner over adapters that answer otherwise, or not at all; its page; and the adapter of the README."""

import html.parser
import json
import os
import re
import unittest

from running import BOB, FULL, NONE, PART, RIGHT, THREE, Adapters, run
from written import cases

import case_files  # noqa: I100
import engines
import judging


def case_of(adapters, place):
    return case_files.read(adapters.suite / "cases" / f"{place}.json")


class Judged(unittest.TestCase):
    def setUp(self):
        self.adapters = Adapters(self)

    def verdict(self, place, **answer):
        case = case_of(self.adapters, place)
        return judging.verdict_of(case, engines.answer_of(json.dumps(answer).encode())).value

    def test_answers_beside_the_expected_one(self):
        self.assertEqual(self.verdict(PART, amount=60), "same")
        self.assertEqual(self.verdict(PART, amount=40), "amount")
        self.assertEqual(self.verdict(PART, amount=120), "differs")
        self.assertEqual(self.verdict(FULL, amount=119), "differs")
        self.assertEqual(self.verdict(FULL, amount=240), "amount")
        self.assertEqual(self.verdict(PART, amount=1, most=119), "same")
        self.assertEqual(self.verdict(NONE, amount=1, most=119), "amount")
        self.assertEqual(self.verdict(PART, amount=120, most=65535), "differs")
        self.assertEqual(self.verdict(PART, unsupported="so"), "can't")
        self.assertEqual(self.verdict(PART, error="so"), "failed")
        self.assertEqual(self.verdict(PART, amount="60"), "failed")
        self.assertEqual(self.verdict(PART, amount=60, most=40), "failed")

    def test_paths(self):
        _, *people = THREE[PART][1][0]
        for names, verdict in ((people, "same"), (people[::2], "paths"), ([*people, BOB], "paths"),
                               ([people[0].lower(), *people[1:], people[-1]], "same")):
            with self.subTest(names=names):
                told = [{"amount": 60, "certificates": names}]
                self.assertEqual(self.verdict(PART, amount=60, paths=told), verdict)
        self.assertEqual(self.verdict(PART, amount=60, paths=[]), "paths")

    def test_a_choice_explains_the_answer_of_whom_it_names(self):
        case = case_of(self.adapters, PART)
        choice = case_files.Choice(40, "gpg, sq-wot", "They count otherwise.")
        chosen = case_files.Case(**{**vars(case), "choices": (choice,)})
        known = [judging.Reason(("other",), "Known.", ("amounts/*",)),
                 judging.Reason(("third",), "Elsewhere.", ("depth/*",))]
        for engine, amount, why in (("gpg", 40, "They count otherwise."), ("gpg", 50, ""), ("wot", 40, ""),
                                    ("sq-wot", 40, "They count otherwise."), ("sequoia", 40, "They count otherwise."),
                                    ("other", 7, "Known."), ("third", 7, "")):
            with self.subTest(engine=engine, amount=amount):
                self.assertEqual(judging.judge(chosen, engine, engines.Answer(amount, amount), known).why, why)

    def test_a_choice_of_nobody_by_name_explains_any_answer_like_it(self):
        case = case_of(self.adapters, PART)
        choices = case_files.Choice(40, "a strict reader", "it is so"), case_files.Choice(50, "Sequoia", "it is so")
        chosen = case_files.Case(**{**vars(case), "choices": choices})
        for engine, amount, why in (("gpg", 40, "A strict reader: it is so."), ("gpg", 50, ""),
                                    ("sequoia", 50, "It is so.")):
            with self.subTest(engine=engine, amount=amount):
                self.assertEqual(judging.judge(chosen, engine, engines.Answer(amount, amount), []).why, why)

    def test_what_is_known_about_engines(self):
        places = list(cases())
        for reason in judging.read_known():
            self.assertLessEqual(set(reason.engines), set(engines.names()))
            for pattern in reason.cases:
                self.assertTrue([place for place in places if case_files.fnmatch.fnmatchcase(place, pattern)], pattern)


class Run(unittest.TestCase):
    def setUp(self):
        self.adapters = Adapters(self)

    def test_all_as_expected(self):
        self.assertEqual(self.adapters.run(self.adapters.answering("right", RIGHT))[::2],
                         (0, "1 engines, 3 cases: 0 differences without a reason"))

    def test_a_difference_without_a_reason(self):
        wrong = self.adapters.answering("wrong", {**RIGHT, PART: {"amount": 40}})
        status, output, last = self.adapters.run(wrong)
        self.assertEqual((status, last), (1, "1 engines, 3 cases: 1 differences without a reason"))
        self.assertIn(f"wrong {PART}: 40, expected 60 of 120\n", output)
        self.assertRegex(output, rf"(?m)^{PART} +60 +~40$")
        self.assertNotIn(f"\n{FULL} ", output)

    def test_what_an_engine_cannot_be_asked_is_no_difference_unless_strict(self):
        some = self.adapters.answering("some", {**RIGHT, PART: {"unsupported": "it has full trust alone"}})
        self.assertEqual(self.adapters.run(some)[0], 0)
        self.assertEqual(self.adapters.run("--strict", some)[0], 1)

    def test_an_adapter_that_ends_is_started_again(self):
        ends = f"if case['name'] == {PART.split('/')[1]!r}: sys.exit(3)\n    return {{'amount': 120}}"
        status, output, last = self.adapters.run(self.adapters.write("ends", ends))
        self.assertEqual((status, last), (1, "1 engines, 3 cases: 2 differences without a reason"))
        self.assertIn(f"ends {PART}: no answer (the adapter ended without an answer), expected 60\n", output)
        self.assertIn(f"ends {NONE}: 120, expected 0 of 120\n", output)

    def test_silent_and_babbling_adapters(self):
        silent = self.adapters.write("silent", "time.sleep(3600)")
        status, output, _ = self.adapters.run(silent, INTEROP_SECONDS="0.2")
        self.assertEqual((status, output.count("wrote no line within")), (1, 3))
        babbling = self.adapters.write("babbling", "return 'sixty'")
        status, output, _ = self.adapters.run(babbling)
        said = "no answer (it wrote '\"sixty\"', which is no answer)"
        self.assertEqual((status, output.count(said)), (1, 3), output)

    def test_adapters_see_no_expected_answer(self):
        spying = "return {'amount': 0} if set(case) - {'name', 'group', 'title', 'certificates', 'roots', 'time', " \
                 f"'question'}} else json.loads({json.dumps(json.dumps(RIGHT))})[case['group'] + '/' + case['name']]"
        self.assertEqual(self.adapters.run(self.adapters.write("spying", spying))[0], 0)

    def test_engines_that_are_not_here(self):
        status, output, errors = run("nowhere")
        self.assertEqual((status, output), (3, ""))
        self.assertIn("there is no adapter", errors)
        status, output, errors = run("gpg", PATH="/nowhere")
        self.assertEqual((status, output, errors.splitlines()[0]),
                         (3, "", "gpg: gpg isn't installed, and INTEROP_GPG names no other"))

    def test_variants_that_change_an_answer(self):
        # It answers only what it was never asked about: so it sees that the certificates are others.
        shy = self.adapters.write("shy", """seen = os.path.exists(COUNT)
    open(COUNT, "a").close()
    return {'amount': 7 if seen else 120}""")
        status, output, last = self.adapters.run("--cases", FULL, "--mutations", 2, shy)
        self.assertEqual((status, last),
                         (0, "1 engines, 1 cases: 0 differences without a reason, 2 of 2 variants changed an answer"))
        self.assertEqual(output.count(f"{FULL}: 120, then 7"), 2)


class Page(unittest.TestCase):
    def test_it_is_whole_and_needs_nothing_else(self):
        adapters = Adapters(self)
        wrong = adapters.answering("wrong", {**RIGHT, NONE: {"amount": 120}, FULL: {"unsupported": "<i>no</i> full"}})
        right, page = adapters.answering("right", RIGHT), adapters.folder / "page.html"
        adapters.run("--page", page, right, wrong)
        text = page.read_text(encoding="utf-8")
        balance = Balance()
        balance.feed(text)
        balance.close()
        self.assertEqual(balance.open, [])
        self.assertNotRegex(text, r"<(?:script|link|img|iframe)|https?:|@import|url\(")
        self.assertIn("&lt;i&gt;no&lt;/i&gt; full", text)
        words = " ".join(text.split())
        for place, (title, _) in THREE.items():
            self.assertIn(f'id="c-{place.replace("/", "-")}"', text)
            self.assertIn(title, words)
            self.assertIn(f"So it is with {place.split('/')[1]}.", words)
        self.assertEqual(len(re.findall(r'class="v differs"', balance.body)), 2)  # One of them is in the legend.
        self.assertLessEqual(max(map(len, text.splitlines())), 120)


class Balance(html.parser.HTMLParser):
    """Which elements are open, and the page's body."""

    VOID = {"meta", "br", "input", "html"}

    def __init__(self):
        super().__init__()
        self.open, self.body = [], ""

    def handle_starttag(self, tag, attrs):
        self.body += self.get_starttag_text()
        if tag not in self.VOID:
            self.open.append(tag)

    def handle_endtag(self, tag):
        if tag not in self.VOID:
            if self.open.pop() != tag:
                raise AssertionError(f"{tag} ends at {self.getpos()}")


class Copied(unittest.TestCase):
    """The folder by itself, as the README says. All tests of this file run a copy outside of the repository."""

    def setUp(self):
        self.adapters = Adapters(self)

    def test_variants(self):
        status, _, last = self.adapters.run("--mutations", 2, self.adapters.answering("right", RIGHT))
        self.assertEqual(status, 0)
        self.assertTrue(last.endswith("0 of 6 variants changed an answer"), last)
        self.assertFalse(list(self.adapters.suite.rglob("__pycache__")))

    def test_the_adapter_of_the_readme(self):
        readme = (self.adapters.suite / "README.md").read_text(encoding="utf-8")
        code = re.search(r"```python\n(.*?)```", readme, re.DOTALL)[1]
        self.assertLess(code.count("\n"), 50)
        paths = self.adapters.folder / "bin"
        paths.mkdir()
        # An engine with one rule: whoever asks with files of certificates for a full root gets full trust.
        for file, text in ((self.adapters.folder / "wotty-adapter", code), (paths / "wotty", WOTTY)):
            file.write_text(text, encoding="utf-8")
            file.chmod(0o755)
        status, output, last = self.adapters.run(self.adapters.folder / "wotty-adapter", "--cases", "amounts/*",
                                                 PATH=f"{paths}:{os.environ['PATH']}")
        self.assertIn("wotty-adapter: wotty 7\n", output)
        self.assertEqual((status, last), (1, "1 engines, 2 cases: 1 differences without a reason"), output)
        self.assertIn(f"wotty-adapter {PART}: 120, expected 60 of 120\n", output)


WOTTY = """#!/bin/sh
[ "$1" = --version ] && exec echo wotty 7
for last; do :; done
[ -s "$last" ] || exit 9
case $* in *A1=120\\ *) echo 120 ;; *) exit 4 ;; esac
"""
