"""The plain model answers each case as it is expected: amount, and paths where the case has them."""

import unittest

from held import held
from verifying import verdicts
from wot_model.answers import next_path_by_layers, next_path_by_listing
from wot_model.machine import Machine
from wot_model.script import print_user_id
from written import cases, certificates, user_id

# Up to this many certificates are also searched by listing all valid paths, as the next path is defined.
SMALL = 6


def script(case):
    """The lines that ask the case's question of an engine that gets its verdicts from outside."""
    for octets in certificates(case):
        yield f"import {octets.hex()}"
    for number, issuer in verdicts(held(case)):
        yield f"verdict {number.hex()} " + (f"good {issuer.hex()}" if issuer else "bad")
    yield f"view v time {case['time']}"
    for root in case["roots"]:
        yield f"view v root {root['fingerprint'].lower()} {root['amount']}"
    question = case["question"]
    yield f"ask v {question['fingerprint'].lower()} {question['amount']} {print_user_id(user_id(question))}"


def answer(case, search):
    """The model's answer in the form of the case's expectation."""
    machine = Machine(search)
    for line in script(case):
        replies = list(machine.line(line.encode()))
    paths = []
    for line in (text for reply in replies for text in reply.split("\n")):
        words = line.split(" ")
        if words[0] == "path":
            paths.append({"amount": int(words[1]), "certificates": [words[5].upper()]})
        elif words[0] == "step":
            paths[-1]["certificates"].append(words[2].upper())
    return {"amount": sum(path["amount"] for path in paths), "paths": paths}


class Answered(unittest.TestCase):
    def test_each_case(self):
        for place, case in cases().items():
            searches = [next_path_by_layers]
            if len(case["certificates"]) <= SMALL:
                searches.append(next_path_by_listing)
            for search in searches:
                with self.subTest(case=place, search=search.__name__):
                    found = answer(case, search)
                    if "paths" not in case["expected"]:
                        del found["paths"]
                    self.assertEqual(found, case["expected"], case["title"])
