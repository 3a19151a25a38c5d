"""The runner of `interop`, run over adapters that the tests write, and over a copy of the folder with three cases."""

import json
import os
import shutil
import subprocess
import sys
import tempfile
from pathlib import Path

import verifier
from plain import PROGRAM
from written import INTEROP, cases

sys.path.append(str(INTEROP))


def run(*words, folder=INTEROP, **variables):
    """Runs the runner; its status, what it prints, and what it says of errors."""
    places = {**os.environ, "TUKYAMID_ENGINE": str(Path(PROGRAM).resolve()), **variables}
    done = subprocess.run([sys.executable, folder / "run", *map(str, words)], stdin=subprocess.DEVNULL,
                          capture_output=True, text=True, env=places, check=False)
    return done.returncode, done.stdout, done.stderr


def with_verifier():
    """What the adapter of Tukyamid needs from the environment, or None if the verifier can't be built here."""
    built = verifier.built()
    return None if built is None else {"TUKYAMID_VERIFIER": str(built)}


ALICE, BOB, CAROL = "A1" * 20, "B0" * 20, "CA" * 20
# A case for each kind of answer: its title, and the amounts and certificates of its paths.
FULL, PART, NONE = "amounts/full", "amounts/part", "depth/none"
THREE = {FULL: ("Alice certifies Bob.", [(120, ALICE, BOB)]),
         PART: ("Alice makes Bob an introducer of amount 60, and he certifies Carol.", [(60, ALICE, BOB, CAROL)]),
         NONE: ("Alice certifies Bob, and Bob certifies Carol.", [])}
RIGHT = {FULL: {"amount": 120}, PART: {"amount": 60}, NONE: {"amount": 0}}


def case(place, certificates):
    """One of the three cases. The tests' adapters read no certificates, but variants are made of them."""
    group, name = place.split("/")
    title, paths = THREE[place]
    expected = [{"amount": amount, "certificates": names} for amount, *names in paths]
    return {"name": name, "group": group, "title": title, "certificates": certificates,
            "roots": [{"fingerprint": ALICE, "amount": 120}], "time": 1704067200,
            "question": {"fingerprint": CAROL, "user_id": "Carol", "amount": 120},
            "expected": {"amount": sum(path["amount"] for path in expected), "paths": expected},
            "rule": {"source": "the profile", "sentence": f"So it is with {name}."}, "class": "specification"}


def copied(folder):
    """A copy of the suite's folder that has these three cases."""
    shutil.copytree(INTEROP, folder, ignore=shutil.ignore_patterns("out", "__pycache__", "cases"))
    some = next(iter(cases().values()))["certificates"]
    for place in THREE:
        file = folder / "cases" / f"{place}.json"
        file.parent.mkdir(parents=True, exist_ok=True)
        file.write_text(json.dumps(case(place, some)), encoding="utf-8")
    return folder


class Adapters:
    """A copy of the suite, and adapters that answer as a test says."""

    def __init__(self, test):
        holder = tempfile.TemporaryDirectory(prefix="wot-interop-")
        test.addCleanup(holder.cleanup)
        self.folder = Path(holder.name)
        self.suite = copied(self.folder / "copied")

    def run(self, *words, **variables):
        """Runs the copied runner: its status, its output, and the last line of that, or what it says of errors."""
        status, output, errors = run("--jobs", 1, *words, folder=self.suite, **variables)
        return status, output, output.splitlines()[-1] if output else errors

    def write(self, name, body):
        """An adapter whose function `answer(case)` has this body; gives its path."""
        file = self.folder / name
        file.write_text(f"#!{sys.executable}\nimport json, os, sys, time\nCOUNT = {str(self.folder / 'asked')!r}\n"
                        f"def answer(case):\n    {body}\n"
                        "if sys.argv[1:] == ['--version']:\n    sys.exit(print('imaginary 1.0'))\n"
                        "for line in sys.stdin:\n    print(json.dumps(answer(json.loads(line))), flush=True)\n")
        file.chmod(0o755)
        return file

    def answering(self, name, answers):
        """An adapter that knows its answers by the places of the cases."""
        file = self.folder / f"{name}.json"
        file.write_text(json.dumps(answers))
        return self.write(name, f"return json.load(open({str(file)!r}))[case['group'] + '/' + case['name']]")
