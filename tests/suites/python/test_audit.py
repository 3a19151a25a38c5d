"""Claims of absence that the program prints, and wrong ones: checked by it, and without it by its dump."""

import subprocess
import sys
import tempfile
import unittest

from outside import PROGRAM, ROOT, needs_engine

sys.path.insert(0, str(ROOT / "model"))

from wot_model import generate  # noqa: E402
from wot_model.script import lines_of  # noqa: E402

CHECKER = ROOT / "python" / "bin" / "check-claims"
SEEDS = range(500, 520)


def run(words, octets):
    return subprocess.run(words, input=octets, capture_output=True, check=True).stdout


def replies(script):
    """The replies of the program to these lines, each as its lines."""
    told, left = [], run([PROGRAM, "run", "/nowhere"], b"".join(line + b"\n" for line in script)).splitlines()
    while left:
        first, *left = left
        words = first.split(b" ")
        count = int(words[1]) if words[0] == b"dump" else words[:2] == [b"absence", b"missed"]
        told.append([first, *left[:count]])
        left = left[count:]
    return told


def checks_of(asked, told):
    """For each answer that missed, a line that checks its claim, and one with no labels."""
    for line, reply in zip(asked, told):
        if len(reply) == 2:
            _, view, fpr, _, user_id = line.split(b" ", 4)
            _, paths, table = reply[1].split(b" ")
            for labels in (table, b"-"):
                yield b" ".join([b"check", view, fpr, paths, labels, user_id])


@needs_engine
class Audit(unittest.TestCase):
    def test_claims_are_checked_the_same_without_the_program(self):
        seen = set()
        for seed in SEEDS:
            script, _ = generate.script(seed)
            lines = [line for line in lines_of(script) if len(line) < 100_000]
            asked = [b"absence " + line.removeprefix(b"ask ") for line in lines if line.startswith(b"ask ")]
            asked = [line for line in asked if line.count(b" ") > 3]
            changes = [line for line in lines if line.startswith((b"import ", b"verdict ", b"view ", b"drop "))]
            told = replies([*changes, *asked, b"dump"])
            claims = [line for line in lines if line.startswith(b"check ")]
            claims += checks_of(asked, told[len(told) - 1 - len(asked):])
            with self.subTest(seed), tempfile.NamedTemporaryFile() as dump:
                dump.write(b"".join(line + b"\n" for line in told[-1][1:]))
                dump.flush()
                by_program = replies([*changes, *claims])
                by_program = by_program[len(by_program) - len(claims):]
                by_checker = run([CHECKER, dump.name], b"".join(line + b"\n" for line in claims)).splitlines()
                self.assertEqual([b" ".join(reply) for reply in by_program], by_checker)
                seen |= {b" ".join(reply.split(b" ")[:3 if reply.startswith(b"checked no") else 2])
                         for reply in by_checker}
        self.assertLessEqual({b"checked yes", b"checked no paths", b"checked no table"}, seen)


if __name__ == "__main__":
    unittest.main()
