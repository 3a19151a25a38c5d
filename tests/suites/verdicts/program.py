"""The verifier and the engine, run by the tests."""

import os
import subprocess
import unittest
from pathlib import Path

ROOT = Path(__file__).resolve().parents[3]
PROGRAM = Path(os.environ.get("TUKYAMID_VERIFIER") or ROOT / "verifier/out/wot-verdicts")
ENGINE = Path(os.environ.get("WOT_PROGRAM", ROOT / "crates/wot_cli/out/wot_cli"))

BUILD = [ROOT / "verifier/build"]

needs_engine = unittest.skipUnless(os.access(ENGINE, os.X_OK), f"the engine isn't built: {ENGINE}")


def engine(*lines):
    """The lines that the engine replies to these."""
    script = "".join(line + "\n" for line in lines).encode()
    return subprocess.run([ENGINE, "run"], input=script, capture_output=True, check=False).stdout.decode().splitlines()


def told(replies, word):
    """The first number of each reply that begins with this word."""
    return [int(line.split(" ")[1]) for line in replies if line.startswith(word + " ")]


class Script:
    """What a run of the verifier wrote."""

    def __init__(self, *words, given=b"", status=0):
        run = subprocess.run([PROGRAM, *map(str, words)], input=given, capture_output=True, check=False)
        self.told = run.stderr.decode()
        if run.returncode != status:
            raise AssertionError(f"status {run.returncode}, not {status}: {self.told}")
        self.octets = run.stdout
        self.lines = run.stdout.decode("ascii").splitlines()
        self.imports = [bytes.fromhex(line[7:]) for line in self.lines if line.startswith("import ")]
        verdicts = [line.split(" ", 2)[1:] for line in self.lines if line.startswith("verdict ")]
        self.verdicts = dict(verdicts)
        if len(verdicts) != len(self.verdicts) or len(verdicts) + len(self.imports) != len(self.lines):
            raise AssertionError("a number with two verdicts, or a line of another kind")
