"""What the tests use from outside: the engine's program, gpg, Chromium, and commands run to their end."""

import atexit
import functools
import os
import shutil
import subprocess
import sys
import tempfile
import unittest
from pathlib import Path

HERE = Path(__file__).resolve().parent
sys.path.insert(0, str(HERE.parents[1]))
from verifier import built as verifier_built  # noqa: E402, F401

ROOT = Path(os.environ.get("WOT_ROOT") or HERE.parents[2])
CLIENT = ROOT / "python"
COMMAND = CLIENT / "bin" / "tukyamid"
PROGRAM = os.environ.get("WOT_PROGRAM") or str(ROOT / "crates" / "wot_cli" / "out" / "wot_cli")
TRUSTING = HERE / "trusting_verdicts.py"
FAKE_ENGINE = [sys.executable, str(HERE / "fake_engine.py")]

if os.access(PROGRAM, os.X_OK):
    os.environ["TUKYAMID_ENGINE"] = PROGRAM

needs_engine = unittest.skipUnless(os.access(PROGRAM, os.X_OK), f"the engine isn't built: {PROGRAM}")
needs_gpg = unittest.skipUnless(shutil.which("gpg"), "gpg isn't installed")


def run(words, **options):
    return subprocess.run([str(word) for word in words], capture_output=True, timeout=600, check=False, **options)


os.environ["PYTHONDONTWRITEBYTECODE"] = "1"


@functools.cache
def folder():
    """A folder for all tests of this run."""
    path = tempfile.mkdtemp(prefix="tukyamid-tests-")
    atexit.register(shutil.rmtree, path, ignore_errors=True)
    # Nothing of the user's own is read or written: no cache, no certificate directory, no service, no gpg.
    for name in "CACHE_HOME", "CONFIG_HOME", "DATA_HOME", "RUNTIME_DIR":
        os.environ[f"XDG_{name}"] = f"{path}/{name.lower()}"
        Path(os.environ[f"XDG_{name}"]).mkdir(mode=0o700)
    for name in "PGP_CERT_D", "GNUPGHOME", "TUKYAMID_TRACEBACK":
        os.environ.pop(name, None)
    return Path(path)
