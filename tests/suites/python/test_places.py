"""Where the engine's program is looked for."""

import os
import subprocess
import sys
import tempfile
import unittest
from pathlib import Path

from outside import needs_engine
from tukyamid import Engine
from tukyamid.client.engine import find_program


class Programs(unittest.TestCase):
    """Where the engine is looked for. A copy of the package stands in for an installed one."""

    def found(self, folder, **environment):
        said = subprocess.run(
            [sys.executable, "-c", "from tukyamid.client.engine import find_program; print(*find_program())"],
            env={"PATH": "/usr/bin:/bin", "PYTHONPATH": str(folder), **environment},
            capture_output=True, text=True, check=False)
        return said.stdout.strip() or said.stderr.strip().splitlines()[-1]

    def test_the_places_in_their_order(self):
        with tempfile.TemporaryDirectory() as name:
            folder = Path(name)
            copy = folder / "copy" / "lib" / "python"
            copy.mkdir(parents=True)
            subprocess.run(["cp", "-r", Path(sys.modules["tukyamid"].__file__).parent, copy], check=True)
            if not os.path.exists("/usr/libexec/tukyamid-engine") and not os.path.exists("/usr/bin/tukyamid-engine"):
                self.assertIn("install the package tukyamid", self.found(copy))
                (copy.parent / "wot").touch()
                self.assertIn(f"{copy.parent}/wot run", self.found(copy))
            program = folder / "tukyamid-engine"
            program.write_text("#!/bin/sh\n")
            program.chmod(0o755)
            self.assertEqual(self.found(copy, PATH=f"{folder}:/usr/bin:/bin"), str(program))
            built = copy.parent / "crates" / "wot_cli" / "out" / "wot_cli"
            built.parent.mkdir(parents=True)
            built.write_text("#!/bin/sh\n")
            self.assertEqual(self.found(copy, PATH=f"{folder}:/usr/bin:/bin"), str(program))
            built.chmod(0o755)
            self.assertEqual(self.found(copy, PATH=f"{folder}:/usr/bin:/bin"), str(built))
            self.assertEqual(self.found(copy, TUKYAMID_ENGINE="/named"), "/named")

    @needs_engine
    def test_the_words_start_it(self):
        with Engine(find_program()) as engine:
            self.assertEqual(list(engine.keys()), [])
