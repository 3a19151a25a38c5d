"""The examples in the client's modules and pages, run; its pages and its man page read."""

import contextlib
import doctest
import importlib.util
import os
import pkgutil
import re
import shutil
import subprocess
import tempfile
import time
import unittest

import tukyamid
from outside import CLIENT, ROOT, needs_engine, run

MODULES = sorted(module.name for module in pkgutil.walk_packages(tukyamid.__path__, "tukyamid.")
                 if not module.name.endswith(".__main__"))
if importlib.util.find_spec("aiohttp") is None:  # The suite `web` says what is left out then.
    MODULES = [name for name in MODULES if name not in ("tukyamid.web.guard", "tukyamid.web.http_server")]
if importlib.util.find_spec("psycopg") is None:  # The suite `shared` says what is left out then.
    MODULES = [name for name in MODULES if not name.startswith("tukyamid.service.postgres")]
PAGES = [CLIENT / "README.md", ROOT / "docs" / "USING.md"]


@contextlib.contextmanager
def service():
    """The socket of a service with a keyring of its own."""
    with tempfile.TemporaryDirectory(prefix="tukyamid-service-") as folder:
        environment = {**os.environ, "XDG_DATA_HOME": folder, "XDG_RUNTIME_DIR": folder}
        words = [CLIENT / "bin" / "tukyamid-server", "--socket", f"{folder}/socket", "--engines", "1"]
        with subprocess.Popen(words, env=environment) as running:
            try:
                for _ in range(600):
                    if os.path.exists(f"{folder}/socket"):
                        break
                    time.sleep(0.05)
                yield f"{folder}/socket"
            finally:
                running.terminate()


@needs_engine
class Examples(unittest.TestCase):
    def test_modules(self):
        tried = 0
        for name in ["tukyamid", *MODULES]:
            with self.subTest(name):
                result = doctest.testmod(importlib.import_module(name))
                self.assertEqual(result.failed, 0)
                tried += result.attempted
        self.assertGreater(tried, 8)

    def test_pages(self):
        with service() as socket:
            for page in PAGES:
                with self.subTest(page.name):
                    names = {"TOP": ROOT, "SOCKET": socket}
                    self.assertEqual(doctest.testfile(str(page), module_relative=False, globs=names).failed, 0)


# The commands that have a help of their own.
OWN_HELP = ("web", "check", "keyring", "root", "setup", "watch", "plan", "fragile")


class Documents(unittest.TestCase):
    def test_every_option_is_on_the_man_page_and_in_the_help(self):
        manual = (CLIENT / "tukyamid.1").read_text().replace("\\-", "-")
        said = "".join(run([CLIENT / "bin" / "tukyamid", *word, "--help"]).stdout.decode()
                       for word in ((), *((one,) for one in OWN_HELP)))
        options = set(re.findall(r"--[a-z-]+", said))
        self.assertGreater(len(options), 10)
        self.assertEqual({option for option in options if option not in manual}, set())
        of_gpg = {"--export", "--export-ownertrust"}
        self.assertEqual(set(re.findall(r"--[a-z-]+", manual)) - options - of_gpg, set())

    def test_the_man_page_is_well_formed(self):
        if shutil.which("groff") is None:
            self.skipTest("groff isn't installed")
        done = run(["groff", "-man", "-Tutf8", "-ww", CLIENT / "tukyamid.1"])
        self.assertEqual((done.returncode, done.stderr), (0, b""))
