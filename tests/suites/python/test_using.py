"""The page on using it: every command that it shows is run, in their order, and writes what the page shows. Its
programs do what it says."""

import json
import os
import re
import shutil
import subprocess
import unittest

from friends import PEOPLE
from outside import COMMAND, ROOT, TRUSTING, needs_engine, needs_gpg, verifier_built
from test_service import Services
from tukyamid import Keyring, connect

PAGE = ROOT / "docs" / "USING.md"
EXAMPLE = ROOT / "examples" / "friends.pgp"
# The fingerprints that the page has, which are those of the example. gpg makes other keys for each run.
ON_PAGE = {
    "Alice": "8bb8574fecda267656835bc65cfa7d5c6b7e3ef1", "Bob": "bfc7d864b05626494b1d39fe52ef8f522166a181",
    "Carol": "8c15b04bfbec61af89aaf76b0f2da5e1e9f36d75", "Dave": "8dba344359714210463611a1049c0cdad8c139aa",
    "Frank": "f046a0999da136ee4f7c7912870a96ca1d4ce39b",
}


def shown_commands(page):
    """The commands of the page's blocks `console`, each with its output."""
    for block in re.findall(r"```console\n(.*?)```", page.read_text(), re.DOTALL):
        for part in re.split(r"^\$ ", block, flags=re.MULTILINE)[1:]:
            lines = part.split("\n")
            end = next(at for at, line in enumerate(lines) if not line.endswith("\\")) + 1
            command = "\n".join([lines[0], *(line.removeprefix("> ") for line in lines[1:end])])
            yield command, "\n".join(lines[end:])


def pattern_of(output):
    """What an output must match: as it stands, but for `...`, which is anything in a line."""
    return re.compile(".*".join(map(re.escape, output.split("..."))))


@needs_engine
@needs_gpg
@unittest.skipUnless(shutil.which("dot"), "Graphviz isn't installed")
class Commands(Services):
    def test_every_command_of_the_page(self):
        shutil.copy(self.friends.keyring, self.own / "friends.pgp")
        home = self.own / "gnupg"
        shutil.copytree(self.friends.home, home, ignore=shutil.ignore_patterns("S.*"))
        trust = f"{self.fpr['Alice'].upper()}:6:\n"
        subprocess.run(["gpg", "--homedir", home, "--import-ownertrust"], input=trust.encode(), capture_output=True,
                       check=True)
        environment = {**self.environment, "GNUPGHOME": str(home), "PATH": f"{COMMAND.parent}:{os.environ['PATH']}",
                       "XDG_CACHE_HOME": str(self.own / "cache")}
        commands = list(shown_commands(PAGE))
        self.assertGreater(len(commands), 15)
        for command, output in commands:
            with self.subTest(command):
                for name, fpr in ON_PAGE.items():
                    command = command.replace(fpr, self.fpr[name]).replace(fpr.upper(), self.fpr[name].upper())
                done = subprocess.run(["bash", "-o", "pipefail", "-c", command], cwd=self.own, env=environment,
                                      stdin=subprocess.DEVNULL, capture_output=True, timeout=600, check=False)
                said = done.stdout.decode()
                for name, fpr in ON_PAGE.items():
                    said = said.replace(self.fpr[name], fpr)
                self.assertEqual(done.stderr, b"")
                self.assertIn(done.returncode, (0, 1))
                self.assertRegex(said, re.compile(rf"\A{pattern_of(output).pattern}\Z"))


def programs():
    """What the Python programs of the page define."""
    names = {}
    for code in re.findall(r"```python\n(.*?)```", PAGE.read_text(), re.DOTALL):
        exec(code, names)
    return names


@needs_engine
@needs_gpg
class Programs(Services):
    def test_a_mail_program(self):
        """It hears what another client changes."""
        names = programs()
        subprocess.run([COMMAND, "keyring", "add", self.friends.keyring], env=self.environment, capture_output=True,
                       check=True)
        (socket,) = self.sockets()
        shown = names["Names"](socket, self.fpr["Alice"])
        shown.show(self.fpr["Carol"], PEOPLE["Carol"])
        self.assertEqual(shown.amounts, {"s0": 120})
        with connect(socket) as other:
            found = [names["keys_for"](other, self.fpr["Alice"], f"{name}@Example.{domain}")
                     for name, domain in (("Carol", "org"), ("Dave", "net"), ("nobody", "net"))]
            self.assertEqual(found, [[self.fpr["Carol"]], [], []])
            other.drop(self.fpr["Bob"])
        shown.changed()
        self.assertEqual(shown.amounts, {"s0": 60})
        shown.service.close()

    def test_a_release_checker(self):
        may_release = programs()["may_release"]
        alice, bob, carol = (self.fpr[name] for name in ("Alice", "Bob", "Carol"))
        december, march = 1764547200, 1740960000  # 3 March 2025 is a day before Carol's certification of Dave.
        table = [
            ([bob, carol], "Dave", "example.net", december, True),
            ([bob, carol], "Dave", "example.org", december, False),
            ([bob], "Dave", "example.net", december, False),
            ([bob, carol], "Dave", "example.net", march, False),
            ([alice, bob], "Carol", "example.org", december, False),  # 60 and 120 are less than 240.
        ]
        with Keyring.open([self.friends.keyring], verifier=[TRUSTING]) as keyring:
            for leads, signer, domain, released, may in table:
                with self.subTest(signer=signer, domain=domain, released=released, leads=len(leads)):
                    self.assertEqual(may_release(keyring, leads, self.fpr[signer], domain, released), may)

    def test_a_package_installer(self):
        blocks = re.findall(r"```sh\n(.*?)```", PAGE.read_text(), re.DOTALL)
        (script,) = [block for block in blocks if block.startswith("if ")]
        shutil.copy(self.friends.keyring, self.own / "vendors.gpg")
        for name, status in ("Carol", 0), ("Dave", 1):
            environment = {**self.environment, "PATH": f"{COMMAND.parent}:{os.environ['PATH']}", "KEY": self.fpr[name],
                           "XDG_CACHE_HOME": str(self.own / "cache"), "VENDOR": PEOPLE[name],
                           "DISTRIBUTION": self.fpr["Alice"]}
            done = subprocess.run(["sh", "-c", script], cwd=self.own, env=environment, capture_output=True, check=False)
            self.assertEqual((done.returncode, bool(done.stdout)), (status, status == 0), done.stderr)


@needs_engine
class Example(unittest.TestCase):
    """The keyring that is shipped: the page's people and certifications, as gpg made them."""

    def test_it_is_the_keyring_of_the_page(self):
        built = verifier_built()
        if built is None:
            self.skipTest("the verifier isn't built")
        reached = {}
        for name in ON_PAGE:
            done = subprocess.run([COMMAND, "--no-service", "--no-cache", "--verifier", built, "--keyring", EXAMPLE,
                                   "--root", ON_PAGE["Alice"], "--partial", "--format", "json", "identify",
                                   ON_PAGE[name]], capture_output=True, check=False)
            (binding,) = json.loads(done.stdout)["bindings"]
            self.assertEqual(binding["user_id"], PEOPLE[name])
            reached[name] = binding["reached"]
        self.assertEqual(reached, {"Alice": True, "Bob": True, "Carol": True, "Dave": True, "Frank": False})
