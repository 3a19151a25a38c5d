"""From a folder with a dump to a page behind nginx and Caddy: the commands of docs/PUBLIC.md as they are written there,
by root, on a machine of the test's own (namespaces), with the users, the filter and the options of the units."""

import importlib.util
import json
import os
import re
import shutil
import subprocess
import tempfile
import unittest
from pathlib import Path
from urllib.parse import quote

from everyone import PATIENCE
from friends import PEOPLE, friends
from outside import COMMAND, ROOT
from page import needs_page

HERE = Path(__file__).resolve().parent
VERIFIER = ROOT / "verifier" / "out" / "wot-verdicts"
SPACES = ["unshare", "--mount", "--net", "--pid", "--fork", "--kill-child", "--mount-proc"]
NEEDED = ("nginx", "caddy", "curl", "systemd-analyze")
PATH = "/usr/sbin:/usr/bin:/sbin:/bin"
HOST_USER, PUBLIC_USER, STRANGER = 64001, 64002, 64003


def missing():
    """Why this can't be tried here; None if it can."""
    if os.geteuid() != 0:
        return "only root can have such namespaces"
    away = [name for name in NEEDED if not shutil.which(name, path=PATH)]
    if away or not VERIFIER.exists() or importlib.util.find_spec("seccomp") is None:
        return f"{', '.join(away) or 'the verifier or python3-seccomp'} isn't there"
    if subprocess.run([*SPACES, "mount", "-t", "tmpfs", "none", "/run"], capture_output=True, check=False).returncode:
        return "the kernel refuses such namespaces"
    readable = ["setpriv", "--reuid", str(HOST_USER), "--clear-groups", "test", "-r", str(COMMAND)]
    return None if not subprocess.run(readable, check=False).returncode else "other users can't read the checkout"


def blocks():
    """The blocks of the document in their order: the language and the text."""
    page = (ROOT / "docs" / "PUBLIC.md").read_text()
    found = re.findall(r"^( *)```([a-z]+)\n(.*?)^\1```", page, re.DOTALL | re.MULTILINE)
    return [(language, "".join(line.removeprefix(indent) for line in text.splitlines(keepends=True)))
            for indent, language, text in found]


def script(fpr, user_id):
    """What the operator types, in the document's order, and then questions through each web server. To make a proof and
    to draw the network start an engine."""
    lines = []
    for language, text in blocks():
        if language == "sh":
            lines += [line for line in text.splitlines() if not line.startswith("apt ")]
        else:
            place = {"toml": "/etc/tukyamid/config.toml", "nginx": "/etc/nginx/conf.d/tukyamid.conf",
                     "caddy": "/run/Caddyfile"}[language]
            text = text.replace("FINGERPRINT", fpr).replace("wot.example.org {", "http://wot.example.org:81 {")
            lines += [f"cat > {place} <<'END'", text + "END"]
    asked = re.search(r"^    (curl .*)$", (ROOT / "docs" / "PUBLIC.md").read_text(), re.M)[1]
    asked = asked.replace("FINGERPRINT", fpr).replace("NAME", user_id.replace(" ", "%20"))
    through_caddy = asked.replace("wot.example.org", "wot.example.org:81").replace("curl ", "curl --retry 60 "
                                                                                 "--retry-connrefused --retry-delay 1 ")
    lines = [f"{line}; echo" if line.startswith("curl ") else line for line in lines]
    by_socket = next(line for line in lines if "--unix-socket" in line).removesuffix("; echo")
    proof = asked.replace("authenticate", "proof")
    network = "curl http://wot.example.org/call/network?q=" + quote('{"time": 1764547200, "set": "friends"}')
    return "\n".join([*lines, f"{asked}; echo", "caddy start --config /run/Caddyfile --adapter caddyfile 2> /dev/null",
                      f"{through_caddy}; echo", f"{proof}; echo", f"{network}; echo",
                      "curl http://wot.example.org/",
                      f"setpriv --reuid {STRANGER} --regid {STRANGER} --clear-groups {by_socket} || "
                      "echo \"a stranger's curl: $?\"", ""])


@needs_page
class Operator(unittest.TestCase):
    def setUp(self):
        why = missing()
        if why is not None:
            self.skipTest(why)

    def test_the_documents_commands(self):
        people, here = friends(), Path(tempfile.mkdtemp(prefix="operator-"))  # Other users can go there.
        self.addCleanup(shutil.rmtree, here)
        here.chmod(0o755)
        (here / "dump").mkdir()
        shutil.copy(people.keyring, here / "dump" / "0001.pgp")
        (here / "bin").mkdir()
        (here / "bin" / "systemctl").symlink_to(HERE / "systemctl")
        for name in "tukyamid", "tukyamid-server":
            (here / "bin" / name).write_text(f'#!/bin/sh\nexec {COMMAND.with_name(name)} "$@"\n')
            (here / "bin" / name).chmod(0o755)
        typed = here / "typed"
        typed.write_text(script(people.fpr["Alice"], PEOPLE["Alice"]))
        done = subprocess.run(
            [*SPACES, HERE / "operator.sh", here, typed], capture_output=True, text=True, timeout=PATIENCE,
            check=False, stdin=subprocess.DEVNULL, env={
                "PATH": f"{here}/bin:{PATH}", "UNITS": str(ROOT / "packaging/systemd/system"),
                "PROGRAMS": str(here / "bin"), "HOST_USER": str(HOST_USER), "PUBLIC_USER": str(PUBLIC_USER),
                "TUKYAMID_ENGINE": os.environ.get("WOT_PROGRAM", ""), "TUKYAMID_VERIFIER": str(VERIFIER),
                "HOME": "/run", "PYTHONDONTWRITEBYTECODE": "1"})
        self.assertEqual(done.returncode, 0, done.stdout + done.stderr)
        self.assertIn("/srv/dump: 6 certificates", done.stdout)
        said = [json.loads(line) for line in done.stdout.splitlines() if line.startswith("{")]
        by_socket, by_nginx, asked, by_caddy, proof, network = said
        self.assertEqual((by_socket["ready"], by_nginx), (True, by_socket))
        self.assertEqual((asked["reached"], asked["roots"][0]["fingerprint"]), (True, people.fpr["Alice"]))
        self.assertEqual(by_caddy["bindings"], asked["bindings"])
        self.assertEqual((proof["claim"], proof["fingerprint"]), ("answer", people.fpr["Alice"]))
        self.assertEqual({one["id"] for one in network["nodes"]} & set(people.fpr.values()),
                         {people.fpr[name] for name in ("Alice", "Bob", "Carol", "Dave")})
        self.assertIn('<html lang="en" data-public="yes">', done.stdout)
        # Who connects is believed whose request it is, and could take all connections.
        self.assertIn("a stranger's curl: 7\n", done.stdout)
