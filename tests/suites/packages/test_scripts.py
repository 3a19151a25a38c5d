"""The package's scripts on a host that isn't fresh: names that persons have, and mounts in the service's folder. They
run in a mount namespace, over accounts and a folder of their own. And what its units say of a service that fails."""

import configparser
import shlex
import subprocess
import tempfile
import unittest
from pathlib import Path

import plain

SCRIPTS = plain.ROOT / "packaging" / "debian"
PASSWD, GROUP = "root:x:0:0::/root:/bin/sh", "root:x:0:"
SETUP = """set -e
mount --bind passwd /etc/passwd
mount --bind group /etc/group
mount -t tmpfs none /var/lib
mkdir -p /var/lib/tukyamid
echo keyring > /var/lib/tukyamid/keyring.db
"""


class Scripts(unittest.TestCase):
    def setUp(self):
        folder = tempfile.TemporaryDirectory(prefix="tukyamid-scripts-")
        self.addCleanup(folder.cleanup)
        self.folder = Path(folder.name)

    def run_script(self, name, word, passwd=(), group=(), before="", after=""):
        """What a script of the package does on a host with these accounts: its exit status, its text, and the output
        of the commands after it."""
        (self.folder / "passwd").write_text("\n".join([PASSWD, *passwd]) + "\n")
        (self.folder / "group").write_text("\n".join([GROUP, *group]) + "\n")
        script = shlex.quote(str(SCRIPTS / f"tukyamid-server.{name}"))
        shell = f"{SETUP}{before}\nset +e\nsh {script} {word}; status=$?\n{after}\nexit $status"
        ran = subprocess.run(["unshare", "--user", "--map-root-user", "--mount", "sh", "-c", shell], cwd=self.folder,
                             stdin=subprocess.DEVNULL, capture_output=True, text=True, timeout=60, check=False)
        return ran.returncode, ran.stderr, ran.stdout.split()

    def test_a_person_isnt_taken_for_the_service(self):
        for passwd, group in ((["tukyamid:x:1000:1000::/home/tukyamid:/bin/sh"], []), ([], ["tukyamid:x:1000:"]),
                              ([], ["tukyamid-web:x:1001:eve"])):
            with self.subTest(passwd=passwd, group=group):
                status, text, _ = self.run_script("preinst", "install", passwd, group)
                self.assertEqual(status, 1)
                self.assertRegex(text, r"^tukyamid-server: there is a (user|group) tukyamid\S* already, with the num")

    def test_the_services_own_accounts_stay(self):
        own = ["tukyamid:x:996:996::/var/lib/tukyamid:/usr/sbin/nologin"], ["tukyamid:x:996:", "tukyamid-web:x:995:"]
        for accounts in ((), own):
            self.assertEqual(self.run_script("preinst", "install", *accounts), (0, "", []))
        person = ["tukyamid:x:1000:1000::/home/tukyamid:/bin/sh"]
        self.assertEqual(self.run_script("preinst", "upgrade", person), (0, "", []))

    def test_purging_deletes_the_keyring(self):
        after = "ls /var/lib"
        self.assertEqual(self.run_script("postrm", "remove", after=after), (0, "", ["tukyamid"]))
        self.assertEqual(self.run_script("postrm", "purge", after=after), (0, "", []))

    def test_purging_deletes_nothing_that_is_mounted_there(self):
        before = "mkdir other /var/lib/tukyamid/mounted\necho other > other/file\n" \
                 "mount --bind other /var/lib/tukyamid/mounted"
        status, text, left = self.run_script("postrm", "purge", before=before, after="cat other/file")
        self.assertEqual((status, left), (0, ["other"]), text)
        self.assertIn("something is mounted", text)

    def test_purging_follows_no_link(self):
        before = "mkdir other\nmv /var/lib/tukyamid/keyring.db other\nrmdir /var/lib/tukyamid\n" \
                 "ln -s $PWD/other /var/lib/tukyamid"
        self.assertEqual(self.run_script("postrm", "purge", before=before, after="ls other /var/lib"),
                         (0, "", ["/var/lib:", "other:", "keyring.db"]))

    def test_purging_empties_what_is_mounted_as_the_folder(self):
        before = "mount -t tmpfs none /var/lib/tukyamid\necho keyring > /var/lib/tukyamid/keyring.db"
        status, _, left = self.run_script("postrm", "purge", before=before, after="ls -A /var/lib/tukyamid")
        self.assertEqual((status, left), (0, []))


class Units(unittest.TestCase):
    def test_a_service_that_fails_leaves_its_sockets(self):
        """When systemd gives up a service, the sockets that start it fail too, and nobody is answered any more."""
        for file in sorted((plain.ROOT / "packaging" / "systemd").glob("*/tukyamid.service")):
            unit = configparser.ConfigParser(strict=False, interpolation=None)
            unit.read(file)
            self.assertEqual(unit["Unit"].get("StartLimitIntervalSec"), "0", file)
            self.assertEqual(unit["Service"]["Restart"], "on-failure", file)
            # Meanwhile it shouldn't keep a processor busy.
            self.assertGreaterEqual(int(unit["Service"].get("RestartSec", "0")), 1, file)
