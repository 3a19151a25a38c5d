"""The packages in a fresh root: installed by apt, used by an ordinary user, removed and purged.

mmdebstrap makes the root, runs trial.sh in it, and throws it away. It needs a way to Debian's archive, and root or a
user namespace. WOT_NO_ROOT=1 leaves it out.
"""

import os
import re
import shutil
import subprocess
import tempfile
import unittest
from pathlib import Path

import building
import plain
import verifier

HERE = Path(__file__).resolve().parent
SOURCES = [Path("/etc/apt/sources.list"), *sorted(Path("/etc/apt/sources.list.d").glob("*.sources"))]
SECONDS = 1500
UNITS = ("tukyamid-public.service", "tukyamid-read-only.socket", "tukyamid.service", "tukyamid.socket")


def sources():
    """What this machine installs from."""
    return [str(file) for file in SOURCES if file.is_file() and "deb" in file.read_text()]


def shown_commands():
    """The two commands of the page on installing that lead from Debian's keyring to an answer."""
    page = (plain.ROOT / "docs" / "INSTALL.md").read_text().replace("\\\n", "")
    blocks = re.findall(r"```(?:sh)?\n(.*?)```", page, re.DOTALL)
    block = next(block for block in blocks if "debian-keyring.gpg" in block)
    return [line.partition("  # ")[0].strip() for line in block.splitlines() if line.startswith("tukyamid ")]


def commands_for_git():
    """The commands of the page on using it that lead to git's log with names by one's own roots."""
    page = (plain.ROOT / "docs" / "USING.md").read_text()
    part = page.partition("## Have git and mail programs ask")[2]
    return re.search(r"```sh\n(.*?)```", part, re.DOTALL)[1].replace(" FINGERPRINT", ' "$FINGERPRINT"')


def plain_environment():
    """This process's environment without the programs that it may name: the root has its own."""
    return {name: value for name, value in os.environ.items() if not name.startswith("TUKYAMID_")}


def tried(results):
    """Makes a root and runs the trial in it; the reason why that can't be done, or None."""
    if os.environ.get("WOT_NO_ROOT"):
        return "WOT_NO_ROOT is set"
    if not building.installed(["mmdebstrap"]):
        return "mmdebstrap isn't installed"
    if not sources():
        return "this machine names no source of packages"
    packages = results / "packages"
    packages.mkdir()
    for file in [*building.packages().values(), HERE / "by_hand.py", HERE / "newcomer.sh", HERE / "set_up.sh"]:
        shutil.copy(file, packages)
    (packages / "commands").write_text(commands_for_git())
    with open(packages / "Packages", "wb") as listed:
        subprocess.run(["dpkg-scanpackages", "."], cwd=packages, stdout=listed, stderr=subprocess.DEVNULL, check=True)
    for name, command in zip(("keyring", "answer"), shown_commands(), strict=True):
        (packages / name).write_text(f"exec {command} \"$@\"\n")
    made = subprocess.run(
        ["mmdebstrap", "--variant=apt", "--format=null", "--dpkgopt=force-unsafe-io", "--aptopt=Acquire::Retries 3",
         f"--customize-hook=copy-in {packages} /", f"--customize-hook=upload {HERE / 'trial.sh'} /trial.sh",
         '--customize-hook=chroot "$1" /bin/sh /trial.sh', f"--customize-hook=copy-out /results {results}",
         "bookworm", "/dev/null", *sources()],
        stdin=subprocess.DEVNULL, capture_output=True, text=True, timeout=SECONDS, check=False, env=plain_environment())
    if not (results / "results" / "steps").is_file():
        return f"no root can be made here: {made.stderr.strip().splitlines()[-1] if made.stderr else made.returncode}"
    return None


class FreshRoot(unittest.TestCase):
    @classmethod
    def setUpClass(cls):
        building.packages()
        place = tempfile.TemporaryDirectory(prefix="tukyamid-root-")
        cls.addClassCleanup(place.cleanup)
        reason = tried(Path(place.name))
        if reason:
            raise unittest.SkipTest(reason)
        cls.results = Path(place.name) / "results"
        lines = (line.split() for line in (cls.results / "steps").read_text().splitlines())
        cls.steps = {name: (int(status), float(seconds)) for name, status, seconds in lines}

    def said(self, name):
        return (self.results / name).read_text(errors="replace")

    def assert_ended(self, name, status=0):
        self.assertIn(name, self.steps)
        self.assertEqual(self.steps[name][0], status, self.said(name)[-3000:])

    def test_one_command_installs_them(self):
        self.assert_ended("install")
        print(f"apt install: {self.steps['install'][1]:.1f} seconds")

    def test_the_version_has_the_commit_and_the_toolchain(self):
        self.assert_ended("version")
        self.assertRegex(self.said("version"), rf"tukyamid [0-9.]+\ncommit [0-9a-f]{{40}}(-dirty)?\n"
                                               rf"engine proved by {building.TOOLCHAIN}\n")

    def test_the_doctor(self):
        self.assert_ended("doctor", 0 if verifier.built() else 3)
        said = self.said("doctor")
        self.assertRegex(said, r"\[ok\] +engine +/usr/bin/tukyamid-engine answers\n")
        self.assertRegex(said, r"\[ok\] +verifier +/usr/bin/wot-verdicts is wot-verdicts " if verifier.built()
                         else r"\[missing\] +verifier .*\n +fix it with: apt install tukyamid-verifier\n")
        self.assertRegex(said, r"\[ok\] +gpg +/usr/bin/gpg is there")  # tukyamid-gpg depends on it.

    def test_the_quickstart(self):
        self.assert_ended("quickstart")

    def test_an_answer_about_debian_keyring(self):
        if not verifier.built():
            self.skipTest("the verifier can't be built, so nothing can be verified there")
        names = "keyring", "answer", "page", "end"
        for name in names:
            self.assert_ended(name)
        # gpg --check-sigs says so too: Steve McIntyre's key made a good certification of this user ID on that day.
        self.assertRegex(self.said("answer"), r"Steve McIntyre <steve@einval.com> \(root, amount 120\)\n.*"
                                              r"amount 120, depth 0, made 2019-07-29\n")
        self.assertIn("amount 120 of 120", self.said("answer"))
        self.assertIn("<svg", self.said("page"))
        print("; ".join(f"{name}: {self.steps[name][1]:.2f} seconds" for name in names))

    def test_a_newcomer_comes_to_names_in_gits_log(self):
        if not verifier.built():
            self.skipTest("the verifier can't be built, so nothing can be verified there")
        self.assert_ended("newcomer")
        said = self.said("newcomer")
        shown = re.findall(r'Good signature from "(\w+) <.*>" \[(\w+)\]', said)
        # The last ones first. A signer has to be certified at the time of signing, too.
        self.assertEqual(shown, [("me", "ultimate"), ("stranger", "unknown"), ("friend", "full"),
                                 ("friend", "unknown")])
        print(f"from the packages to names in git's log: {said.splitlines()[-1]}")

    def test_root_sets_up_and_takes_it_back(self):
        if not verifier.built():
            self.skipTest("the verifier can't be built, so nothing can be verified there")
        self.assert_ended("setup")
        asks = [f"[ok]      program   {name} asks Tukyamid: it took a signature that only Tukyamid knows"
                for name in ("apt", "dpkg", "pacman")]
        # Strict, apt takes nothing: there are no roots.
        self.assertEqual(self.said("setup").splitlines(), [
            "update before: 0", "update after setup: 0", *asks, "update with strict: 1", "update after undo: 0"])

    def test_the_service_by_hand(self):
        for name in "service", "host":
            self.assert_ended(name)
            said = self.said(name)
            self.assertEqual(said.splitlines()[-3:], ["refused []", "amount 120", "status 0"], said)

    def test_one_name_brings_them(self):
        """`apt install tukyamid` from an archive: the command, the service and the verifier come along."""
        self.assert_ended("simulated")
        brought = re.findall(r"^Inst (\S*tukyamid\S*) ", self.said("simulated"), re.MULTILINE)
        expected = {"python3-tukyamid", "tukyamid", "tukyamid-server"}
        self.assertEqual(set(brought), expected | ({"tukyamid-verifier"} if verifier.built() else set()),
                         self.said("simulated"))

    def actions(self, name):
        """What systemd has to do to each unit, in order."""
        lines = [line.split() for line in self.said(name).splitlines()]
        heard = [(word, unit) for line in lines for word in ("stop", "start", "restart", "try-restart") if word in line
                for unit in line if unit.startswith("tukyamid")]
        return {unit: [word for word, named in heard if named == unit] for unit in UNITS}

    def test_an_upgrade_restarts_what_runs(self):
        """Nothing is stopped without being started again. Sockets aren't stopped at all: as long as its service
        runs, systemd starts neither a socket nor what needs it."""
        self.assert_ended("upgrade")
        for unit, words in self.actions("upgraded").items():
            self.assertEqual(words[-1:], ["start" if unit.endswith(".socket") else "restart"],
                             f"{unit}: {self.said('upgraded')}")
            if unit.endswith(".socket"):
                self.assertEqual(set(words), {"start"}, f"{unit}: {self.said('upgraded')}")

    def test_a_removal_stops_what_runs(self):
        for unit, words in self.actions("systemctl").items():
            self.assertEqual(words, ["stop"], f"{unit}: {self.said('systemctl')}")

    def test_purging_leaves_what_the_user_has(self):
        self.assert_ended("remove")
        self.assert_ended("purge")
        left = [line for line in self.said("left").splitlines() if not line.startswith(("/home/user/", "/run/user/"))]
        self.assertEqual([line for line in left if not line.startswith("tukyamid:")], [])  # The system's user stays.
