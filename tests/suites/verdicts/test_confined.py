"""What the verifier may use and do, whatever a stranger's keyring has it do: its process, as the kernel describes it,
and a verifier that was taken over."""

import errno
import os
import re
import resource
import shutil
import subprocess
import tempfile
import time
import unittest
from pathlib import Path

from program import PROGRAM, ROOT

try:
    import seccomp
except ImportError:
    seccomp = None

UNIT = ROOT / "packaging/systemd/system/tukyamid.service"
GIBIOCTET = 1 << 30
FILTERED = "2"  # The mode of seccomp in /proc/PID/status.
MARKER = b"\xca\x03PGP"
# What taken_over.c tries.
ATTEMPTS = ("socket", "unix", "create", "append", "read", "link", "rename", "unlink", "chmod", "signal", "trace",
            "memory", "fork")


class Confined(unittest.TestCase):
    def started(self, *words):
        """A verifier that waits for its standard input."""
        process = subprocess.Popen([PROGRAM, *words], stdin=subprocess.PIPE, stdout=subprocess.PIPE,
                                   stderr=subprocess.PIPE)
        self.addCleanup(process.communicate)
        return process

    def facts(self, process, name):
        lines = Path(f"/proc/{process.pid}/{name}").read_text().splitlines()
        return {line[:26 if name == "limits" else line.index("\t")].strip(": "): line for line in lines}

    def wait(self, is_so):
        end = time.monotonic() + 60
        while not is_so():
            self.assertLess(time.monotonic(), end)
            time.sleep(0.02)

    def test_limits(self):
        with tempfile.NamedTemporaryFile(prefix="wot") as ring:
            ring.write(MARKER)
            ring.flush()
            process = self.started("--pending", ring.name)
            self.wait(lambda: "unlimited" not in self.facts(process, "limits")["Max data size"][26:47])
            limits = {name: line[26:].split()[:2] for name, line in self.facts(process, "limits").items()}
            self.assertEqual(self.facts(process, "status")["NoNewPrivs"].split()[1], "1")
        self.assertEqual(limits["Max core file size"], ["0", "0"])
        self.assertEqual(limits["Max open files"], ["64", "64"])
        self.assertTrue(all(GIBIOCTET <= int(one) < 2 * GIBIOCTET for one in limits["Max data size"]))

    def test_a_filter_of_calls(self):
        """It is there before anything is read of what a stranger wrote, here the engine's reply."""
        with tempfile.NamedTemporaryFile(prefix="wot") as ring:
            ring.write(MARKER)
            ring.flush()
            process = self.started("--pending", ring.name)
            self.wait(lambda: self.facts(process, "status")["Seccomp"].split()[1] == FILTERED)

    def test_no_memory_ends_it(self):
        """It ends with an error that no caller takes for an answer."""
        def little():
            resource.setrlimit(resource.RLIMIT_DATA, (8 << 20, 8 << 20))
        with tempfile.NamedTemporaryFile(prefix="wot") as ring:
            ring.write(b"\xb6\x01\0\0\0" + bytes(1 << 24))
            ring.flush()
            run = subprocess.run([PROGRAM, ring.name], stdin=subprocess.DEVNULL, capture_output=True,
                                 preexec_fn=little, check=False)
        self.assertNotIn(run.returncode, (0, 1, 5))
        self.assertEqual(run.stdout, b"")


@unittest.skipUnless(shutil.which("cc"), "there is no C compiler")
class TakenOver(unittest.TestCase):
    """A verifier that does what an attacker wants, once it has read what the attacker wrote."""

    @classmethod
    def setUpClass(cls):
        folder = tempfile.TemporaryDirectory(prefix="wot")
        cls.addClassCleanup(folder.cleanup)
        cls.folder = Path(folder.name)
        cls.library = cls.folder / "taken_over.so"
        subprocess.run(["cc", "-shared", "-fPIC", "-O1", "-o", cls.library, Path(__file__).with_name("taken_over.c")],
                       check=True)

    def setUp(self):
        self.ring, self.file, self.new = (self.folder / name for name in ("ring.pgp", "file", "new"))
        # A version 4 key of no known algorithm: it is imported, and nothing is verified.
        self.ring.write_bytes(b"\x98\x07\x04\0\0\0\0\x63\0")
        self.file.write_text("as it was")

    def tried(self, *words, **settings):
        """What each attempt came to: 0, or the name of its error."""
        given = {**os.environ, "LD_PRELOAD": self.library, "TAKEN_OVER_FILE": self.file, "TAKEN_OVER_NEW": self.new}
        run = subprocess.run([PROGRAM, *words], env={**given, **settings}, stdin=subprocess.DEVNULL,
                             capture_output=True, text=True, check=False)
        pairs = (line.split(" ") for line in run.stderr.splitlines() if line.split(" ")[0] in (*ATTEMPTS, "exec"))
        return {name: errno.errorcode.get(int(number), 0) for name, number in pairs}, run

    def assert_refused(self, *words):
        found, run = self.tried(*words)
        self.assertEqual(found, dict.fromkeys(ATTEMPTS, "EPERM"), run)
        self.assertEqual((self.file.read_text(), self.new.exists()), ("as it was", False))
        self.assertNotEqual(run.stdout, "")  # It goes on all the same.

    def test_of_keyrings(self):
        self.assert_refused(self.ring)
        self.assert_refused("--certificates", self.ring)
        self.assert_refused("--jobs", "3", self.ring, self.ring)

    def test_of_signatures_on_data(self):
        self.assert_refused("--data", self.file, "--signature", self.ring, self.ring)
        self.assert_refused("--data", self.file, "--content", self.folder / "content", self.ring)
        (self.folder / "content").unlink()

    def test_other_programs(self):
        """It goes on in the place of becoming the other program."""
        found, run = self.tried(self.ring, TAKEN_OVER_EXEC="1")
        self.assertEqual((found["exec"], run.returncode), ("EPERM", 0))
        self.assertTrue(run.stdout.startswith("import "), run)


def calls_of(words):
    """The calls that words of systemd's `SystemCallFilter` name, as this system's systemd has its groups."""
    found = set()
    for word in words:
        if word.startswith("@"):
            listed = subprocess.run(["systemd-analyze", "syscall-filter", word], capture_output=True, text=True,
                                    check=True)
            found |= calls_of([line.strip() for line in listed.stdout.splitlines()[1:]
                               if line.strip() and not line.strip().startswith("#")])
        else:
            found.add(word)
    return found


@unittest.skipUnless(seccomp and shutil.which("systemd-analyze"), "python3-seccomp or systemd isn't installed")
class UnderTheUnit(unittest.TestCase):
    """The host's unit ends whatever makes another call than those that it allows."""

    def allowed(self):
        allowed = calls_of(["@default"])
        for is_less, words in re.findall("^SystemCallFilter=(~?)(.*)$", UNIT.read_text(), re.M):
            allowed = allowed - calls_of(words.split()) if is_less else allowed | calls_of(words.split())
        return allowed

    def run_among(self, allowed, *words):
        """Runs the verifier where these calls are allowed, and any other ends it."""
        made = seccomp.SyscallFilter(seccomp.KILL_PROCESS)
        for call in allowed:
            try:
                made.add_rule(seccomp.ALLOW, call)
            except RuntimeError:
                pass  # Not of this architecture.
        return subprocess.run([PROGRAM, *words], stdin=subprocess.DEVNULL, capture_output=True, check=False,
                              preexec_fn=made.load)

    def test_the_verifier_works(self):
        with tempfile.TemporaryDirectory(prefix="wot") as folder:
            ring = Path(folder, "ring.pgp")
            ring.write_bytes(MARKER)
            for words in [ring], ["--data", ring, "--signature", ring, ring]:
                run = self.run_among(self.allowed(), *words)
                self.assertEqual((run.returncode, run.stderr), (0, b""), words)

    def test_this_test_sees_what_is_missing(self):
        run = self.run_among(self.allowed() - {"prctl"}, "-")
        self.assertEqual(run.returncode, -31)  # SIGSYS
