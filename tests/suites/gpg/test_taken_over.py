"""What a `tukyamid-gpg` may do that an attacker has taken over while it read data, and what it still does itself."""

import errno
import os
import resource
import shutil
import subprocess
import time
import unittest
from pathlib import Path

from case import Case
from host import PROGRAM
from people import DATA, MADE

TRIED_BY = Path(__file__).resolve().parents[1] / "verdicts/taken_over.c"
ATTEMPTS = ("socket", "unix", "create", "append", "read", "link", "rename", "unlink", "chmod", "signal", "trace",
            "memory", "fork", "exec")


@unittest.skipUnless(shutil.which("cc"), "there is no C compiler")
class TakenOver(Case):
    @classmethod
    def setUpClass(cls):
        super().setUpClass()
        cls.library = cls.people.folder / "taken_over.so"
        subprocess.run(["cc", "-shared", "-fPIC", "-O1", "-o", cls.library, TRIED_BY], check=True)

    def tried(self, *words, program=PROGRAM, given=b"", **settings):
        """What each attempt came to, and the run."""
        file, new = self.write("file", b"as it was"), self.folder / "new"
        environment = {**self.host.environment, "LD_PRELOAD": self.library, "TAKEN_OVER_FILE": file,
                       "TAKEN_OVER_NEW": new, "TAKEN_OVER_AT": DATA.decode(), "TAKEN_OVER_EXEC": "1", **settings}
        run = subprocess.run([program, *words], input=given, env=environment, cwd=self.people.folder, timeout=120,
                             capture_output=True, check=False)
        pairs = (line.split(" ") for line in run.stderr.decode().splitlines() if line.split(" ")[0] in ATTEMPTS)
        return {name: errno.errorcode.get(int(number), 0) for name, number in pairs}, run

    def assert_confined(self, *words, **how):
        """Every attempt fails, and the answer is what it is without the attacker."""
        found, run = self.tried(*words, **how)
        self.assertEqual(found, dict.fromkeys(ATTEMPTS, "EPERM"), run)
        self.assertEqual(((self.folder / "file").read_bytes(), (self.folder / "new").exists()), (b"as it was", False))
        self.assertEqual(run.returncode, 0, run)
        return run

    def test_signatures_on_a_file(self):
        run = self.assert_confined("--status-fd", "1", "--verify", "bob.detached", "data")
        self.assertIn(b"[GNUPG:] TRUST_FULLY 0 pgp\n", run.stdout)
        self.assertIn(b'Good signature from "Bob', run.stderr)

    def test_standard_input(self):
        run = self.assert_confined("--status-fd", "1", "--verify", "bob.detached", "-", given=DATA)
        self.assertIn(b"[GNUPG:] TRUST_FULLY 0 pgp\n", run.stdout)

    def test_several_files(self):
        rest = self.write("rest", b"")
        run = self.assert_confined("--status-fd", "1", "--verify", "bob.detached", "data", str(rest))
        self.assertIn(b"[GNUPG:] TRUST_FULLY 0 pgp\n", run.stdout)

    def test_sopv(self):
        run = self.assert_confined("verify", "bob.detached", "@tukyamid:", given=DATA,
                                   program=self.host.folder / "bin/tukyamid-sopv")
        self.assertIn(self.fpr["bob"].upper().encode(), run.stdout)

    def test_content_on_standard_output(self):
        run = self.assert_confined("--decrypt", "bob.opaque")
        self.assertEqual(run.stdout, DATA)

    def test_this_test_sees_what_isnt_confined(self):
        """A file that is made in the end has to be opened then. Only limits hold there."""
        output = self.folder / "output"
        found, run = self.tried("--output", output, "--status-fd", "1", "--decrypt", "bob.opaque")
        self.assertEqual((found["socket"], found["append"], "exec" in found), (0, 0, False), run)


class Confined(Case):
    def test_files_that_are_made(self):
        for name, content in ("opaque", DATA), ("clear", DATA.replace(b"it  \n", b"it\n")):
            output = self.folder / name
            answer = self.host.ours("--output", str(output), "--decrypt", f"bob.{name}")
            self.assertEqual((answer.exit, answer.words[-1], output.read_bytes()), (0, "TRUST_FULLY", content))
            self.assertEqual(self.host.ours("--output", str(output), "--decrypt", f"bob.{name}").exit, 2)

    def test_odd_descriptors(self):
        """Also where the caller left many files open, and some numbers are high."""
        soft, hard = resource.getrlimit(resource.RLIMIT_NOFILE)
        high = min(900, hard - 1)
        resource.setrlimit(resource.RLIMIT_NOFILE, (max(soft, high + 1), hard))
        self.addCleanup(resource.setrlimit, resource.RLIMIT_NOFILE, (soft, hard))
        read, write = os.pipe()
        many = [os.dup(write) for _ in range(150)]
        os.dup2(write, high)
        run = subprocess.run([PROGRAM, "--status-fd", str(high), "--decrypt", "bob.opaque"], stdin=subprocess.DEVNULL,
                             capture_output=True, env=self.host.environment, cwd=self.people.folder, timeout=120,
                             pass_fds=[high, *many], check=False)
        for number in (write, high, *many):
            os.close(number)
        with open(read, "rb") as status:
            self.assertIn(b"[GNUPG:] TRUST_FULLY 0 pgp\n", status.read())
        self.assertEqual((run.returncode, run.stdout), (0, DATA), run)

    def test_pipes_that_one_program_writes_after_each_other(self):
        """The writer of the second comes only when the first is read to its end."""
        pipes = [self.folder / name for name in ("first", "second")]
        for pipe in pipes:
            os.mkfifo(pipe)
        front = DATA[:20]
        self.write("front", front), self.write("rest", DATA[20:])
        feeding = subprocess.Popen(["sh", "-c", "cat front > first && cat rest > second"], cwd=self.folder)
        answer = self.host.ours("--verify", "bob.detached", *map(str, pipes))
        self.assertEqual((feeding.wait(60), answer.exit, answer.words[-1]), (0, 0, "TRUST_FULLY"), answer)

    def test_the_real_gpg_has_its_own_limits(self):
        """What this process may use doesn't bind the program that it becomes."""
        said = self.write("gpg", b'#!/bin/sh\nulimit -H -d; ulimit -S -d; ulimit -S -t; ulimit -H -t; '
                                 b'grep NoNewPrivs /proc/self/status\n')
        said.chmod(0o755)
        path = {"PATH": f"{self.folder}:{os.environ['PATH']}"}
        here = subprocess.run([said], capture_output=True, text=True, check=True).stdout
        self.assertRegex(here, r"NoNewPrivs:\s*0")
        for words in ["--list-secret-keys"], ["--decrypt", "data"]:
            run = subprocess.run([PROGRAM, *words], stdin=subprocess.DEVNULL, capture_output=True, text=True,
                                 env=self.host.environment | path, cwd=self.people.folder, timeout=120, check=False)
            self.assertEqual(run.stdout, here, (words, run))

    def test_curves_of_another_library(self):
        """The library is loaded while that can be done: so good and bad signatures are known."""
        for curve in "brainpoolP256r1", "secp256k1":
            name = f"{curve} <{curve}@example.org>"
            self.people.gpg("--quick-generate-key", name, curve, "cert,sign", "never", at=MADE)
            key = self.people.gpg("--export", name)
            self.host.ask(b"import " + key.hex().encode())
            signature = self.write(curve, self.people.sign(name))
            for data, words in ("data", ["NEWSIG", "SIG_ID", "GOODSIG", "VALIDSIG"]), ("altered", ["NEWSIG", "BADSIG"]):
                with self.subTest(curve, data=data):
                    self.assertEqual(self.host.ours("--verify", str(signature), data).words[:4], words)

    def test_limits_while_signatures_are_read(self):
        pipe = self.folder / "pipe"
        os.mkfifo(pipe)
        run = subprocess.Popen([PROGRAM, "--verify", pipe, "data"], stdin=subprocess.DEVNULL, stderr=subprocess.DEVNULL,
                               env=self.host.environment, cwd=self.people.folder)
        self.addCleanup(run.wait)
        self.addCleanup(run.kill)
        limits = Path(f"/proc/{run.pid}/limits")
        end = time.monotonic() + 60
        while True:
            found = {line[:26].strip(): line[26:].split()[0] for line in limits.read_text().splitlines()}
            if (found["Max data size"], found["Max cpu time"]) == (str(1 << 30), "300"):
                break
            self.assertLess(time.monotonic(), end, found)
            time.sleep(0.02)
        pipe.write_bytes((self.people.folder / "bob.detached").read_bytes())
        self.assertEqual(run.wait(60), 0)
