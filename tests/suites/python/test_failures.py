"""How the command ends when there is no answer: a status, one line, and never a traceback."""

import os
import pathlib
import shutil
import signal
import subprocess
import tempfile
import time
import unittest

from asking import Asking, program
from friends import PEOPLE
from outside import CLIENT, COMMAND, TRUSTING, folder, needs_engine, needs_gpg, run


@needs_engine
@needs_gpg
class Failures(Asking):
    def test_what_is_missing_or_broken(self):
        failing = program("failing", 'case "$1" in --version) echo wot-verdicts 1; exit;; esac\nexit 3')
        nowhere = folder() / "nothing-here"
        for said, words in [
            (f"{nowhere}: No such file", ["--keyring", nowhere]),
            ("the engine can't be started", ["--engine", nowhere]),
            (f"the verifier can't be started: {nowhere}", ["--anew", "--verifier", nowhere]),
            ("the verifier ended with status 3", ["--anew", "--verifier", failing]),
            ("isn't wot-verdicts", ["--anew", "--verifier", "/bin/true"]),
            ("isn't wot-verdicts", ["--anew", "--verifier", "/bin/false"]),
            ("the engine ended with status 1", ["--engine", "/bin/false"]),
            ("nonsense", ["--no-cache", "--engine", program("babbling", "exec yes nonsense")]),
        ]:
            with self.subTest(words):
                self.fails(self.ask(*words, "list"), 3, said)

    def test_an_output_that_cant_be_written(self):
        list_words = self.words("list")
        for words in list_words, [COMMAND, "--help"], [COMMAND, "--version", "--verifier", TRUSTING]:
            with open("/dev/full", "wb") as full:
                done = subprocess.run(words, stdout=full, stderr=subprocess.PIPE, check=False, timeout=600)
            said = b"tukyamid: standard output: No space left on device\n"
            self.assertEqual((done.returncode, done.stderr), (3, said))
            reading, writing = os.pipe()
            os.close(reading)
            done = subprocess.run(words, stdout=writing, stderr=subprocess.PIPE, check=False, timeout=600)
            os.close(writing)
            self.assertEqual((done.returncode, done.stderr), (3, b"tukyamid: standard output: Broken pipe\n"))

    def test_files_that_the_caller_closed(self):
        words = self.words("authenticate", self.fpr["Bob"], PEOPLE["Bob"])
        for closed, status, said in [
            (">&-", 3, b"tukyamid: standard output: closed\n"), ("2>&-", 0, b""), ("<&-", 0, b""), ("<&- 2>&-", 0, b""),
        ]:
            done = run(["sh", "-c", f'exec "$@" {closed}', "sh", *words])
            self.assertEqual((done.returncode, done.stderr), (status, said), closed)
            self.assertEqual(done.stdout.count(b"[\xe2\x9c\x93]"), 1 if status == 0 else 0)

    def test_an_interrupt(self):
        """It ends the command while the verifier runs, and the verifier with it."""
        marker = folder() / "verifier.pid"
        waiting = program("waiting", f'case "$1" in --version) echo wot-verdicts 1; exit;; esac\n'
                                     f'echo $$ > "{marker}.new"; mv "{marker}.new" "{marker}"; exec sleep 300')
        begun = subprocess.Popen(self.words("--anew", "--verifier", waiting, "list"), stdout=subprocess.PIPE,
                                 stderr=subprocess.PIPE)
        while not marker.exists():
            time.sleep(0.02)
        begun.send_signal(signal.SIGINT)
        said = begun.communicate(timeout=60)
        self.assertEqual((begun.returncode, *said), (130, b"", b""))
        status = pathlib.Path(f"/proc/{marker.read_text().strip()}/stat")
        for _ in range(500):
            if not status.exists() or status.read_text().split()[2] == "Z":
                return
            time.sleep(0.02)
        self.fail("the verifier still runs")

    def test_no_build_is_begun(self):
        """From a checkout whose engine isn't built, also with the toolchain at hand."""
        top = folder() / "checkout"
        shutil.copytree(CLIENT, top / "python", ignore=shutil.ignore_patterns("__pycache__", ".mypy_cache"))
        for name in "wot", "bin/rt":
            path = program("begun", f'echo "$0" >> "{folder()}/begun.log"')
            (top / name).parent.mkdir(exist_ok=True)
            shutil.move(path, top / name)
        environment = {**os.environ, "PATH": f"{top}/bin:/usr/bin:/bin"}
        environment.pop("TUKYAMID_ENGINE")
        words = [top / "python/bin/tukyamid", *self.words("list")[1:]]
        if shutil.which("tukyamid-engine", path=environment["PATH"]) or os.path.exists("/usr/libexec/tukyamid-engine"):
            self.skipTest("an engine is installed on this machine")
        self.fails(run(words, env=environment), 3, r"the engine isn't built; build it with: \S+/wot run")
        self.assertFalse((folder() / "begun.log").exists())

    def test_what_is_said_is_one_line_that_steers_no_terminal(self):
        for words in (["--keyring", "/no\x1b[2J\nwhere\u202e"], ["--\x1b[2J\n"], ["--time", "\x1b]0;x\x07"],
                      ["\x1b[2J\n\u2066"], ["--root", "\x9b2J"], ["--format", "\x1b[2J"]):
            done = self.ask(*words, "list")
            self.assertIn(done.returncode, (2, 3), words)
            text = done.stderr.decode()
            self.assertEqual([c for c in text if not c.isprintable() and c != "\n"], [], text)
            self.assertEqual(text.count("\n"), 2 if done.returncode == 2 else 1, text)

    def test_no_traceback_ever(self):
        """Questions with words that somebody might type, each of which ends with a status that is documented."""
        fpr, uid = self.fpr["Carol"], PEOPLE["Carol"]
        for words in (["path", fpr, self.fpr["Bob"], self.fpr["Dave"], uid], ["lookup", ""], ["list", "\udcff"],
                      ["authenticate", fpr, ""], ["authenticate", fpr, "\udcff\udcfe"], ["--email", "lookup", "@"],
                      ["--email", "list", "@"], ["--time", "@0", "list"], ["--time", "@4294967295", "list"],
                      ["--amount", "4294967295", "identify", fpr], ["identify", "00" * 32], ["path", "00" * 20, "x"]):
            done = self.ask(*words)
            self.assertIn(done.returncode, (0, 1, 2, 3), words)
            self.assertNotIn(b"Traceback", done.stderr)
            self.assertNotIn(b"error of the command itself", done.stderr)


class Upgraded(unittest.TestCase):
    def test_a_part_that_is_missing(self):
        """As while packages are upgraded. Python's own status would be 1, which stands for an answer."""
        with tempfile.TemporaryDirectory() as name:
            copy = shutil.copytree(COMMAND.parents[1], pathlib.Path(name) / "python",
                                   ignore=shutil.ignore_patterns("__pycache__"))
            for part in "fast_imports.py", "command/exit_statuses.py", "command/dispatch.py", "protocol/refusals.py":
                file = copy / "tukyamid" / part
                file.rename(file.with_suffix(".away"))
                done = run([copy / "bin/tukyamid", "authenticate", "ab" * 20, "Carol"])
                self.assertEqual((done.returncode, done.stdout, done.stderr.count(b"\n")), (3, b"", 1), done.stderr)
                self.assertIn(b"tukyamid: ", done.stderr)
                file.with_suffix(".away").rename(file)
