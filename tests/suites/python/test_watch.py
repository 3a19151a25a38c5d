"""`tukyamid watch` over a real service: what it reports of changes by others, across a restart and from its file."""

import json
import os
import select
import signal
import subprocess
import time
from unittest import mock

from friends import PEOPLE
from outside import COMMAND, needs_engine, needs_gpg, run
from test_service import Services, server_of
from tukyamid import connect
from tukyamid.watch import watch_loop
from tukyamid.watch.watch_loop import Watch
from tukyamid.watch.watch_notice import Subject

PATIENCE = 120
APRIL, DECEMBER = 1744675200, 1764547200  # 2025-04-15 and 2025-12-01


class Watching(Services):
    """A service that has the friends' keyring, and a connection by which the test changes it."""

    def setUp(self):
        super().setUp()
        done = run([COMMAND, "keyring", "add", self.friends.without("nobody")], env=self.environment)
        self.assertEqual(done.returncode, 0, done.stderr)
        self.client = self.connected()

    def connected(self):
        client = connect(self.runtime / "tukyamid.socket")
        self.addCleanup(client.close)
        return client

    def watch(self, *before, name="Carol", after=(), roots=("Alice",)):
        """A watch that runs, whose output can be read line by line."""
        named = [word for root in roots for word in ("--root", self.fpr[root])]
        words = [COMMAND, "watch", *named, *before, self.fpr[name], PEOPLE[name], *after]
        process = subprocess.Popen([str(word) for word in words], env=self.environment, stdout=subprocess.PIPE,
                                   stderr=subprocess.PIPE, bufsize=0)
        self.addCleanup(self.end_watch, process)
        return process

    @staticmethod
    def end_watch(process):
        process.kill()
        process.wait()
        process.stdout.close()
        process.stderr.close()

    def line(self, process):
        """The next line that a watch prints."""
        octets = b""
        end = time.monotonic() + PATIENCE
        while not octets.endswith(b"\n"):
            ready, _, _ = select.select([process.stdout], [], [], max(0.0, end - time.monotonic()))
            self.assertTrue(ready, f"nothing is printed: {octets!r}")
            octet = process.stdout.read(1)
            self.assertTrue(octet, process.stderr.read() if not octet else "")
            octets += octet
        return octets.decode()

    def report(self, process, amount, before=None):
        """The next report, of which the first two lines are read and compared."""
        first, second = self.line(process), self.line(process)
        self.assertRegex(first, r"\A\d{4}-\d\d-\d\d \d\d:\d\d:\d\d UTC: [^\n]*, key [0-9a-f]{40}\n\Z")
        was = "" if before is None else f"; it was {before}"
        word = "reached" if amount >= 120 else "not reached"
        self.assertEqual(second, f"    {word}: {amount} of 120{was}\n")

    def drop(self, name):
        self.client.drop(self.fpr[name])

    def end_service(self, number=signal.SIGTERM):
        server = server_of(self.runtime / "tukyamid.socket")
        os.kill(server, number)
        end = time.monotonic() + PATIENCE
        while os.path.exists(f"/proc/{server}") and time.monotonic() < end:
            time.sleep(0.02)

    def wait_for(self, path):
        end = time.monotonic() + PATIENCE
        while not path.exists():
            self.assertLess(time.monotonic(), end, f"{path} isn't made")
            time.sleep(0.02)

    def saved(self, path):
        self.wait_for(path)
        found = json.loads(path.read_text())
        path.unlink()
        return found


@needs_engine
@needs_gpg
class Reports(Watching):
    def test_a_change_and_by_whom(self):
        """Carol is reached by way of Bob, whose certificate is dropped by this process."""
        watch = self.watch()
        self.report(watch, 120)
        self.drop("Bob")
        self.report(watch, 60, 120)
        said = self.line(watch)
        self.assertRegex(said, rf"\A    change \d+, [0-9: -]+ UTC, by \S+ \({os.getuid()}\), process {os.getpid()}: "
                               rf"drop {self.fpr['Bob']}\n\Z")

    def test_its_end(self):
        """With --once the status says whether the amount is reached after the change."""
        watch = self.watch("--once", "--amount", "60")
        self.assertIn("key ", self.line(watch))
        self.drop("Carol")
        self.assertEqual(watch.wait(PATIENCE), 1)
        watch = self.watch("--once", "--quiet", "--state", self.own / "watch.json", name="Bob")
        self.wait_for(self.own / "watch.json")
        self.drop("Bob")
        self.assertEqual((watch.wait(PATIENCE), watch.stdout.read()), (1, b""))

    def test_it_is_interrupted(self):
        watch = self.watch()
        self.report(watch, 120)
        watch.send_signal(signal.SIGINT)
        self.assertEqual(watch.wait(PATIENCE), 130)

    def test_a_restart_of_the_service(self):
        """The keyring is changed by way of another service while the watch can't hear of it."""
        for number in (signal.SIGTERM, signal.SIGKILL):
            with self.subTest(number):
                watch = self.watch(name="Carol" if number == signal.SIGTERM else "Dave")
                amounts = (120, 60) if number == signal.SIGTERM else (60, 0)
                self.report(watch, amounts[0])
                os.kill(watch.pid, signal.SIGSTOP)
                self.end_service(number)
                run([COMMAND, "status"], env=self.environment)
                self.client = self.connected()
                self.drop("Bob" if number == signal.SIGTERM else "Carol")
                os.kill(watch.pid, signal.SIGCONT)
                self.report(watch, amounts[1], amounts[0])
                self.assertIn(f"process {os.getpid()}: drop ", self.line(watch))

    def test_a_key_that_comes_later(self):
        self.drop("Carol")
        watch = self.watch()
        self.report(watch, 0)
        # What was dropped is taken in again, with its verdicts.
        done = run([COMMAND, "keyring", "add", self.friends.without("Frank")], env=self.environment)
        self.assertEqual(done.returncode, 0, done.stderr)
        reported = [self.line(watch) for _ in range(2)]
        self.assertIn("; it was 0\n", reported[1])

    def test_time_alone(self):
        """Bob's certification of Frank ends in May 2025."""
        subject = Subject(self.fpr["Frank"], PEOPLE["Frank"].encode(), 120, {self.fpr["Alice"]: 120})
        watch = Watch(subject, self.connected, 0.02)
        with mock.patch.object(watch_loop, "time", mock.Mock(time=lambda: self.now, monotonic=time.monotonic,
                                                             sleep=time.sleep)):
            self.now = APRIL
            notices = watch.notices()
            self.assertEqual(next(notices).amount, 120)
            self.now = DECEMBER
            notice = next(notices)
        self.assertEqual((notice.amount, notice.before, notice.changes), (0, 120, ()))
        self.assertIn("nobody changed the keyring: something has begun or ended with time\n", notice.text())
        self.assertEqual(notice.time, DECEMBER)

    def test_nothing_is_asked_of_other_inputs(self):
        config = self.own / "config/tukyamid/config.toml"
        config.parent.mkdir(parents=True, mode=0o700)
        config.write_text('inputs = ["gpg"]\n')
        config.chmod(0o600)
        environment = {**self.environment, "XDG_CONFIG_HOME": str(self.own / "config")}
        done = run([COMMAND, "watch", "--root", self.fpr["Alice"], self.fpr["Bob"], PEOPLE["Bob"]], env=environment)
        self.fails(done, 3, "other inputs")


@needs_engine
@needs_gpg
class Files(Watching):
    def test_what_changed_while_no_watch_ran(self):
        file = self.own / "watch.json"
        self.stopped(self.watch("--state", file), 120)
        self.drop("Frank")  # This has no part in the answer.
        self.drop("Bob")
        watch = self.watch("--state", file, "--once")
        self.report(watch, 60, 120)
        self.assertEqual(watch.wait(PATIENCE), 1)
        self.assertRegex(watch.stdout.read().decode(), rf"\A    change \d+, [^\n]*: drop {self.fpr['Bob']}\n\Z")
        self.assertEqual(json.loads(file.read_text())["amount"], 60)

    def test_other_roots(self):
        file = self.own / "watch.json"
        self.stopped(self.watch("--state", file), 120)
        done = run([COMMAND, "watch", "--once", "--state", file, "--root", f"{self.fpr['Alice']}:60", self.fpr["Carol"],
                    PEOPLE["Carol"]], env=self.environment)
        self.assertEqual((done.returncode, done.stderr), (1, b""))
        self.assertIn(b"not reached: 60 of 120; it was 120\n    your roots are others than before\n", done.stdout)

    def stopped(self, watch, amount):
        """Ends a watch when it has kept its first report."""
        self.report(watch, amount)
        self.wait_for(self.own / "watch.json")
        watch.kill()
        watch.wait()

    def test_files_that_are_no_state(self):
        file = self.own / "watch.json"
        for text, said in (("{", "isn't the file of a watch"), ("[]", "isn't the file of a watch"),
                           ('{"form": 1}', "isn't the file of a watch"), ("", "isn't the file of a watch")):
            file.write_text(text)
            done = run([COMMAND, "watch", "--root", self.fpr["Alice"], "--state", file, self.fpr["Bob"], PEOPLE["Bob"]],
                       env=self.environment)
            self.fails(done, 3, said)
        file.unlink()
        self.stopped(self.watch("--state", file), 120)
        done = run([COMMAND, "watch", "--root", self.fpr["Alice"], "--state", file, self.fpr["Bob"], PEOPLE["Bob"]],
                   env=self.environment)
        self.fails(done, 3, "is the file of another watch")

    def test_a_pipe_is_no_state(self):
        """Nobody writes to it, so reading it would never end."""
        file = self.own / "watch.json"
        os.mkfifo(file)
        done = run([COMMAND, "watch", "--root", self.fpr["Alice"], "--state", file, self.fpr["Bob"], PEOPLE["Bob"]],
                   env=self.environment)
        self.fails(done, 3, f"{file} isn't a regular file")
