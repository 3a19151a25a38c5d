"""The parts of `tukyamid watch` without a service: its words, its reports, the program that it runs, and the script of
the systemd unit."""

import os
import subprocess
import tempfile
import time
import unittest
from pathlib import Path
from unittest import mock

from outside import COMMAND, ROOT, run
from tukyamid.command.exit_statuses import NoAnswer
from tukyamid.protocol.refusals import ServiceEnded, ServiceMissing
from tukyamid.protocol.service_lines import Change
from tukyamid.watch import notice_command, watch_loop
from tukyamid.watch.watch_loop import Watch
from tukyamid.watch.watch_notice import Notice, Subject
from tukyamid.watch.watch_state import Last

PATIENCE = 120
APRIL = 1744675200  # 2025-04-15
NOTICE = ROOT / "packaging/watch/watch-notice"


class Notices(unittest.TestCase):
    """The script of the systemd unit, with stand-ins for the programs that it runs."""

    def said(self, **more):
        """What the stand-in got: its words and its standard input."""
        with tempfile.TemporaryDirectory() as folder:
            for name in ("sendmail", "notify-send"):
                path = Path(folder) / name
                path.write_text(f'#!/bin/sh\nprintf "%s\\n" {name} "$@" > {folder}/said\necho "<" >> {folder}/said\n'
                                f'cat >> {folder}/said\n')
                path.chmod(0o755)
            environment = {"PATH": f"{folder}:{os.environ['PATH']}", "TUKYAMID_KEY": "ab" * 20, "TUKYAMID_AMOUNT": "60",
                           "TUKYAMID_WANTED": "120", "TUKYAMID_USER_ID": "Carol\nBcc: x@y"} | more
            done = subprocess.run([NOTICE], input="Carol & <carol@example.org>\n", text=True, env=environment,
                                  capture_output=True, timeout=PATIENCE, check=False)
            self.assertEqual((done.returncode, done.stderr), (0, ""))
            return (Path(folder) / "said").read_text()

    def test_by_mail(self):
        said = self.said(MAIL_TO="me@example.org")
        self.assertEqual(said, "sendmail\n-i\n--\nme@example.org\n<\nTo: me@example.org\n"
                         f"Subject: Tukyamid: key {'ab' * 20}, 60 of 120\nMIME-Version: 1.0\n"
                         "Content-Type: text/plain; charset=utf-8\nContent-Transfer-Encoding: 8bit\n\n"
                         "Carol & <carol@example.org>\n")

    def test_on_the_desktop(self):
        self.assertEqual(self.said(), f"notify-send\n--app-name=Tukyamid\n--\nTukyamid: key {'ab' * 20}, 60 of 120\n"
                         "Carol &amp; &lt;carol@example.org&gt;\n<\n")

    def test_one_that_cant_be_delivered(self):
        """The status is that of the program, so that the watch reports it again."""
        with tempfile.TemporaryDirectory() as folder:
            path = Path(folder) / "sendmail"
            path.write_text("#!/bin/sh\nexit 75\n")
            path.chmod(0o755)
            done = subprocess.run([NOTICE], input="x", text=True, check=False, timeout=PATIENCE, capture_output=True,
                                  env={"PATH": f"{folder}:{os.environ['PATH']}", "TUKYAMID_KEY": "ab",
                                       "TUKYAMID_AMOUNT": "1", "TUKYAMID_WANTED": "2", "MAIL_TO": "me"})
            self.assertEqual(done.returncode, 75)


class WithoutAService(unittest.TestCase):
    SUBJECT = Subject("ab" * 20, b"Carol\n[x] \x1b[2J", 120, {"cd" * 20: 120})

    def notice(self, **more):
        facts = {"subject": self.SUBJECT, "time": APRIL, "amount": 60, "before": 120, "number": 7, **more}
        return Notice(**facts)

    def test_one_that_takes_too_long(self):
        """It is ended with what it started."""
        words = ["/bin/sh", "-c", "sleep 1000 & echo $! > \"$0\"; wait", os.path.join(self.folder(), "number")]
        with mock.patch.object(notice_command, "PATIENCE", 1.0), self.assertRaisesRegex(NoAnswer, "took longer than 1"):
            notice_command.run(words, self.notice())
        with open(words[-1], encoding="ascii") as file:
            number = int(file.read())
        end = time.monotonic() + PATIENCE
        while self.runs(number) and time.monotonic() < end:
            time.sleep(0.02)
        self.assertFalse(self.runs(number))

    @staticmethod
    def runs(number):
        try:
            with open(f"/proc/{number}/stat", encoding="ascii") as file:
                return file.read().rpartition(")")[2].split()[0] != "Z"
        except FileNotFoundError:
            return False

    def folder(self):
        folder = tempfile.TemporaryDirectory()
        self.addCleanup(folder.cleanup)
        return folder.name

    def test_a_service_that_stays_away(self):
        """The first failure is said at once, and later ones after a while."""
        def away():
            raise ServiceMissing("no service")
        with self.assertRaisesRegex(ServiceMissing, "no service"):
            next(Watch(self.SUBJECT, away, 1.0).notices())
        tries = []

        class Ending:
            """A service that answers once, and then ends."""
            __enter__ = lambda self: self  # noqa: E731
            __exit__ = lambda self, *_: None  # noqa: E731
            open_view = set_root = watch = unverified = lambda self, *_: None  # noqa: E731
            status = lambda self: {"change": "1"}  # noqa: E731
            told = lambda self: []  # noqa: E731
            ask = lambda self, *_: mock.Mock(amount=7, paths=())  # noqa: E731

            def wait(self, _):
                raise ServiceEnded("it has ended")

        def connected():
            tries.append(1)
            if len(tries) > 1:
                raise ServiceMissing("it stays away")
            return Ending()
        with mock.patch.object(watch_loop, "_PAUSE", 0.01):
            notices = Watch(self.SUBJECT, connected, 1.0, patience=0.3).notices()
            self.assertEqual(next(notices).amount, 7)
            with self.assertRaisesRegex(ServiceMissing, "it stays away"):
                next(notices)
        self.assertGreater(len(tries), 2)

    def test_what_others_wrote_steers_no_terminal(self):
        change = Change(9, APRIL, 0, 1, "import \x1b[2J\nx")
        text = self.notice(changes=(change,)).text()
        self.assertNotIn("\x1b", text)
        self.assertEqual(text.count("\n"), 3)

    def test_many_changes(self):
        changes = tuple(Change(number, APRIL, 0, 1, "import " + "ab " * 1000) for number in range(12, 0, -1))
        lines = self.notice(changes=changes).text().splitlines()
        self.assertEqual((len(lines), lines[-1]), (8, "    and 7 earlier changes: tukyamid log"))
        self.assertLess(max(map(len, lines)), 600)

    def test_words(self):
        fpr = "ab" * 20
        for words, said in ((["--exec", "x"], b"watch takes: KEY USERID"), ([fpr, "x", "--exec"], b"takes a command"),
                            ([fpr], b"watch takes"), ([fpr, "x", "--shell", "y", "--exec", "z"], b"not both"),
                            (["--every", "0", fpr, "x"], b"isn't a number of seconds"),
                            (["--every", "86401", fpr, "x"], b"isn't a number of seconds"),
                            (["abcd", "x"], b"neither a fingerprint nor a key ID")):
            with self.subTest(words):
                done = run([COMMAND, "watch", *words])
                self.assertEqual((done.returncode, done.stdout), (2, b""), done.stderr)
                self.assertIn(said, done.stderr)
        done = run([COMMAND, "watch", "--help"])
        self.assertEqual(done.returncode, 0)
        self.assertIn(b"TUKYAMID_CHANGES", done.stdout)

    def test_a_keyring_that_was_replaced(self):
        causes = watch_loop._Causes(mock.Mock(), Last(120, 9, frozenset(), True), 3, frozenset())
        self.assertEqual(causes.others(), ("your roots are others than before",
                                           "the keyring was replaced by another one"))
