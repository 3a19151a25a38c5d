"""The command over services: one that holds the inputs that were named, and the user's own."""

import json
import os
import shutil
import signal
import socket
import struct
import subprocess
import time
import unittest.mock
from pathlib import Path

from asking import DECEMBER, Asking
from friends import PEOPLE
from outside import COMMAND, TRUSTING, folder, needs_engine, needs_gpg, run
from test_lifetimes import ended_key
from tukyamid import connect
from tukyamid.command.keyring_choice import Inputs
from tukyamid.command.parsed_words import Given
from tukyamid.web.asked_service import service_for


def server_of(path):
    """The process that listens at a socket; None if there is none."""
    with socket.socket(socket.AF_UNIX) as connected:
        try:
            connected.connect(str(path))
        except OSError:
            return None
        return struct.unpack("3i", connected.getsockopt(socket.SOL_SOCKET, socket.SO_PEERCRED, 12))[0]


class Services(Asking):
    """Tests with a runtime folder of their own, whose services end with them."""

    def setUp(self):
        name = self.id().rpartition(".")[2][-20:]
        self.own = folder() / name
        self.runtime = self.own / "run"
        self.runtime.mkdir(parents=True, mode=0o700)
        self.environment = {**os.environ, "XDG_RUNTIME_DIR": str(self.runtime), "XDG_DATA_HOME": str(self.own / "data"),
                            "XDG_STATE_HOME": str(self.own / "state"), "TUKYAMID_VERIFIER": str(TRUSTING),
                            "TRUSTING_LOG": str(self.own / "verifier.log")}
        self.addCleanup(self.end)

    def sockets(self):
        return sorted(self.runtime.rglob("*.socket"))

    def end(self):
        for path in self.sockets():
            server = server_of(path)
            if server is not None:
                os.kill(server, signal.SIGTERM)

    def wait_for_socket(self):
        for _ in range(3000):
            if any(map(server_of, self.sockets())):
                return
            time.sleep(0.02)
        self.fail((self.own / "state/tukyamid/service.log").read_text())

    def asked(self, *words, status=0, roots=("Alice",)):
        """The JSON of an answer."""
        named = [f"--root={self.fpr[root]}" for root in roots]
        done = run([COMMAND, *named, "--time", DECEMBER, "--format", "json", *words], env=self.environment)
        self.assertEqual((done.returncode, done.stderr), (status, b""))
        return json.loads(done.stdout)


@needs_engine
@needs_gpg
class HeldInputs(Services):
    def setUp(self):
        super().setUp()
        self.keyring = self.own / "keyring.pgp"
        shutil.copy(self.friends.without("Frank"), self.keyring)
        self.named = ["--keyring", self.keyring, "--cache", self.own / "cache"]

    def test_a_question_is_answered_again_by_a_service_of_these_inputs(self):
        """The second time no file of the cache is needed, and the answer is the same, to the last octet."""
        questions = [["authenticate", self.fpr["Carol"], PEOPLE["Carol"]], ["identify", self.fpr["Dave"][-16:]],
                     ["list"], ["--email", "lookup", "DAVE@example.net"], ["lookup", PEOPLE["Erin"]],
                     ["path", self.fpr["Alice"], self.fpr["Carol"], PEOPLE["Carol"]]]
        statuses = [0, 1, 0, 1, 1, 1]
        first = [self.asked("--no-service", *self.named, *words, status=status)
                 for words, status in zip(questions, statuses)]
        self.assertEqual(self.sockets(), [])
        self.asked(*self.named, "list")
        self.wait_for_socket()
        (entry,) = (self.own / "cache").iterdir()
        (entry / "dump").unlink()
        again = [self.asked(*self.named, *words, status=status) for words, status in zip(questions, statuses)]
        self.assertEqual(again, first)

    def test_the_second_question_needs_no_engine(self):
        """The first one leaves a service that has loaded everything, and that answers where no engine is found."""
        self.asked(*self.named, "list")
        (listening,) = filter(server_of, self.sockets())
        process = server_of(listening)
        self.environment["TUKYAMID_ENGINE"] = str(self.own / "none")
        self.assertEqual(len(self.asked(*self.named, "list")["bindings"]), 3)
        self.assertEqual(server_of(listening), process)

    def test_an_interrupt_after_the_answer(self):
        """Whoever doesn't wait for the service has the answer, and the service is started all the same."""
        words = [COMMAND, f"--root={self.fpr['Alice']}", "--time", DECEMBER, *self.named, "list", "carol"]
        with subprocess.Popen(words, env=self.environment, stdout=subprocess.PIPE, start_new_session=True) as asking:
            self.assertIn(b"Carol", asking.stdout.read1())
            os.killpg(asking.pid, signal.SIGINT)
            self.assertIn(asking.wait(300), (0, 130))  # 130 if it comes before the command begins to wait.
        self.wait_for_socket()
        self.assertEqual(len(self.asked(*self.named, "list")["bindings"]), 3)

    def test_a_directory_of_others_is_not_used(self):
        """Be it the cache or that of the sockets: the answer comes all the same, from an engine of its own."""
        cache = self.own / "cache"
        cache.mkdir()
        for loose, safe, said in ((cache, self.runtime, rb"tukyamid: no cache is used: others can write [^\n]*\n"),
                                  (self.runtime, cache, b"")):
            loose.chmod(0o777)
            safe.chmod(0o700)
            with self.subTest(loose.name):
                done = run([COMMAND, f"--root={self.fpr['Alice']}", *self.named, "list", "carol"], env=self.environment)
                self.assertRegex(done.stderr, rb"\A" + said + rb"\Z")
                self.assertEqual((done.returncode, self.sockets()), (0, []))

    def test_what_a_file_is_now_is_what_is_answered(self):
        frank = ["identify", self.fpr["Frank"]]
        self.assertEqual(self.asked(*self.named, *frank, status=1)["bindings"], [])
        self.wait_for_socket()
        self.assertEqual(self.asked(*self.named, *frank, status=1)["bindings"], [])
        shutil.copy(self.friends.keyring, self.keyring)
        self.assertEqual(len(self.asked(*self.named, *frank, status=1)["bindings"]), 1)
        shutil.copy(self.friends.without("Frank"), self.keyring)
        self.assertEqual(self.asked(*self.named, *frank, status=1)["bindings"], [])

    def test_inputs_stay_as_long_as_their_service_runs(self):
        """Eight other inputs are verified meanwhile; they take the place of inputs that nobody serves."""
        self.asked(*self.named, "list")
        self.wait_for_socket()
        (entry,) = (self.own / "cache").iterdir()
        with connect(*self.sockets()):  # It isn't idle meanwhile.
            for missing in PEOPLE:
                for more in [], ["--keyring", self.keyring]:
                    run([COMMAND, "--root", self.fpr["Bob"], "--no-service", "--cache", self.own / "cache", *more,
                         "--keyring", self.friends.without(missing), "list"], env=self.environment)
        self.assertTrue((entry / "keyring.db").exists())
        self.assertLessEqual(len(list((self.own / "cache").iterdir())), 9)
        given = Given(keyring=[str(self.keyring)], directory=[], gpg=False, gpg_keyring=False, no_service=False,
                      no_cache=False, anew=False, engine=None, verifier=None, cache=str(self.own / "cache"))
        shutil.rmtree(entry)  # As an earlier version did.
        with unittest.mock.patch.dict(os.environ, self.environment):
            service = service_for(given, Inputs(given, lambda text: None), lambda text: None)
        self.assertIn(Path(service.socket), self.sockets())

    def test_a_service_that_was_killed(self):
        self.asked(*self.named, "list")
        self.wait_for_socket()
        for path in self.sockets():
            os.kill(server_of(path), signal.SIGKILL)
        self.assertEqual(len(self.asked(*self.named, "list")["bindings"]), 3)
        self.wait_for_socket()


@needs_engine
@needs_gpg
class UsersService(Services):
    def command(self, *words, status=0):
        done = run([COMMAND, *words], env=self.environment)
        self.assertEqual((done.returncode, done.stderr), (status, b""), done.stderr)
        return done.stdout.decode()

    def test_a_keyring_is_added_and_asked_about(self):
        carol = ["authenticate", self.fpr["Carol"], PEOPLE["Carol"]]
        done = run([COMMAND, "--root", self.fpr["Alice"], *carol], env=self.environment)
        self.fails(done, 3, "this root isn't in the keyring: .*tukyamid keyring add")
        self.assertIn("no keyring is kept", self.command("keyring", "list"))
        added = self.command("keyring", "add", self.friends.keyring)
        self.assertRegex(added, rf"\A{self.friends.keyring}: 6 certificates, \d+ new verdicts\n\Z")
        local = self.asked("--no-service", "--no-cache", "--keyring", self.friends.keyring, *carol)
        self.assertEqual(self.asked(*carol), local)
        for words, status in (["identify", self.fpr["Dave"][-16:]], 1), (["--email", "lookup", "CAROL@EXAMPLE.ORG"], 0):
            local = self.asked("--no-service", "--no-cache", "--keyring", self.friends.keyring, *words, status=status)
            self.assertEqual(self.asked(*words, status=status), local)
        self.check_what_is_said()

    def check_what_is_said(self):
        status = dict(line.split(": ", 1) for line in self.command("status").splitlines())
        self.assertEqual((status["certificates"], status["user-ids"], status["pending"]), ("6", "6", "0"))
        self.assertEqual(status["expired-elsewhere"], "0")
        self.assertEqual(status["keyring"], f"{self.friends.keyring}, 6 certificates")
        log = self.command("log", "3").splitlines()
        self.assertEqual(len(log), 3)
        self.assertTrue(all(f"by user {os.getuid()}, process " in line for line in log), log)
        self.assertEqual(self.command("keyring", "list"), f"{self.friends.keyring}: 6 certificates\n")
        self.command("keyring", "remove", self.friends.keyring)
        self.assertIn("no keyring is kept", self.command("keyring", "list"))

    def test_the_status_counts_keys_that_others_take_as_expired(self):
        self.command("keyring", "add", ended_key().keyring)
        self.command("keyring", "add", self.friends.keyring)
        self.assertIn("expired-elsewhere: 1\n", self.command("status"))

    def test_wrong_words(self):
        for words, said in [
            (["keyring"], "keyring takes: add NAME.., remove NAME.. or list"), (["keyring", "add"], "keyring takes"),
            (["status", "x"], "status takes no arguments"), (["log", "0"], r"log takes: \[N\]"),
            (["log", "x"], r"log takes: \[N\]"), (["log", "--nonsense"], "nonsense"),
        ]:
            self.fails(run([COMMAND, *words], env=self.environment), 2, said)
        nowhere = self.own / "nowhere"
        self.fails(run([COMMAND, "keyring", "add", nowhere], env=self.environment), 3, f"{nowhere}: No such file")
        self.fails(run([COMMAND, "keyring", "remove", nowhere], env=self.environment), 3, f"{nowhere} isn't kept")
        self.assertIn("usage: tukyamid keyring", self.command("keyring", "--help"))
