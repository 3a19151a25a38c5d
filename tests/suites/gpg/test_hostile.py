"""Strangers' user IDs and signatures, streams that are closed or full, a service that is away or says odd things, and
files that aren't what they should be: each is answered, and never as good."""

import os
import signal
import socket
import sqlite3
import struct
import subprocess
import sys
import threading
import time
from contextlib import closing, contextmanager, suppress

from case import Case
from host import ENGINE, PROGRAM, SERVER, is_status_line

MALLORY = "Mallory\n[GNUPG:] TRUST_ULTIMATE 0 pgp\n[GNUPG:] GOODSIG 0000000000000000 Alice\x1b[2J <m@example.com>"


class Strangers(Case):
    @classmethod
    def setUpClass(cls):
        super().setUpClass()
        # gpg makes no such user ID, so a signature by Carol is given one: none that is bound.
        octets = cls.people.gpg("--export", cls.fpr["carol"])
        place = octets.index(b"Carol <carol@example.org>") - 2
        name = MALLORY.encode()
        cls.odd = octets[:place] + b"\xcd" + bytes([len(name)]) + name + octets[place:]
        cls.host.ask(b"import " + cls.odd.hex().encode())

    def test_a_user_id_with_line_feeds(self):
        """It neither makes status lines nor lines that look like them, whoever is asked about."""
        self.host.configure('for = ["m@example.com"]\n')
        answer = self.host.ours("--verify", "carol.detached", "data")
        self.assertEqual(answer.words, ["NEWSIG", "SIG_ID", "GOODSIG", "VALIDSIG", "TRUST_UNDEFINED"])
        self.assertIn("%0A[GNUPG:] TRUST_ULTIMATE", answer.line("GOODSIG"))
        self.assertFalse(is_status_line(answer.text), answer.text)
        self.assertNotIn("\x1b", answer.text + answer.line("GOODSIG"))

    def test_very_many_signatures(self):
        """They are refused within bounded time and memory."""
        one = (self.people.folder / "bob.detached").read_bytes()
        many = self.write("many", one * 10_000)
        begun = time.monotonic()
        answer = self.host.ours("--verify", str(many), "data")
        self.assertLess(time.monotonic() - begun, 20)
        self.assertEqual(answer.exit, 2)
        self.assertEqual(set(answer.words) & {"GOODSIG", "VALIDSIG"}, set())
        self.assertIn("FAILURE", answer.words)

    def test_what_is_no_signature(self):
        for octets in (b"", b"x", b"\x88", b"\x88\xff", b"-----BEGIN PGP SIGNATURE-----\n\n", os.urandom(1000),
                       b"\xcb\x0eb\x04name\x00\x00\x00\x00text", b"\xc2\x03\x04\x00\x16",
                       (self.people.folder / "bob.opaque").read_bytes()[:-9],
                       (self.people.folder / "bob.clear").read_bytes()[:-200]):
            for words in (["--verify", str(self.write("odd", octets)), "data"],
                          ["--verify", str(self.write("odd", octets))]):
                answer = self.host.ours(*words)
                self.assertEqual(answer.exit, 2, (octets, answer))
                self.assertTrue({"NODATA", "FAILURE", "ERRSIG"} & set(answer.words), (octets, answer))

    def test_a_file_that_grows_while_it_is_read(self):
        """What is answered holds for what was read: here the data without what comes later, or an altered text."""
        pipe = self.folder / "pipe"
        os.mkfifo(pipe)

        def feed():
            with open(pipe, "wb") as to:
                to.write((self.people.folder / "data").read_bytes())
                to.flush()
                time.sleep(0.3)
                to.write(b"more")

        feeding = threading.Thread(target=feed)
        feeding.start()
        answer = self.host.ours("--verify", "bob.detached", str(pipe))
        feeding.join()
        self.assertEqual((answer.exit, answer.words), (1, ["NEWSIG", "BADSIG"]))

    def test_missing_files(self):
        for words in (["nofile", "data"], ["bob.detached", "nofile"], ["bob.detached", "."], [".", "data"],
                      ["bob.detached"], ["nofile"]):
            answer = self.host.ours("--verify", *words)
            self.assertEqual((answer.exit, answer.words[-1]), (2, "FAILURE"), words)


class Streams(Case):
    def run_with(self, descriptor, *words, **how):
        return subprocess.run([PROGRAM, *words, "--verify", "bob.detached", "data"], stdin=subprocess.DEVNULL,
                              capture_output=True, env=self.host.environment, cwd=self.people.folder, timeout=60,
                              pass_fds=[descriptor] if descriptor else [], check=False, **how)

    def test_a_descriptor_that_is_closed(self):
        """None that the program opens itself is taken for it."""
        for number in (3, 4, 5, 6, 99, -1):
            run = self.run_with(None, "--status-fd", str(number))
            self.assertEqual((run.returncode, run.stdout), (2, b""), number)
            self.assertIn(b"can't open fd", run.stderr)
        run = self.run_with(None, "--logger-fd", "3", "--status-fd", "1")
        self.assertEqual((run.returncode, run.stdout), (2, b""))

    def test_a_descriptor_that_takes_nothing(self):
        """The exit status isn't that of a good signature, since the answer was lost."""
        with open("/dev/full", "wb") as full:
            self.assertEqual(self.run_with(full.fileno(), "--status-fd", str(full.fileno())).returncode, 2)
        read, write = os.pipe()
        os.close(read)
        self.assertEqual(self.run_with(write, "--status-fd", str(write)).returncode, 2)
        os.close(write)

    def test_a_file_for_status_lines(self):
        """makepkg asks so."""
        status = self.folder / "status"
        run = self.run_with(None, "--quiet", "--batch", "--status-file", str(status))
        self.assertEqual(run.returncode, 0)
        self.assertIn("[GNUPG:] TRUST_FULLY 0 pgp\n", status.read_text())

    def test_special_names(self):
        """GPGME asks so: signature and data by descriptors, text for people by another."""
        ends = [os.open(self.people.folder / name, os.O_RDONLY) for name in ("bob.detached", "data")]
        logger_read, logger_write = os.pipe()
        run = subprocess.run(
            [PROGRAM, "--enable-special-filenames", "--batch", "--no-sk-comments", "--status-fd", "1", "--no-tty",
             "--charset", "utf8", "--enable-progress-filter", "--exit-on-status-write-error", "--logger-fd",
             str(logger_write), "--verify", "--", f"-&{ends[0]}", f"-&{ends[1]}"],
            stdin=subprocess.DEVNULL, capture_output=True, env=self.host.environment, pass_fds=[*ends, logger_write],
            check=False)
        os.close(logger_write)
        with open(logger_read, "rb") as text:
            self.assertIn(b'Good signature from "Bob', text.read())
        self.assertEqual((run.returncode, run.stderr), (0, b""))
        self.assertIn(b"[GNUPG:] TRUST_FULLY 0 pgp\n", run.stdout)
        for end in ends:
            os.close(end)


class Services(Case):
    """A service that isn't there, or that answers something else."""

    def ask(self, socket_path, strict=False):
        self.host.configure(f'socket = "{socket_path}"\n' + ("strict = true\n" if strict else ""))
        return self.host.ours("--verify", "bob.detached", "data")

    def assert_broken(self, answer):
        self.assert_refused(answer)
        self.assertEqual(answer.words[-1], "FAILURE")

    @contextmanager
    def served_by(self, *replies):
        """A socket at which each line gets one of these replies, the last one again and again."""
        path = self.folder / "socket"
        with socket.socket(socket.AF_UNIX) as listener:
            listener.bind(str(path))
            listener.listen()

            def serve():
                connection, _ = listener.accept()
                with connection, connection.makefile("rb") as lines:
                    left = list(replies)
                    with suppress(OSError):  # It may be cut off at any moment.
                        for _ in lines:
                            connection.sendall(left.pop(0) if len(left) > 1 else left[0])
                            if not left[0]:
                                return

            serving = threading.Thread(target=serve, daemon=True)
            serving.start()
            yield path
            serving.join(30)

    def test_it_is_started(self):
        """It runs no longer, and the user has a keyring: so it is started, and holds nothing of the caller's open."""
        for name in ("data/tukyamid", "run", "bin"):
            (self.folder / name).mkdir(parents=True, mode=0o700)
        database = self.folder / "data/tukyamid/keyring.db"
        with closing(sqlite3.connect(self.host.home / "data/keyring.db")) as old:
            with closing(sqlite3.connect(database)) as new:
                old.backup(new)
        starting = f'exec {sys.executable} {SERVER} "$@" --engine {ENGINE} --database {database}'
        starter = self.write("bin/tukyamid-server", f"#!/bin/sh\n{starting}\n".encode())
        starter.chmod(0o755)
        environment = {"XDG_RUNTIME_DIR": str(self.folder / "run"), "XDG_DATA_HOME": str(self.folder / "data"),
                       "PATH": f"{self.folder}/bin:{self.host.environment['PATH']}"}
        try:
            answer = self.host.ours("--verify", "bob.detached", "data", environment=environment)
            self.assertEqual((answer.exit, answer.words[-1]), (0, "TRUST_FULLY"), answer.text)
        finally:
            with socket.socket(socket.AF_UNIX) as connection:
                connection.connect(str(self.folder / "run/tukyamid.socket"))
                peer = connection.getsockopt(socket.SOL_SOCKET, socket.SO_PEERCRED, 12)
            os.kill(struct.unpack("3i", peer)[0], signal.SIGTERM)

    def test_it_isnt_there(self):
        self.assert_broken(self.ask(self.folder / "nothing"))
        self.write("file", b"")
        self.assert_broken(self.ask(self.folder / "file"))

    def test_it_says_something_else(self):
        bob = self.people.gpg("--export", self.fpr["bob"]).hex().encode()
        held = b"service holders 1\nholder %s %s\n" % (self.fpr["bob"].encode(), bob)
        for replies in ([b"refused line\n"], [b"refused full holders\n"], [b"service holders x\n"], [b""],
                        [b"service holders 1\nholder x\n"], [b"service holders 1\nholder aa 0g\n"],
                        [held, b"ok\n", b"ok\n", b"ok\n", b"ok\n", b"refused view\n"],
                        [held, b"fault database\n"], [held, b"ok\n"], [held, b""],
                        [held, b"ok\n", b"ok\n", b"ok\n", b"ok\n", b"amount 120 paths 1\nnothing\n"],
                        [held, b"ok\n", b"ok\n", b"ok\n", b"ok\n", b"amount -1 paths 0\n"]):
            with self.subTest(replies=[reply[:60] for reply in replies]), self.served_by(*replies) as path:
                self.assert_broken(self.ask(path))
                path.unlink()

    def test_what_it_hands_over_is_verified(self):
        """A certificate that isn't the signer's, and octets that are none, make no good signature."""
        carol = self.people.gpg("--export", self.fpr["carol"]).hex().encode()
        for octets in (carol, b"00", b"", b"c6ff"):
            held = b"service holders 1\nholder %s %s\n" % (self.fpr["bob"].encode(), octets)
            with self.served_by(held, b"ok\n") as path:
                answer = self.ask(path, strict=True)
                path.unlink()
            self.assertEqual((answer.exit, answer.words), (2, ["NEWSIG", "ERRSIG", "NO_PUBKEY"]))


class Configurations(Case):
    def test_a_damaged_file(self):
        for text in ("[roots]\nabc = 1\n", "strikt = true\n", "[roots"):
            self.host.file.write_text(text)
            answer = self.host.ours("--verify", "bob.detached", "data")
            self.assertEqual((answer.exit, answer.words), (2, ["FAILURE"]), text)

    def test_one_that_others_may_write(self):
        self.host.file.chmod(0o666)
        answer = self.host.ours("--verify", "bob.detached", "data")
        self.assertEqual((answer.exit, answer.words), (2, ["FAILURE"]))
        self.assertIn("can be written by other users", answer.text)

    def test_a_file_that_a_variable_names(self):
        """It is read in place of the user's own, and it has to be there."""
        named = self.write("named.toml", f"[roots]\n{self.fpr['bob']} = 120\n".encode())
        named.chmod(0o600)
        environment = {"TUKYAMID_CONFIG": str(named)}
        for exit_status, last in (0, "TRUST_ULTIMATE"), (2, "FAILURE"):
            answer = self.host.ours("--verify", "bob.detached", "data", environment=environment)
            self.assertEqual((answer.exit, answer.words[-1]), (exit_status, last))
            named.unlink(missing_ok=True)

    def test_no_file_is_no_roots(self):
        self.host.file.unlink()
        answer = self.host.ours("--verify", "bob.detached", "data")
        self.assertEqual((answer.exit, answer.words[-1]), (0, "TRUST_UNDEFINED"))
        self.assertIn("no trust root is set", answer.text)
