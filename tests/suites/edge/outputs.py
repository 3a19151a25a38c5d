"""Real output: devices and pipes that are full, closed or take a part, and when each reply is written."""

import os
import resource
import select
import signal
import tempfile
import threading
import time
from pathlib import Path

from process import (KEYS, PATIENCE, Edge, long_replies, read_all, start, stop_and_go, wait_until_stuck, waiting,
                     write_all, write_pieces)


class Output(Edge):
    def test_a_full_device(self):
        if not os.path.exists("/dev/full"):
            self.skipTest("there is no /dev/full here")
        self.assertEqual(self.run_by_shell(">/dev/full", b"keys\n")[0], 4)
        self.assertEqual(self.run_by_shell(">/dev/full", b"# nothing to say\n")[0], 0)

    def test_a_closed_output(self):
        self.assertEqual(self.run_by_shell(">&-", b"keys\n")[0], 4)
        self.assertEqual(self.run_by_shell(">&-", b"# nothing to say\n")[0], 0)

    def test_an_output_that_nobody_reads(self):
        """A pipe without a reader; no signal ends the program."""
        ours, theirs = os.pipe()
        os.close(ours)
        process = start(stdout=theirs)
        os.close(theirs)
        process.stdin.write(b"keys\n")
        self.ends(process, 4)

    def limited_file(self, script, most):
        """The status and the output if the size of a file is limited: a short write, then a fault."""

        def limit():
            signal.signal(signal.SIGXFSZ, signal.SIG_IGN)
            resource.setrlimit(resource.RLIMIT_FSIZE, (most, most))

        with tempfile.NamedTemporaryFile() as file:
            process = start(stdout=file.fileno(), preexec_fn=limit)
            process.stdin.write(script)
            process.stdin.close()
            self.ends(process, 0 if most >= len(KEYS) * 3 else 4)
            return Path(file.name).read_bytes()

    def test_a_file_that_may_not_grow(self):
        """A short write of the last reply is not taken for a whole one."""
        whole = KEYS * 3
        for most in range(len(whole) + 2):
            with self.subTest(most=most):
                self.assertEqual(self.limited_file(b"keys\n" * 3, most), whole[:most])

    def test_a_pipe_that_is_full(self):
        """A full pipe that doesn't wait takes a part of a long reply, and then nothing."""
        ours, theirs = os.pipe()
        os.set_blocking(theirs, False)
        process = start(stdout=theirs)
        os.close(theirs)
        script, replies = long_replies(1)
        writer = threading.Thread(target=write_all, args=(process.stdin, script))
        writer.start()
        self.assertEqual(process.wait(PATIENCE), 4)
        writer.join()
        self.ends(process, 4)
        written = read_all(ours)
        self.assertTrue(0 < len(written) < len(replies))
        self.assertEqual(written, replies[: len(written)])

    def test_short_writes(self):
        """Each write of a long reply is cut short some times, and nothing is lost or said twice."""
        script, replies = long_replies(3)
        process = start()
        writer = threading.Thread(target=write_all, args=(process.stdin, script))
        writer.start()
        heard = b""
        for _ in range(6):
            wait_until_stuck(process)
            stop_and_go(process)
            heard += os.read(process.stdout.fileno(), 50000)
        heard += process.stdout.read()
        writer.join()
        self.assertEqual(heard, replies)
        self.ends(process, 0)


class Turns(Edge):
    """For each line the reply is written whole before more is read."""

    def test_a_reply_comes_while_the_input_is_open(self):
        process = start()
        process.stdin.write(b"keys\n")
        self.hears(process, KEYS)
        process.stdin.write(b"# silent\n\nview p time 5\n")
        self.hears(process, b"ok\n")
        process.stdin.write(b"view p close\nview p close\n")
        self.hears(process, b"ok\nrefused view\n")
        process.stdin.close()
        self.ends(process, 0)

    def test_a_begun_line_has_no_reply_yet(self):
        process = start()
        process.stdin.write(b"keys\nke")
        self.hears(process, KEYS)
        self.assertEqual(select.select([process.stdout], [], [], 0.3)[0], [])
        process.stdin.write(b"ys\n")
        self.hears(process, KEYS)
        process.stdin.close()
        self.ends(process, 0)

    def test_nothing_is_read_before_a_reply_is_written(self):
        script, replies = long_replies(1)
        process = start()
        write_pieces(process.stdin, script)
        wait_until_stuck(process)
        process.stdin.write(b"view p close\n")
        time.sleep(0.3)
        self.assertEqual(waiting(process.stdin), len(b"view p close\n"))
        process.stdin.close()
        self.assertEqual(process.stdout.read(), replies + b"refused view\n")
        self.ends(process, 0)
