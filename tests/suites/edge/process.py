"""What the tests at the real edge share: the running program, its pipes and its state; scripts with long replies."""

import fcntl
import hashlib
import os
import select
import signal
import struct
import subprocess
import sys
import termios
import time
import unittest
from pathlib import Path

sys.path.insert(0, str(Path(__file__).resolve().parents[2]))
import plain

KEYS = b"keys 0\n"
PATIENCE = 600  # No machine is so slow.


def start(*words, **options):
    """Starts the program, with `run` where no words are given; what isn't said is a pipe."""
    pipes = {"stdin": subprocess.PIPE, "stdout": subprocess.PIPE, "stderr": subprocess.PIPE}
    return subprocess.Popen([plain.PROGRAM, *(words or ("run",))], bufsize=0, **{**pipes, **options})


def waiting(descriptor):
    """How many octets stand in a pipe."""
    return struct.unpack("i", fcntl.ioctl(descriptor, termios.FIONREAD, bytes(4)))[0]


def state_of(process):
    """The state of a process, as the system names it: S sleeps, T is stopped, Z has ended."""
    return Path(f"/proc/{process.pid}/stat").read_text().rpartition(")")[2].split()[0]


def wait_until(holds):
    end = time.monotonic() + PATIENCE
    while not holds():
        if time.monotonic() > end:
            raise AssertionError("it did not come to that in time")
        time.sleep(0.005)


def attribute_import(number, size):
    """A line that imports a key of its own with an attribute of this size."""
    key = b"\xc6\x07\x04" + number.to_bytes(4, "big") + b"\x1b\x01"
    return b"import " + (key + b"\xd1\xff" + size.to_bytes(4, "big") + bytes(size)).hex().encode() + b"\n"


def stop_and_go(process):
    """Stops the process and lets it go on: a call that waits ends short if it has moved anything, else it goes on."""
    process.send_signal(signal.SIGSTOP)
    wait_until(lambda: state_of(process) in "TZ")
    process.send_signal(signal.SIGCONT)
    wait_until(lambda: state_of(process) in "SZ")


def wait_until_stuck(process):
    """Waits until the process can't write more of a long reply (or has ended)."""
    wait_until(lambda: state_of(process) == "Z" or waiting(process.stdout) >= 4096 and state_of(process) == "S")
    time.sleep(0.05)


class Edge(unittest.TestCase):
    def ends(self, process, status):
        """The process ends with this status, and has written nothing to standard error."""
        self.assertEqual(process.wait(PATIENCE), status)
        if process.stderr:
            self.assertEqual(process.stderr.read(), b"")
        for pipe in (process.stdin, process.stdout, process.stderr):
            if pipe:
                pipe.close()

    def hears(self, process, expected):
        """The next that the process writes is this."""
        heard = b""
        while len(heard) < len(expected):
            ready, _, _ = select.select([process.stdout], [], [], PATIENCE)
            self.assertTrue(ready, f"no reply came; heard {heard!r}")
            heard += os.read(process.stdout.fileno(), 65536)
        self.assertEqual(heard, expected)

    def run_by_shell(self, redirection, script):
        """The status of the program with descriptors as a shell makes them, and what it wrote where that is a pipe."""
        command = ["sh", "-c", f'exec "$0" run {redirection}', plain.PROGRAM]
        ended = subprocess.run(command, input=script, capture_output=True, check=False, timeout=PATIENCE)
        self.assertEqual(ended.stderr, b"")
        return ended.returncode, ended.stdout


def long_replies(count):
    """A script whose exports have replies of 400,000 octets, and the replies. What is exported is what was imported."""
    line = attribute_import(1, 200000)
    name = fingerprint(bytes.fromhex("04000000011b01"))
    exported = line.replace(b"import", b"export")
    return line + b"export %s\n" % name * count, b"ok taken 1 skipped 0 new 2\n" + exported * count


def fingerprint(key):
    return hashlib.sha1(b"\x99" + len(key).to_bytes(2, "big") + key).hexdigest().encode()


def write_all(pipe, octets):
    """Writes and closes; it doesn't matter if the other end is gone."""
    try:
        write_pieces(pipe, octets)
        pipe.close()
    except BrokenPipeError:
        pass


def write_pieces(pipe, octets):
    rest = memoryview(octets)
    while rest:
        rest = rest[pipe.write(rest) :]


def read_all(descriptor):
    with open(descriptor, "rb") as pipe:
        return pipe.read()
