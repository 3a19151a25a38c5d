"""The program with a pipe to each side, asked line for line."""

import subprocess
import time
from collections.abc import Iterable
from typing import IO

from developer import PROGRAM


class Session:
    """One process of the program."""

    def __init__(self, *scripts: Iterable[bytes], program: str = PROGRAM) -> None:
        """Starts the program, and sends it the lines of these scripts."""
        self.process = subprocess.Popen([program, "run"], stdin=subprocess.PIPE, stdout=subprocess.PIPE)
        assert self.process.stdin and self.process.stdout
        self.lines: IO[bytes] = self.process.stdin
        self.replies: IO[bytes] = self.process.stdout
        for script in scripts:
            for line in script:
                self.tell(line)

    def tell(self, line: bytes) -> tuple[bytes, float]:
        """The first line of the reply, and the microseconds until all of it was there."""
        before = time.perf_counter()
        self.lines.write(line)
        self.lines.flush()
        reply = self.replies.readline()
        if reply.startswith(b"amount"):
            for _ in range(int(reply.split()[3])):
                for _ in range(int(self.replies.readline().split()[3])):
                    self.replies.readline()
        elif reply.startswith((b"list", b"piece")):
            for _ in range(int(reply.split()[1])):
                self.replies.readline()
        passed = time.perf_counter() - before
        if not reply or reply.startswith(b"refused"):
            raise SystemExit(f"{line[:60]!r}: {reply!r}")
        return reply, passed * 1e6

    def spent(self) -> float:
        """The microseconds of processor time that the program has taken, with those of its system calls."""
        with open(f"/proc/{self.process.pid}/schedstat", encoding="ascii") as times:
            return int(times.read().split()[0]) / 1e3

    def held(self) -> float:
        """The megabytes that the program holds."""
        with open(f"/proc/{self.process.pid}/status", encoding="ascii") as status:
            return next(int(line.split()[1]) / 1e3 for line in status if line.startswith("VmRSS"))

    def watched(self) -> float:
        """The microseconds until all that watches report behind the last line is there."""
        before = time.perf_counter()
        self.lines.write(b"?\n")
        self.lines.flush()
        while self.replies.readline() != b"refused line\n":
            pass
        return (time.perf_counter() - before) * 1e6

    def end(self) -> None:
        self.lines.close()
        self.process.wait()
