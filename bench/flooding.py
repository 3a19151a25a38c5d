"""The program under a flood of lines: what it took, and what it held."""

import random
import subprocess
import threading
from collections.abc import Iterable, Iterator
from typing import IO

from developer import NOW, PROGRAM
from small import Certificate

# The processor seconds of each step of a flood, and the most megabytes that were held.
Seen = tuple[dict[str, float], float]


class Flood:
    """The program with a pipe to each side, read while it is written to."""

    def __init__(self) -> None:
        pipe = subprocess.PIPE
        self.process = subprocess.Popen([PROGRAM, "run"], stdin=pipe, stdout=pipe, bufsize=1 << 20)
        assert self.process.stdin and self.process.stdout
        self.lines: IO[bytes] = self.process.stdin
        self.replies: IO[bytes] = self.process.stdout
        self.spent = 0.0
        self.sent, self.is_sent = 0, False

    def feed(self, lines: Iterable[bytes]) -> None:
        for line in lines:
            self.sent += 1
            self.lines.write(line)
        self.lines.flush()
        self.is_sent = True

    def tell(self, lines: Iterable[bytes]) -> float:
        """Sends lines, and reads all of their replies; the processor seconds that this took."""
        self.exchange(lines)
        return self.step()

    def tell_whole(self, line: bytes) -> tuple[float, list[bytes]]:
        """The processor seconds of one line, and the lines behind the first one of its reply."""
        rest = self.exchange([line])
        return self.step(), rest

    def exchange(self, lines: Iterable[bytes]) -> list[bytes]:
        """Sends lines and reads their replies; what stood behind the first line of the last one."""
        self.sent, self.is_sent = 0, False
        feeder = threading.Thread(target=self.feed, args=(lines,))
        feeder.start()
        read, rest = 0, []
        while feeder.is_alive() or not self.is_sent or read < self.sent:
            if read >= self.sent:
                feeder.join(0.001)
                continue
            rest = self.follow(self.replies.readline())
            read += 1
        feeder.join()
        return rest

    def follow(self, line: bytes) -> list[bytes]:
        """Reads what stands behind the first line of a reply."""
        if not line or line.startswith(b"refused"):
            raise SystemExit(f"refused: {line!r}")
        if line.startswith(b"amount"):
            for _ in range(int(line.split()[3])):
                for _ in range(int(self.replies.readline().split()[3])):
                    self.replies.readline()
        elif line.startswith((b"list", b"dump")):
            return [self.replies.readline() for _ in range(int(line.split()[1]))]
        return []

    def step(self) -> float:
        """The processor seconds since the last step."""
        with open(f"/proc/{self.process.pid}/schedstat", encoding="ascii") as file:
            now = int(file.read().split()[0]) / 1e9
        before, self.spent = self.spent, now
        return now - before

    def end(self) -> float:
        """The most megabytes that were held."""
        with open(f"/proc/{self.process.pid}/status", encoding="ascii") as file:
            held = next(int(line.split()[1]) for line in file if line.startswith("VmHWM"))
        self.lines.close()
        self.replies.close()
        self.process.wait()
        return held / 1024


def keys(draw: random.Random, count: int) -> list[Certificate]:
    return [Certificate(draw, index) for index in range(count)]


def view(roots: Iterable[Certificate], amount: int = 120) -> Iterator[bytes]:
    yield b"view v time %d\n" % NOW
    for root in roots:
        yield b"view v root %s %d\n" % (root.fpr.hex().encode(), amount)


def ask(certificate: Certificate, amount: int = 120) -> bytes:
    return b"ask v %s %d %s\n" % (certificate.fpr.hex().encode(), amount, certificate.user_id)
