"""What `bench/server` measures: a keyring in a database, a service over it, the engine alone, and clients of both."""

from __future__ import annotations

import contextlib
import os
import random
import shutil
import socket
import subprocess
import sys
import threading
import time
from collections.abc import Iterator, Sequence
from concurrent.futures import ProcessPoolExecutor
from multiprocessing import get_context
from pathlib import Path

import developer

TOP = Path(developer.TOP)
sys.path.insert(0, str(TOP / "python"))

from tukyamid.service.engines.framing import ReplyCutter  # noqa: E402
from tukyamid.service.storage.sqlite_database import Sqlite  # noqa: E402

SERVER = TOP / "python/bin/tukyamid-server"
PYTHON = "/usr/bin/python3"
DEBIAN = Path("/usr/share/keyrings/debian-keyring.gpg")
PIECE = 1 << 18
# The service as it runs where uvloop isn't installed.
WITHOUT_UVLOOP = ("import sys; sys.modules['uvloop'] = None; sys.path.insert(0, sys.argv.pop(1)); "
                  "from tukyamid.service.server_command import main; sys.exit(main())")
Span = tuple[float, float]


class Talk:
    """A conversation in lines: over a socket, or the pipes of a program."""

    def __init__(self, reading: int, writing: int) -> None:
        self._reading, self._writing = reading, writing
        self._cutter = ReplyCutter()

    def process(self) -> int:
        """The process at the other end of a socket."""
        with socket.socket(fileno=os.dup(self._reading)) as other:
            return int.from_bytes(other.getsockopt(socket.SOL_SOCKET, socket.SO_PEERCRED, 4), sys.byteorder)

    def receive(self) -> int:
        """How many replies have come, at least one."""
        count = 0
        while not count:
            octets = os.read(self._reading, PIECE)
            if not octets:
                sys.exit("the other side has ended")
            for reply in self._cutter.cut(octets):
                count += 1
                if not reply.startswith((b"ok", b"amount ", b"refused line")):
                    sys.exit(f"a reply: {reply[:200]!r}")
        return count

    def ask(self, lines: Sequence[bytes], ahead: int = 1) -> Span:
        """Sends these lines, at most `ahead` of them before their replies: from when to when that was."""
        begun, sent, answered = time.perf_counter(), 0, 0
        while answered < len(lines):
            following = lines[sent:answered + ahead]
            if following:
                os.write(self._writing, b"".join(following))
                sent += len(following)
            answered += self.receive()
        return begun, time.perf_counter()


@contextlib.contextmanager
def connected(path: Path) -> Iterator[Talk]:
    with socket.socket(socket.AF_UNIX) as connection:
        connection.connect(str(path))
        yield Talk(connection.fileno(), connection.fileno())


def talk(path: Path, front: Sequence[bytes], lines: Sequence[bytes], ahead: int) -> Span:
    """One client: how long its lines took, behind those that come first."""
    with connected(path) as client:
        client.ask(front)
        return client.ask(lines, ahead)


def rate(path: Path, front: Sequence[bytes], shares: Sequence[Sequence[bytes]], ahead: int) -> float:
    """Lines a second, where each client is a process that sends one of the shares."""
    with ProcessPoolExecutor(len(shares), mp_context=get_context("fork")) as pool:
        spans = list(pool.map(talk, *zip(*((path, front, share, ahead) for share in shares))))
    return sum(map(len, shares)) / (max(end for _, end in spans) - min(begun for begun, _ in spans))


@contextlib.contextmanager
def alone(script: bytes) -> Iterator[Talk]:
    """The engine alone, which has read a script."""
    with subprocess.Popen([developer.PROGRAM, "run"], stdin=subprocess.PIPE, stdout=subprocess.PIPE) as program:
        assert program.stdin is not None and program.stdout is not None
        feeding = threading.Thread(target=_feed, args=(program.stdin.fileno(), script))
        feeding.start()
        engine = Talk(program.stdout.fileno(), program.stdin.fileno())
        left = script.count(b"\n")
        while left:
            left -= engine.receive()
        feeding.join()
        yield engine
        program.stdin.close()


def _feed(writing: int, octets: bytes) -> None:
    left = memoryview(octets)
    while left:
        left = left[os.write(writing, left[:PIECE]):]


class Served:
    """A service that runs and has loaded the keyring, and how long it took up to its first answer."""

    def __init__(self, folder: Path, *options: str, has_uvloop: bool = True) -> None:
        self.path = folder / "tukyamid.socket"
        server: list[str | Path] = [SERVER] if has_uvloop else [PYTHON, "-c", WITHOUT_UVLOOP, TOP / "python"]
        begun = time.perf_counter()
        self.process = subprocess.Popen([*server, "serve", "--socket", self.path, "--database", database(folder),
                                         "--engine", developer.PROGRAM, *options])
        while not self._answers():
            time.sleep(0.002)
        self.seconds = time.perf_counter() - begun
        with connected(self.path) as client:
            client.ask([b"view v time 1\n", b"cursor c over v 1\n"])  # It waits for the whole keyring.

    def _answers(self) -> bool:
        with contextlib.suppress(OSError), connected(self.path) as client:
            client.ask([b"view v time 1\n", b"ask v %s 1 nobody\n" % (b"0" * 40)])
            return True
        return False

    def __enter__(self) -> Served:
        return self

    def __exit__(self, *_: object) -> None:
        self.process.terminate()
        self.process.wait()

    def engines(self) -> int:
        """How many engines it has now."""
        tasks = Path(f"/proc/{self.process.pid}/task").glob("*/children")
        return sum(len(file.read_text().split()) for file in tasks)

    def processor_seconds(self) -> float:
        """The processor time of the service's own process so far."""
        fields = Path(f"/proc/{self.process.pid}/stat").read_text().rpartition(")")[2].split()
        return (int(fields[11]) + int(fields[12])) / os.sysconf("SC_CLK_TCK")


def database(folder: Path) -> Path:
    return folder / "tukyamid" / "keyring.db"


class Keyring:
    """A script, a database that has it, a time, a root, and bindings to ask for that the root reaches."""

    def __init__(self, folder: Path, size: int | None) -> None:
        verifier = os.environ.get("TUKYAMID_VERIFIER") or shutil.which("wot-verdicts")
        self.file = DEBIAN if size is None and verifier and DEBIAN.exists() else None
        self.time = int(time.time()) if self.file else developer.NOW
        path = folder / "script"
        with open(path, "wb") as script:
            if self.file:
                subprocess.run([str(verifier), self.file], stdout=script, stderr=subprocess.DEVNULL, check=False)
            else:
                developer.write_script(script, developer.developer()[:size])
        self.script = path.read_bytes()
        database(folder).parent.mkdir()
        subprocess.run([SERVER, "import-dump", "--database", database(folder), "--engine", developer.PROGRAM, path],
                       check=True)
        self.root, self.bindings = self._choose(folder)

    def _choose(self, folder: Path) -> tuple[str, list[tuple[bytes, bytes]]]:
        """The root that reaches most, of some, and all that it reaches."""
        with contextlib.closing(Sqlite(database(folder))) as kept, contextlib.closing(kept.finder()) as finder:
            fprs = sorted({one.fpr for one in finder.by_part("@")})
        some = [*fprs[:1], *random.Random(3).sample(fprs, min(12, len(fprs)))]
        lines = [line for fpr in some for line in (b"view r time %d\n" % self.time, b"view r root %s 120\n" %
                                                   fpr.encode(), b"list r 120\n", b"view r close\n")]
        done = subprocess.run([developer.PROGRAM, "run"], input=self.script + b"".join(lines), capture_output=True,
                              check=True)
        lists = [reply for reply in ReplyCutter().cut(done.stdout) if reply.startswith(b"list ")]
        most = max(range(len(some)), key=lambda place: int(lists[place].split(b"\n", 1)[0].split(b" ")[1]))
        bound = [line.split(b" ", 3)[2:] for line in lists[most].splitlines()[1:]]
        return some[most], [(fpr, user_id) for fpr, user_id in bound]

    def questions(self, count: int, seed: int) -> list[bytes]:
        draw = random.Random(seed)
        return [b"ask v %s %d %s\n" % (fpr, draw.randrange(1, 241), user_id)
                for fpr, user_id in (draw.choice(self.bindings) for _ in range(count))]

    def view(self) -> list[bytes]:
        return [b"view v time %d\n" % self.time, b"view v root %s 120\n" % self.root.encode()]
