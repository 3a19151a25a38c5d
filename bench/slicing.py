"""What `bench/slices` and `bench/shared` measure: a service over a keyring that is larger than an engine may hold."""

import asyncio
import os
import random
import statistics
import sys
import time
from collections.abc import AsyncIterator
from contextlib import asynccontextmanager
from pathlib import Path

import developer
from network import NOW, Network
from record import Record

TOP = Path(developer.TOP)
SERVER = TOP / "python/bin/tukyamid-server"
SECONDS, MILLISECONDS = "s", "ms"
STARTS = 5


class Talk:
    """One client: a line, then the first line of its reply; the others are passed over."""

    def __init__(self, reader: asyncio.StreamReader, writer: asyncio.StreamWriter) -> None:
        self.reader, self.writer = reader, writer

    async def ask(self, line: bytes) -> bytes:
        self.writer.write(line + b"\n")
        first = await self.reader.readline()
        words = first.split()
        if words[0] == b"amount":
            for _ in range(int(words[3])):
                for _ in range(int((await self.reader.readline()).split()[3])):
                    await self.reader.readline()
        elif words[0] in (b"list", b"service"):
            for _ in range(int(words[-1])):
                await self.reader.readline()
        elif words[:2] == [b"absence", b"missed"]:
            await self.reader.readline()
        elif words[0] not in (b"ok", b"absence"):
            sys.exit(f"a reply: {first!r}")
        return first

    async def status(self) -> dict[bytes, bytes]:
        self.writer.write(b"service status\n")
        count = int((await self.reader.readline()).split()[2])
        lines = [await self.reader.readline() for _ in range(count)]
        return dict((words[0], words[1]) for words in map(bytes.split, lines))

    async def timed(self, line: bytes) -> float:
        """Milliseconds up to the end of the reply."""
        begun = time.perf_counter()
        await self.ask(line)
        return 1000 * (time.perf_counter() - begun)


def environment(folder: Path) -> dict[str, str]:
    """Has Python keep what it has compiled, as an installed package does."""
    kept = {name: value for name, value in os.environ.items() if name != "PYTHONDONTWRITEBYTECODE"}
    return {**kept, "PYTHONPYCACHEPREFIX": str(folder / "compiled")}


@asynccontextmanager
async def served(folder: Path, database: Path | str) -> AsyncIterator[Talk]:
    """A service on a database's file, or on a shared one by its URL."""
    path = folder / "tukyamid.socket"
    server = await asyncio.create_subprocess_exec(
        SERVER, "--socket", path, "--database", database, "--engine", developer.PROGRAM, env=environment(folder))
    try:
        while True:
            try:
                reader, writer = await asyncio.open_unix_connection(str(path))
                break
            except OSError:
                await asyncio.sleep(0.005)
        yield Talk(reader, writer)
        writer.close()
    finally:
        server.terminate()
        await server.wait()


def processor_ms(pid: int) -> float:
    """Milliseconds that a process has taken of processors."""
    fields = Path(f"/proc/{pid}/stat").read_text().rpartition(")")[2].split()
    return 1000 * (int(fields[11]) + int(fields[12])) / os.sysconf("SC_CLK_TCK")


def children(pid: int) -> list[int]:
    return [int(one) for file in Path(f"/proc/{pid}/task").glob("*/children") for one in file.read_text().split()]


class Bench:
    """Measures, and notes what was measured. Questions are on a network's certificates, by its first key."""
    pid = change = 0
    wanted = 3.0  # Milliseconds for a question on a certificate that isn't loaded, in the median.

    def __init__(self, made: Network, database: Path | str, questions: int, notes: Record) -> None:
        self.made, self.database, self.count, self.notes = made, database, questions, notes
        self.draw = random.Random(7)
        self.root = made.fingerprint(0).hex()

    def note(self, name: str, value: float, unit: str, wanted: float | None = None) -> None:
        """Notes a figure. What is wanted is for an idle machine, so it is no limit that a night would fail at."""
        print(f"{name:92} {value:12,.2f} {unit:5} {'' if wanted is None else f'(wanted: {wanted:g})'}", flush=True)
        self.notes.add(name, value, unit, wanted=wanted)

    def taken(self) -> tuple[float, float]:
        """Milliseconds of processors that the service has taken, and its engines."""
        return processor_ms(self.pid), sum(map(processor_ms, children(self.pid)))

    def note_all(self, name: str, times: list[float], before: tuple[float, float], wanted: float | None = None,
                 wanted_p99: float | None = None) -> None:
        """Notes the median and the p99 of some times, and the processor time of each on average."""
        service, engines = (after - earlier for after, earlier in zip(self.taken(), before))
        ordered = sorted(times)
        self.note(f"{name}, median", statistics.median(ordered), MILLISECONDS, wanted)
        self.note(f"{name}, p99", ordered[len(ordered) * 99 // 100], MILLISECONDS, wanted_p99)
        self.note(f"{name}, processor time of the service", service / len(times), MILLISECONDS)
        self.note(f"{name}, processor time of its engine", engines / len(times), MILLISECONDS)

    def question(self, index: int) -> bytes:
        return f"ask v {self.made.fingerprint(index).hex()} 120 ".encode() + self.made.user_id(index)

    @asynccontextmanager
    async def started(self, folder: Path) -> AsyncIterator[tuple[Talk, float]]:
        """A service, and after how many seconds it gave its first answer."""
        begun = time.perf_counter()
        async with served(folder, self.database) as talk:
            for line in (f"view v time {NOW}", f"view v root {self.root} 120"):
                await talk.ask(line.encode())
            await talk.ask(self.question(self.draw.randrange(self.made.count)))
            seconds = time.perf_counter() - begun
            status = await talk.status()
            self.pid, self.change = int(status[b"process"]), int(status[b"change"])
            yield talk, seconds

    async def starts(self, folder: Path) -> float:
        """The median of some starts up to their first answers."""
        times = []
        for _ in range(STARTS):
            async with self.started(folder) as (_, seconds):
                times.append(seconds)
        return statistics.median(times)

    async def questions(self, talk: Talk, where: str = "") -> None:
        indexes = [self.draw.randrange(self.made.count) for _ in range(self.count)]
        before = self.taken()
        times = [await talk.timed(self.question(index)) for index in indexes]
        self.note_all(f"question on a certificate that isn't loaded{where}", times, before, self.wanted, 20)

    async def again(self, talk: Talk) -> None:
        indexes = [self.draw.randrange(self.made.count) for _ in range(self.count // 10)]
        line = self.question(indexes[0])
        before = self.taken()
        times = [await talk.timed(line) for _ in range(self.count)]
        self.note_all("the same question again and again", times, before)
        asked = [self.question(index).replace(b"ask v", b"absence v", 1) for index in indexes]
        before = self.taken()
        times = [await talk.timed(line) for line in asked]
        self.note_all("absence for a certificate", times, before)

    async def changes(self, talk: Talk) -> None:
        self.draw.seed(self.change)  # Changes that an earlier run hasn't made.
        lines = [f"verdict {self.draw.randbytes(32).hex()} bad".encode() for _ in range(self.count // 10)]
        before = self.taken()
        self.note_all("a verdict, on the disk", [await talk.timed(line) for line in lines], before)
        lines = [line async for line in self.imports()]
        before = self.taken()
        times = [await talk.timed(line) for line in lines]
        self.note_all("an import of one more signature, on the disk", times, before)

    async def imports(self) -> AsyncIterator[bytes]:
        """Certificates of the network with one more signature each."""
        for _ in range(self.count // 10):
            index = self.draw.randrange(self.made.count)
            body = developer.signature(self.draw, 0x10, NOW, self.made.fingerprint(0), material=66)
            octets = developer.packet(6, self.made.key(index)) + developer.packet(13, self.made.user_id(index))
            yield b"import " + (octets + developer.packet(2, body)).hex().encode()

    async def all(self, talk: Talk) -> None:
        """What is measured in one service."""
        self.note("processor time of the service up to its first answer", self.taken()[0], MILLISECONDS)
        self.note("service status", await talk.timed(b"service status"), MILLISECONDS)
        await self.questions(talk)
        await self.again(talk)
        await self.changes(talk)
        self.note("memory of service and engines", int((await talk.status())[b"memory"]) / 1e6, "MB", 300)
        self.note("list from the root that certified most", await talk.timed(b"list v 120") / 1000, SECONDS)
        status = await talk.status()
        self.note("kept", int(status[b"certificates"]), "certificates")
        self.note("of these, loaded", int(status[b"loaded"]), "certificates")
