"""The words of `tukyamid web --public`, and the server from its start to its end."""

from __future__ import annotations

import asyncio
import os
import resource
import socket
import stat
from collections.abc import Callable, Sequence
from contextlib import AsyncExitStack

from ..client.socket_peers import HOST_SOCKETS
from ..command.exit_statuses import REACHED, NoAnswer, WrongWords
from ..command.output import write
from ..command.parsed_words import Given
from ..command.parser import Help, Parser, typed
from ..third_party import find_libraries
from .read_only_service import connect_read_only
from .root_sets import read_sets

HELP = """usage: tukyamid web --public [option..]

Serves the page and an API, which /api/v1/openapi.json describes, to everyone. It asks a read-only socket alone, changes
nothing, and reads nothing of your own but sets of trust roots. Put a web server before it (docs/PUBLIC.md)."""
PATIENCE = 30.0


class Words(Given):
    """The words of `tukyamid web --public`."""
    socket: str
    listen: str
    metrics: str | None
    roots: list[str]
    proxy: list[str]
    workers: int
    seconds: float
    rate: float
    connections: int
    fresh: int


def parser() -> Parser:
    """The parser of its words."""
    made = Parser(prog="tukyamid web", description=HELP, add_help=False, allow_abbrev=False, formatter_class=Help)
    add = made.add_argument_group("for everyone").add_argument
    add("--public", action="store_true", required=True, help="answer everyone, and change nothing")
    add("--listen", metavar="ADDRESS", default="127.0.0.1:8475", help="HOST:PORT or unix:PATH (127.0.0.1:8475)")
    add("--socket", metavar="PATH", default=HOST_SOCKETS[1], help=f"the service's read-only socket ({HOST_SOCKETS[1]})")
    add("--roots", metavar="NAME=FILE", action="append", default=[],
        help="a set of trust roots: a file with a table [roots]; the first set is the default one (the sets of the "
        "configuration file)")
    add("--proxy", metavar="ADDRESS", action="append", default=[],
        help="an address or network whose X-Forwarded-For or Forwarded is believed; one at a Unix socket always is")
    add("--metrics", metavar="ADDRESS", help="where Prometheus reads /metrics, as for --listen (nowhere)")
    add("--workers", metavar="N", type=typed(_within(int, 1, 64)), default=max(2, os.cpu_count() or 2),
        help="how many processes answer questions (one for each processor)")
    add("--seconds", metavar="N", type=typed(_within(float, 0.1, 600)), default=10.0,
        help="how long a question may take (10)")
    add("--rate", metavar="N", type=typed(_within(float, 0.001, 1e9)), default=20.0,
        help="how many requests a second an address may send; five times as many at once (20)")
    add("--connections", metavar="N", type=typed(_within(int, 1, 100_000)), default=1024,
        help="how many connections there may be (1024)")
    add("--fresh", metavar="N", type=typed(_within(int, 0, 3600)), default=5,
        help="for how many seconds a cache may keep an answer without asking again (5)")
    add("--help", "-h", action="store_true", help="print this help and exit")
    return made


def _within(kind: Callable[[str], float], least: float, most: float) -> Callable[[str], float]:
    def read(text: str) -> float:
        try:
            value = kind(text)
        except ValueError:
            raise ValueError(f"{text!r} isn't a number") from None
        if not least <= value <= most:
            raise ValueError(f"{text} isn't a number from {least:g} to {most:g}")
        return value
    return read


def run(words: Sequence[str]) -> int:
    """Serves until the command is interrupted, and returns the exit status."""
    made = parser()
    given = made.parse_args(words, Words())
    if given.help:
        write(made.format_help())
        return REACHED
    find_libraries()
    try:
        asyncio.run(_serve(given))
    except ModuleNotFoundError as error:
        if (error.name or "").partition(".")[0] == "tukyamid":
            raise  # A part of the package.
        raise NoAnswer(f"it needs Python's {error.name}: apt-get install python3-aiohttp, and start it again") from None
    return REACHED


async def _serve(given: Words) -> None:
    from .answers import Answers
    from .client_limits import Origins, read_networks
    from .http_server import Bounds, Parts, Server
    from .last_change import LastChange
    from .metrics import Metrics
    from .metrics_server import serve_metrics
    from .page_files import read_public_files
    from .workers import Workers
    try:
        origins = Origins(read_networks(given.proxy))
    except ValueError as error:
        raise WrongWords(f"--proxy: {error}") from None
    sets = read_sets(given.roots)
    connect_read_only(given.socket, PATIENCE).close()
    async with AsyncExitStack() as stack:
        last, workers = LastChange(given.socket), Workers(given.socket, given.workers, given.seconds)
        stack.push_async_callback(last.close)
        stack.push_async_callback(workers.close)
        answers = Answers(workers, last)
        stack.push_async_callback(answers.close)
        parts = Parts(last, workers, answers, Metrics(), sets, origins, read_public_files())
        _take_many(given.connections)
        burst = max(1.0, 5 * given.rate)
        server = Server(parts, Bounds(given.seconds, given.rate, burst, given.connections, fresh=given.fresh))
        if given.metrics is not None:
            await serve_metrics(parts.metrics, listening(given.metrics), stack)
        bound = listening(given.listen)
        await server.run(bound, lambda: write(f"{_address(bound)}\n"))


def listening(words: str) -> socket.socket:
    """A socket that is bound to HOST:PORT or unix:PATH. A socket that nobody listens at any more is replaced."""
    try:
        if words.startswith("unix:"):
            return _unix(words.removeprefix("unix:"))
        host, colon, port = words.rpartition(":")
        if not colon or not port.isdecimal() or int(port) > 65535:
            raise WrongWords(f"{words!r} is neither HOST:PORT nor unix:PATH")
        host = host.strip("[]")
        bound = socket.socket(socket.AF_INET6 if ":" in host else socket.AF_INET, socket.SOCK_STREAM)
        bound.setsockopt(socket.SOL_SOCKET, socket.SO_REUSEADDR, 1)
        bound.bind((host, int(port)))
        return bound
    except OSError as error:
        raise NoAnswer(f"nothing can listen at {words}: {error.strerror or error}") from None


def _unix(path: str) -> socket.socket:
    bound = socket.socket(socket.AF_UNIX, socket.SOCK_STREAM)
    if os.path.exists(path) and stat.S_ISSOCK(os.stat(path).st_mode):
        try:
            bound.connect(path)
        except ConnectionRefusedError:
            os.unlink(path)
        else:
            raise NoAnswer(f"somebody listens at {path} already")
    bound.bind(path)
    os.chmod(path, 0o666)
    return bound


def _address(bound: socket.socket) -> str:
    name = bound.getsockname()
    if bound.family == socket.AF_UNIX:
        return f"unix:{name}"
    return f"http://[{name[0]}]:{name[1]}/" if bound.family == socket.AF_INET6 else f"http://{name[0]}:{name[1]}/"


def _take_many(connections: int) -> None:
    """Has this process open as many files as it needs for all connections, if it may."""
    soft, hard = resource.getrlimit(resource.RLIMIT_NOFILE)
    wanted = connections + 512
    if soft < wanted:
        resource.setrlimit(resource.RLIMIT_NOFILE, (min(wanted, hard), hard))
