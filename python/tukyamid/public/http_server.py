"""The server for everyone: questions by GET alone, with what caches need, within the bounds of each address."""

from __future__ import annotations

import asyncio
import json
import logging
import math
import signal
import socket
import time
from collections.abc import Callable, Mapping
from contextlib import AsyncExitStack
from pathlib import Path
from typing import NamedTuple

from aiohttp import web

from ..protocol.refusals import TukyamidError
from ..web.guard import HEADERS
from .answers import Answer, Answers
from .api_questions import NEEDED, Question, read_question
from .client_limits import Origins, Rates
from .connections import Gates
from .last_change import LastChange
from .metrics import Metrics
from .page_files import File
from .page_questions import CALLS, begin_of, read_page_question
from .root_sets import Sets
from .workers import Refusal, Workers

OPENAPI = Path(__file__).with_name("openapi.json")
NEVER = {"Cache-Control": "no-store"}
LATER = 5
COST_OF_FILE = 0.1  # The page has fifty files, and they cost little.
JSON = "application/json; charset=utf-8"


class Bounds(NamedTuple):
    """What one question, one address and all connections may take, and for how long caches may keep an answer."""
    seconds: float = 10.0
    rate: float = 20.0
    burst: float = 100.0
    connections: int = 1024
    patience: float = 20.0
    fresh: int = 5


class Parts(NamedTuple):
    """What the server is made of."""
    last: LastChange
    workers: Workers
    answers: Answers
    metrics: Metrics
    sets: Sets
    origins: Origins
    files: Mapping[str, File]


class Server:
    """Answers over sockets that listen already."""

    def __init__(self, parts: Parts, bounds: Bounds) -> None:
        self._parts, self._bounds = parts, bounds
        self._rates = Rates(bounds.rate, bounds.burst, asyncio.get_running_loop().time)
        self._gates = Gates(bounds.connections, bounds.patience)
        self._openapi = OPENAPI.read_bytes()
        parts.metrics.figures.update(
            connections=("Open connections.", lambda: len(self._gates)),
            connections_ended=("Connections that took or sent too much.", lambda: self._gates.ended),
            connections_refused=("Connections beyond the bound.", lambda: self._gates.refused),
            workers_busy=("Processes that answer a question.", lambda: parts.workers.busy),
            questions_waiting=("Questions that aren't answered yet.", lambda: parts.workers.waiting))

    async def run(self, listening: socket.socket, begun: Callable[[], None]) -> None:
        """Serves until the process gets a signal to end."""
        loop, ended = asyncio.get_running_loop(), asyncio.Event()
        for number in signal.SIGINT, signal.SIGTERM, signal.SIGHUP:
            loop.add_signal_handler(number, ended.set)
        server = web.Server(self._handle, access_log=None, logger=_silent(), lingering_time=1.0,
                            keepalive_timeout=self._bounds.patience)
        async with AsyncExitStack() as stack:
            serving = await loop.create_server(self._gates.factory(server), sock=listening, backlog=512) \
                if listening.family != socket.AF_UNIX \
                else await loop.create_unix_server(self._gates.factory(server), sock=listening, backlog=512)
            stack.push_async_callback(server.shutdown, 1.0)
            stack.callback(serving.close)
            sweeping = asyncio.create_task(self._gates.sweep())
            stack.callback(sweeping.cancel)
            begun()
            await ended.wait()

    async def _handle(self, request: web.BaseRequest) -> web.StreamResponse:
        began = time.monotonic()
        self._gates.renew(request.transport, 4 * self._bounds.seconds)
        call, response = await self._answered(request)
        self._parts.metrics.count(call, response.status, time.monotonic() - began)
        for name, value in HEADERS.items():
            response.headers.setdefault(name, value)
        self._gates.renew(request.transport, self._bounds.patience)
        return response

    async def _answered(self, request: web.BaseRequest) -> tuple[str, web.Response]:
        """The call that a request is, and the response to it."""
        path, _, query = request.raw_path.partition("?")
        if request.method not in ("GET", "HEAD"):
            return "other", web.Response(status=405, body=_error("only GET and HEAD are answered here"),
                                         headers={**NEVER, "Content-Type": JSON, "Allow": "GET, HEAD"})
        if path == "/health":
            return "health", web.Response(text="ok\n", headers=NEVER)
        if path == "/ready":
            return "ready", await self._ready()
        file = self._parts.files.get(path)
        cost = 1.0 if file is None else COST_OF_FILE
        if after := self._rates.wait(self._parts.origins.of(_peer(request), _forwarded(request)), cost):
            self._parts.metrics.refused["rate"] += 1
            return "other", _failure(429, "too many requests come from this address", math.ceil(after))
        if path.startswith("/api/v1/"):
            return await self._api(request, path.removeprefix("/api/v1/"), query)
        if path.startswith("/call/"):
            return await self._page_call(request, path.removeprefix("/call/"), query)
        if file is not None:
            return "file", _file(request, file)
        return "other", _failure(404, "not here: / is the page, and /api/v1/openapi.json describes the API")

    async def _page_call(self, request: web.BaseRequest, call: str, query: str) -> tuple[str, web.Response]:
        if call == "begin":
            return "page/begin", await self._asked(request, lambda: begin_of(self._parts.sets))
        if call not in CALLS:
            return "other", _failure(404, "the page for everyone doesn't offer this")
        return f"page/{call}", await self._asked(request, lambda: read_page_question(call, query, self._parts.sets))

    async def _api(self, request: web.BaseRequest, call: str, query: str) -> tuple[str, web.Response]:
        if call == "openapi.json":
            return call, web.Response(body=self._openapi, headers={"Content-Type": JSON, "Cache-Control": "public, "
                                                                   "max-age=3600", "Access-Control-Allow-Origin": "*"})
        if call not in NEEDED:
            return "other", _failure(404, "the API has no such call: /api/v1/openapi.json describes it")
        response = await self._asked(request, lambda: read_question(call, query, self._parts.sets))
        response.headers["Access-Control-Allow-Origin"] = "*"
        response.headers["Cross-Origin-Resource-Policy"] = "cross-origin"
        return call, response

    async def _asked(self, request: web.BaseRequest, read: Callable[[], Question]) -> web.Response:
        """The response to a question; whatever fails is an error with a reason, and no cache keeps it."""
        try:
            question = read()
        except (ValueError, RecursionError) as error:
            return _failure(400, str(error))
        try:
            return self._response(await self._parts.answers.ask(question, _tags(request)))
        except Refusal as error:
            self._parts.metrics.refused[error.metric] += 1
            return _failure(503, str(error), LATER)
        except TukyamidError as error:
            self._parts.metrics.refused["service"] += 1
            return _failure(503, f"the service can't be asked: {error}", LATER)

    def _response(self, answer: Answer) -> web.Response:
        headers = {**NEVER, "Content-Type": JSON}
        if answer.tag is not None:
            headers |= {"ETag": answer.tag, "Cache-Control": self._keeping()}
        if answer.status == 503:
            headers["Retry-After"] = str(LATER)
        if answer.status == 304:
            del headers["Content-Type"]
        return web.Response(status=answer.status, body=answer.body, headers=headers)

    def _keeping(self) -> str:
        return f"public, max-age={self._bounds.fresh}" if self._bounds.fresh else "public, no-cache"

    async def _ready(self) -> web.Response:
        try:
            state = await self._parts.last.now()
        except TukyamidError as error:
            return _failure(503, f"the service can't be asked: {error}", LATER)
        said = {"ready": True, "change": state.change, "waiting": state.waiting}
        return web.Response(body=json.dumps(said).encode(), headers={**NEVER, "Content-Type": JSON})


def _file(request: web.BaseRequest, file: File) -> web.Response:
    headers = {"ETag": file.tag, "Cache-Control": file.keep}
    if file.tag in _tags(request):
        return web.Response(status=304, headers=headers)
    return web.Response(body=file.octets, headers={**headers, "Content-Type": f"{file.content_type}; charset=utf-8"})


def _error(reason: str, status: int = 2) -> bytes:
    return json.dumps({"error": reason, "status": status}).encode()


def _failure(status: int, reason: str, later: int | None = None) -> web.Response:
    """An error. `status` in it is that of the command: 2 if the question is wrong, 3 if there is no answer."""
    headers = {**NEVER, "Content-Type": JSON, **({} if later is None else {"Retry-After": str(later)})}
    return web.Response(status=status, body=_error(reason, 2 if status < 429 else 3), headers=headers)


def _tags(request: web.BaseRequest) -> frozenset[str]:
    """The tags that whoever asks has answers of already."""
    given = request.headers.get("If-None-Match", "")
    return frozenset(one.strip().removeprefix("W/") for one in given.split(",")[:32])


def _peer(request: web.BaseRequest) -> str | None:
    """The address at the other end; None of a Unix socket."""
    found = None if request.transport is None else request.transport.get_extra_info("peername")
    return str(found[0]) if isinstance(found, tuple) else None


def _forwarded(request: web.BaseRequest) -> dict[str, str]:
    """What proxies say about where a request comes from. One may add a line of its own after a visitor's."""
    return {name: ", ".join(request.headers.getall(name)) for name in ("X-Forwarded-For", "Forwarded")
            if name in request.headers}


def _silent() -> logging.Logger:
    """Everyone can send what isn't HTTP: the log stays as it is."""
    logger = logging.getLogger("tukyamid.public")
    logger.addHandler(logging.NullHandler())
    logger.propagate = False
    return logger
