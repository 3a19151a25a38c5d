"""The server of the page: static files, and calls that take and return JSON."""

import asyncio
import json
import logging
import resource
import signal
import socket
from collections.abc import Awaitable, Callable, Mapping

from aiohttp import web

from .guard import Guard
from .page_calls import Call, said
from .page_files import Served

MOST_OCTETS = 1 << 16
Handler = Callable[[web.Request], Awaitable[web.StreamResponse]]


class Server:
    """Listens on the loopback interface, on a port that it finds unless one is given."""

    def __init__(self, files: Mapping[str, Served], calls: Mapping[str, Call], port: int) -> None:
        self._guard = Guard()
        page = files[""]
        self._files = {**files, "": page._replace(octets=self._guard.with_secret(page.octets))}
        self._calls = calls
        self._socket = socket.socket(socket.AF_INET, socket.SOCK_STREAM)
        self._socket.setsockopt(socket.SOL_SOCKET, socket.SO_REUSEADDR, 1)
        self._socket.bind(("127.0.0.1", port))
        self.address = self._guard.bind(self._socket.getsockname()[1])

    async def run(self, begun: Callable[[], None]) -> None:
        """Serves until the process is interrupted. `begun` is called once it listens."""
        app = web.Application(middlewares=[self._guard.middleware()], client_max_size=MOST_OCTETS)
        app.router.add_get("/{token}/{name:[^/]*}", self._file)
        app.router.add_post("/{token}/call/{name}", self._call)
        _take_many()
        runner = web.AppRunner(app, access_log=None, handle_signals=False, logger=_silent())
        await runner.setup()
        await web.SockSite(runner, self._socket).start()
        ended = asyncio.Event()
        for number in signal.SIGINT, signal.SIGTERM, signal.SIGHUP:
            asyncio.get_running_loop().add_signal_handler(number, ended.set)
        begun()
        try:
            await ended.wait()
        finally:
            await runner.cleanup()

    async def _file(self, request: web.Request) -> web.StreamResponse:
        served = self._files.get(request.match_info["name"])
        if served is None:
            raise web.HTTPNotFound()
        return web.Response(body=served.octets, content_type=served.content_type, charset="utf-8")

    async def _call(self, request: web.Request) -> web.StreamResponse:
        call = self._calls.get(request.match_info["name"])
        if call is None or request.content_type != "application/json":
            raise web.HTTPNotFound()
        try:
            asked = json.loads(await request.read())
            if not isinstance(asked, dict):
                raise ValueError("the question is no object")
            return web.json_response(await call(asked))
        except (ValueError, RecursionError) as error:
            return web.json_response({"error": said(error)}, status=400)
        except web.HTTPException:
            raise
        except Exception as error:
            return web.json_response({"error": said(error)}, status=502)


def _silent() -> logging.Logger:
    """Every user of this machine can send what isn't HTTP: the terminal of whoever shows the page stays as it is."""
    logger = logging.getLogger("tukyamid.page")
    logger.addHandler(logging.NullHandler())
    logger.propagate = False
    return logger


def _take_many() -> None:
    """Has this process open as many files as it may, so that idle connections of others don't use them up."""
    most = resource.getrlimit(resource.RLIMIT_NOFILE)[1]
    resource.setrlimit(resource.RLIMIT_NOFILE, (most, most))
