"""Where Prometheus reads the metrics: an address of its own, so that nobody outside can."""

from __future__ import annotations

import asyncio
import socket
from contextlib import AsyncExitStack

from aiohttp import web

from .metrics import Metrics, exposition


async def serve_metrics(metrics: Metrics, bound: socket.socket, stack: AsyncExitStack) -> None:
    """Serves `/metrics` until the stack is closed. NoAnswer if the client library is missing."""
    exposed = exposition(metrics)

    async def handle(request: web.BaseRequest) -> web.StreamResponse:
        if request.method != "GET" or request.path != "/metrics":
            return web.Response(status=404, text="not here\n")
        body, headers = exposed()
        return web.Response(body=body, headers=headers)

    server, loop = web.Server(handle, access_log=None), asyncio.get_running_loop()
    if bound.family == socket.AF_UNIX:
        serving = await loop.create_unix_server(server, sock=bound)
    else:
        serving = await loop.create_server(server, sock=bound)
    stack.push_async_callback(server.shutdown, 1.0)
    stack.callback(serving.close)
