"""The connections of the server: a bound on their number, and on the time and the octets of each request."""

from __future__ import annotations

import asyncio
from collections.abc import Callable
from typing import Any

from aiohttp import web

MOST_OCTETS = 1 << 16
PAUSE = 1.0
REFUSED = (b"HTTP/1.1 503 Service Unavailable\r\nContent-Type: application/json\r\nRetry-After: 5\r\n"
           b"Cache-Control: no-store\r\nConnection: close\r\nContent-Length: 55\r\n\r\n"
           b'{"error":"there are too many connections","status": 3}\n')


class Gate(asyncio.Protocol):
    """A connection. It passes on what comes to the handler of HTTP, as long as it is within its bounds."""

    def __init__(self, inner: Any, gates: "Gates") -> None:
        self._inner, self._gates = inner, gates
        self._octets = 0
        self.transport: asyncio.Transport | None = None
        self.until = 0.0

    def connection_made(self, transport: asyncio.BaseTransport) -> None:
        assert isinstance(transport, asyncio.Transport)
        self.transport = transport
        self._gates.put(self)
        self._inner.connection_made(transport)

    def data_received(self, data: bytes) -> None:
        self._octets += len(data)
        if self._octets > MOST_OCTETS and self.transport is not None:
            self._gates.end(self.transport)
        else:
            self._inner.data_received(data)

    def renew(self, seconds: float) -> None:
        """Counts its octets from 0 again, and gives it some seconds."""
        self._octets, self.until = 0, asyncio.get_running_loop().time() + seconds

    def eof_received(self) -> bool | None:
        result: bool | None = self._inner.eof_received()
        return result

    def connection_lost(self, exc: Exception | None) -> None:
        self._gates.take(self)
        self._inner.connection_lost(exc)

    def pause_writing(self) -> None:
        self._inner.pause_writing()

    def resume_writing(self) -> None:
        self._inner.resume_writing()


class _Refused(asyncio.Protocol):
    """A connection beyond the bound."""

    def connection_made(self, transport: asyncio.BaseTransport) -> None:
        assert isinstance(transport, asyncio.Transport)
        transport.write(REFUSED)
        transport.close()


class Gates:
    """All connections: at most `most`, each of which may take `patience` seconds until its next request is there. As
    long it may take to read an answer."""

    def __init__(self, most: int, patience: float) -> None:
        self._most, self.patience = most, patience
        self._gates: dict[asyncio.BaseTransport, Gate] = {}
        self.refused = self.ended = 0

    def __len__(self) -> int:
        return len(self._gates)

    def factory(self, server: web.Server) -> Callable[[], asyncio.Protocol]:
        """What makes the protocol of a new connection."""
        def made() -> asyncio.Protocol:
            if len(self._gates) >= self._most:
                self.refused += 1
                return _Refused()
            return Gate(server(), self)
        return made

    def put(self, gate: Gate) -> None:
        assert gate.transport is not None
        self._gates[gate.transport] = gate
        gate.renew(self.patience)

    def take(self, gate: Gate) -> None:
        if gate.transport is not None:
            self._gates.pop(gate.transport, None)

    def renew(self, transport: asyncio.BaseTransport | None, seconds: float) -> None:
        """Says that a request of a connection begins, or is answered, and how long what comes next may take."""
        if transport is not None and transport in self._gates:
            self._gates[transport].renew(seconds)

    def end(self, transport: asyncio.Transport) -> None:
        """Ends a connection that takes or sends too much."""
        self.ended += 1
        transport.abort()

    async def sweep(self) -> None:
        """Ends the connections that take too long, until it is cancelled."""
        while True:
            await asyncio.sleep(PAUSE)
            now = asyncio.get_running_loop().time()
            for transport, gate in list(self._gates.items()):
                if gate.until < now and isinstance(transport, asyncio.Transport):
                    self.end(transport)
