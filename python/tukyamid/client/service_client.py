"""The synchronous client of a service, over its Unix socket."""

from __future__ import annotations

import io
import os

from ..fast_imports import AF_UNIX, SHUT_RDWR, SOCK_STREAM, TYPE_CHECKING, BareSocket
from ..protocol.refusals import RefusedLine, ServiceEnded, ServiceForeign, ServiceMissing, TukyamidError
from .connection import Connection
from .reply_matching import PROBE
from .service_calls import ServiceCalls
from .socket_peers import check_listener, peer_of
from .streams import PIECE

if TYPE_CHECKING:
    from collections.abc import Iterable

    from _typeshed import ReadableBuffer, WriteableBuffer

class ServiceSilent(ServiceEnded):
    """The service doesn't answer. `listener` is the number of the process that opened its socket."""

    def __init__(self, listener: int) -> None:
        super().__init__("the service doesn't answer")
        self.listener = listener


class _Octets(io.RawIOBase):
    """What comes and goes over a socket, without a buffer."""

    def __init__(self, connected: BareSocket) -> None:
        self._socket = connected

    def readable(self) -> bool:
        return True

    def writable(self) -> bool:
        return True

    def readinto(self, buffer: WriteableBuffer, /) -> int:
        return self._socket.recv_into(buffer)

    def write(self, octets: ReadableBuffer, /) -> int:
        return self._socket.send(octets)


class Client(Connection, ServiceCalls):
    """A connection to a service. Views, cursors and watches are its own; certificates and verdicts are everybody's."""

    def __init__(self, connected: BareSocket) -> None:
        self._socket = connected
        super().__init__(io.BufferedReader(_Octets(connected), PIECE), io.BufferedWriter(_Octets(connected), PIECE))

    def close(self) -> None:
        """Ends the connection. What was sent before counts."""
        with self._lock:
            self._has_ended = True
            self._abandon()
            self._wire.close_output()
            self._wire.drain()
            self._socket.close()

    def _end_error(self) -> TukyamidError:
        return ServiceEnded("the connection to the service has ended")

    def wait(self, seconds: float) -> bool:
        """Waits until something comes that no call has asked for, as watch lines do: whether it does within this time.
        Other threads' calls wait meanwhile."""
        with self._lock:
            self._begin()
            patience = self._socket.gettimeout()
            self._socket.settimeout(seconds)
            try:
                comes = self._wire.comes()
            finally:
                self._socket.settimeout(patience)
            self._in_exchange = False
            return comes

    def end_at_once(self) -> None:
        """Ends the connection. A call that waits for the service raises ServiceEnded."""
        self._abandon()

    def _abandon(self) -> None:
        try:
            self._socket.shutdown(SHUT_RDWR)
        except OSError:
            pass


def connect(path: str | os.PathLike[str] | None = None, timeout: float | None = None,
            user: int | None = None) -> Client:
    """Connects to the service that listens at a path; without one to the user's own service, which is started unless
    it runs. Raises ServiceMissing if none does, and ServiceForeign if it is
    neither the caller's own, nor the host's, nor that of `user`. If the service doesn't read or write for `timeout`
    seconds while a call waits for it, that call raises ServiceEnded."""
    if path is None:
        from ..service.start_on_demand import ensure
        path = ensure()
    connected = BareSocket(AF_UNIX, SOCK_STREAM)
    try:
        connected.settimeout(timeout)
        connected.connect(os.fspath(path))
        check_listener(connected, path, user)
    except OSError as error:
        connected.close()
        raise ServiceMissing(f"no service at {os.fspath(path)!r}: {error.strerror or error}") from None
    except ServiceForeign:
        connected.close()
        raise
    return Client(connected)


def connect_in_time(path: str | os.PathLike[str], patience: float, ahead: Iterable[bytes] = ()) -> Client:
    """Connects as `connect` does, and raises ServiceSilent if the service doesn't answer at all within `patience`
    seconds. Later calls wait for as long as they take. The lines `ahead` are sent at once, for calls that follow."""
    client = connect(path)
    connected = client._socket
    connected.settimeout(patience)
    try:
        client._send_ahead([PROBE, *ahead])
        client.send_line(PROBE)
    except RefusedLine:
        pass
    except ServiceEnded:
        if client._has_ended:  # It was about to end when this connected.
            client.close()
            raise ServiceMissing(f"no service at {os.fspath(path)!r}: it has ended") from None
        silent = ServiceSilent(peer_of(connected).process)
        client.close()
        raise silent from None
    connected.settimeout(None)
    return client
