"""The keyring that the user's service keeps, and connections to services."""

from __future__ import annotations

import os

from ..client.service_client import ServiceSilent, connect_in_time
from ..client.socket_peers import HOST_SOCKETS
from ..fast_imports import TYPE_CHECKING
from ..keyrings.service_keyring import served_keyring
from ..protocol.refusals import ServiceMissing
from ..safe_folders import runtime_file
from .exit_statuses import NoAnswer

if TYPE_CHECKING:
    from collections.abc import Iterable

    from ..client import Client
    from ..keyrings.keyring import Keyring

_PATIENCE = 30.0


def of_service(ahead: Iterable[bytes]) -> Keyring:
    """The keyring of the user's service, which is started unless it runs. The lines `ahead` are sent to it at once."""
    return served_keyring(service(ahead))


def service(ahead: Iterable[bytes] = ()) -> Client:
    """A connection to the user's service, which is started unless it runs. NoAnswer if it runs and doesn't answer."""
    try:
        return answering(runtime_file("tukyamid.socket"), ahead)
    except ServiceMissing:
        from ..service.start_on_demand import ensure
        return answering(ensure(), ahead)


def host_service(may_change: bool) -> Client:
    """A connection to the host's service. NoAnswer if it doesn't run, or if the caller may not change its keyring."""
    try:
        return answering(HOST_SOCKETS[0 if may_change else 1])
    except ServiceMissing:
        raise NoAnswer("the host's service doesn't run: systemctl enable --now tukyamid.socket "
                       "tukyamid-read-only.socket") from None
    except PermissionError:
        raise NoAnswer("only root and the members of the group tukyamid may change the host's keyring") from None


def answering(path: str | os.PathLike[str], ahead: Iterable[bytes] = ()) -> Client:
    """A connection to a service that answers. ServiceMissing if none listens; NoAnswer if it doesn't answer."""
    try:
        return connect_in_time(path, _PATIENCE, ahead)
    except ServiceSilent as silent:
        raise NoAnswer(_silent(os.fspath(path), silent.listener)) from None


def _silent(path: str, process: int) -> str:
    """What to do about a service that doesn't answer."""
    try:
        with open(f"/proc/{process}/cmdline", "rb") as file:
            is_service = b"tukyamid" in file.read()  # Else systemd has opened the socket.
    except OSError:
        is_service = False
    remedy = f"`kill -9 {process}` ends it" if is_service else "end it"
    return (f"the service at {path} doesn't answer; {remedy}, which loses nothing that it acknowledged, and the next "
            "command starts another")
