"""Starting the user's service when a command needs it, as gpg starts its agent."""

from __future__ import annotations

import os
import subprocess
import time
from collections.abc import Sequence
from pathlib import Path
from socket import AF_UNIX
from socket import socket as new_socket

from tukyamid.client.socket_peers import check_listener
from tukyamid.own_processes import environment, words_of
from tukyamid.protocol.refusals import TukyamidError
from tukyamid.safe_folders import make_folder

from .paths_and_locks import Lock, Taken, beside, default_log, default_socket, open_own

_IDLE_SECONDS = 600
_LONGEST_LOG = 1 << 20
_PATIENCE = 60.0
_started: list[subprocess.Popen[bytes]] = []  # So that one that ends before this process is no surprise.


class ServiceFailed(TukyamidError):
    """The service can't be started; the text says why."""


def is_served(path: Path) -> bool:
    """Whether a service listens at this path; ServiceForeign if it is another user's."""
    with new_socket(AF_UNIX) as trial:
        trial.setblocking(False)  # One that lets nobody in any more mustn't hold up who looks.
        try:
            trial.connect(os.fspath(path))
            check_listener(trial, path)
        except (FileNotFoundError, ConnectionRefusedError):
            return False
        except BlockingIOError:
            return True  # Too many wait there for another to be let in yet.
        except OSError as error:
            raise ServiceFailed(f"{path}: {error.strerror or error}") from None
    return True


def ensure(socket: Path | None = None, options: Sequence[str] = (), patience: float = _PATIENCE) -> Path:
    """The socket of a running service. Starts one if none runs, and only one however many ask at once. `socket` is by
    default the user's, and `options` are more words for a service that is started. ServiceFailed if none is up within
    `patience` seconds."""
    try:
        path = default_socket() if socket is None else socket
        if is_served(path):
            return path
        with Lock(beside(path, ".starting"), patience):
            if not is_served(path):
                _wait_for_the_last(path, patience)
                _start(path, options, patience)
    except Taken:
        raise ServiceFailed(f"another command has been starting the service at {path} for {patience:.0f} seconds; end "
                            "that command") from None
    except OSError as error:
        raise ServiceFailed(f"{error.filename or 'the service'}: {error.strerror or error}") from None
    return path


def _wait_for_the_last(path: Path, patience: float) -> None:
    """Waits for the end of a service that listens no longer, and still answers its last clients."""
    try:
        Lock(beside(path, ".lock"), patience).release()
    except Taken:
        raise ServiceFailed(f"the last service at {path} is closing, but hasn't ended for {patience:.0f} "
                            f"seconds; `fuser -k {path}.lock` ends it") from None


def _start(path: Path, options: Sequence[str], patience: float) -> None:
    """Starts a service that outlives this process, and waits until it listens."""
    words = [*words_of("service"), "serve", "--socket", os.fspath(path), "--idle", str(_IDLE_SECONDS), *options]
    log = _opened_log()
    try:
        begin = os.lseek(log, 0, os.SEEK_END)
        service = subprocess.Popen(words, stdin=subprocess.DEVNULL, stdout=subprocess.DEVNULL, stderr=log, cwd="/",
                                   start_new_session=True, env=environment())
        _started.append(service)
        end = time.monotonic() + patience
        while not is_served(path):
            if service.poll() is not None:
                raise ServiceFailed(_said(log, begin) or f"the service ended with status {service.returncode}")
            if time.monotonic() > end:
                raise ServiceFailed(f"the service doesn't listen at {path} after {patience:.0f} seconds")
            time.sleep(0.01)
    finally:
        os.close(log)


def _opened_log() -> int:
    path = default_log()
    make_folder(os.fspath(path.parent))
    log = open_own(path, os.O_RDWR | os.O_APPEND)
    if os.fstat(log).st_size > _LONGEST_LOG:
        os.ftruncate(log, 0)
    return log


def _said(log: int, begin: int) -> str:
    """What the service has said since, without its name before it."""
    text = os.pread(log, 1 << 16, begin).decode(errors="replace").strip()
    return text.splitlines()[-1].removeprefix("tukyamid-server: ") if text else ""
