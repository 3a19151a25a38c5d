"""Opens the page in the browser."""

import os
import sys
import threading
import webbrowser
from collections.abc import Iterator
from contextlib import contextmanager, suppress

from ..command.output import say
from ..safe_folders import runtime_file


def leading(address: str) -> str:
    """A file that leads to an address."""
    return f'<!DOCTYPE html><meta http-equiv="refresh" content="0; url={address}"><title>Tukyamid</title>\n'


@contextmanager
def opened(address: str) -> Iterator[None]:
    """Opens an address in the browser. Other users can read the words of a browser's process, so it gets a file of the
    user's alone that leads to the page, and that is there as long as the page is."""
    path = runtime_file(f"tukyamid-web-{os.getpid()}.html")
    with suppress(FileNotFoundError):
        os.unlink(path)
    with open(os.open(path, os.O_WRONLY | os.O_CREAT | os.O_EXCL, 0o600), "w", encoding="ascii") as file:
        file.write(leading(address))
    try:
        # Some browsers are waited for until they end, and meanwhile they want the page.
        threading.Thread(target=_open, args=(f"file://{path}",), daemon=True).start()
        yield
    finally:
        with suppress(OSError):
            os.unlink(path)


def _open(address: str) -> None:
    if not webbrowser.open(address):
        say("no browser could be opened: open the address that is printed")
    elif sys.stderr.isatty():
        say("the page is open until this command is interrupted")
