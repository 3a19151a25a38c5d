"""Standard output and standard error: all of a text, or an error; and nothing that could steer a terminal."""

import errno
import os

from ..protocol.spelling import for_people


def open_standard_files() -> None:
    """Opens the standard descriptors that the caller closed, so that no other file gets their numbers. Raises an
    OSError if standard output is closed, since nobody would get the answer."""
    closed = [number for number in (0, 1, 2) if not _is_open(number)]
    if 1 in closed:
        raise OSError(errno.EBADF, "closed", "standard output")
    for number in closed:
        os.dup2(os.open(os.devnull, os.O_RDWR), number)


def _is_open(number: int) -> bool:
    try:
        os.fstat(number)
    except OSError:
        return False
    return True


def write(text: str) -> None:
    """Writes a text to standard output, whole; an OSError that names it if that can't be done."""
    octets = text.encode("utf-8", "backslashreplace")
    try:
        while octets:
            octets = octets[os.write(1, octets):]
    except OSError as error:
        raise OSError(error.errno, error.strerror, "standard output") from None


def say(text: str, who: str = "tukyamid: ") -> None:
    """Says a line on standard error, as long as somebody reads it."""
    line = f"{who}{printable(text)}\n"
    try:
        os.write(2, line.encode("utf-8", "backslashreplace"))
    except OSError:
        pass


def printable(text: str) -> str:
    """A text without anything that isn't printed: others' names and paths may be in it.

    >>> printable("no file \\x1b[2J")
    'no file \\\\x1b[2J'
    """
    return for_people(text.encode("utf-8", "surrogateescape"), "\\")


def is_coloured() -> bool:
    """Whether standard output takes colours: a terminal that can show them, of somebody who wants them
    (https://no-color.org)."""
    return not os.environ.get("NO_COLOR") and os.environ.get("TERM") != "dumb" and os.isatty(1)
