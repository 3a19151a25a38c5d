"""Where the configuration file is, and its octets, read so that no other user can have written them.

A file that can't be used is an error, and never means that there are no roots.
"""

from __future__ import annotations

import errno
import os
import stat

from ..protocol.refusals import TukyamidError
from ..safe_folders import check_way

HOST_FILE = "/etc/tukyamid/config.toml"
# Names another file, which has to be there when it is read.
VARIABLE = "TUKYAMID_CONFIG"
LONGEST = 1 << 16


class ConfigUnusable(TukyamidError):
    """The configuration file can't be used; the text says which and why."""

    def __init__(self, path: str, why: str) -> None:
        super().__init__(f"{path}: {why}")


def user_file() -> str:
    """The user's own file, whether it is there or not: the one that the variable names, if it does."""
    return os.environ.get(VARIABLE) or os.path.join(config_folder(), "tukyamid", "config.toml")


def config_folder() -> str:
    """Where the user's programs have their configuration."""
    folder = os.environ.get("XDG_CONFIG_HOME", "")
    return folder if os.path.isabs(folder) else os.path.join(os.path.expanduser("~"), ".config")


def find() -> tuple[str, str] | None:
    """The path and the text of the file that counts: the user's, or else the host's. None if there is neither."""
    for path in user_file(), HOST_FILE:
        text = read(path)
        if text is not None:
            return path, text
        if os.environ.get(VARIABLE):
            raise ConfigUnusable(path, f"{VARIABLE} names it, and it isn't there")
    return None


def read(path: str) -> str | None:
    """The text of a file; None if there is no such file. ConfigUnusable if it can't be used."""
    try:
        file = os.open(path, os.O_RDONLY | os.O_NONBLOCK | os.O_CLOEXEC)  # A FIFO may have no writer.
    except OSError as error:
        if error.errno in (errno.ENOENT, errno.ENOTDIR):
            return None
        raise ConfigUnusable(path, error.strerror or str(error)) from None
    try:
        return _checked_text(path, file)
    except OSError as error:
        raise ConfigUnusable(path, error.strerror or str(error)) from None
    finally:
        os.close(file)


def _checked_text(path: str, file: int) -> str:
    found = os.fstat(file)
    if not stat.S_ISREG(found.st_mode):
        raise ConfigUnusable(path, "it isn't a regular file")
    _check_owner(path, found, "it")
    _check_owner(path, os.stat(os.path.dirname(path)), "its directory")
    try:
        check_way(path)
    except PermissionError as error:
        raise ConfigUnusable(path, str(error)) from None
    octets = bytearray()
    while piece := os.read(file, LONGEST + 1 - len(octets)):
        octets += piece
    if len(octets) > LONGEST:
        raise ConfigUnusable(path, f"it has more than {LONGEST:,} bytes")
    try:
        return octets.decode("utf-8")
    except UnicodeDecodeError:
        raise ConfigUnusable(path, "it isn't UTF-8") from None


def _check_owner(path: str, found: os.stat_result, what: str) -> None:
    """Nobody but the user and root may be able to write it."""
    if found.st_uid not in (os.geteuid(), 0):
        raise ConfigUnusable(path, f"{what} belongs to user {found.st_uid}, not to you or root")
    if found.st_mode & (stat.S_IWGRP | stat.S_IWOTH):
        raise ConfigUnusable(path, f"{what} can be written by other users: chmod go-w")
