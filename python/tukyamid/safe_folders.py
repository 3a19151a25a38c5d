"""Where sockets are, and which directories are safe.

Whoever can write to a directory can put something else in the place of what is in it. So a directory must be the user's
own or root's, and nobody else may write to it, nor to those above it.
"""

from __future__ import annotations

import os
import stat

from .fast_imports import TYPE_CHECKING

if TYPE_CHECKING:
    from collections.abc import Iterator

_MOST_LINKS = 40


def runtime_file(name: str) -> str:
    """The path of a file beside the socket of the user's service: in the directory that the session made for such
    files, else in one of the user's own below /tmp. PermissionError if others can write there."""
    folder = os.environ.get("XDG_RUNTIME_DIR")
    if folder and os.path.isdir(folder):  # If it isn't there, neither is a service.
        _check_runtime(folder, os.stat(folder), stat.S_IWGRP | stat.S_IWOTH)
    return os.path.join(folder or own_folder(f"/tmp/tukyamid-{os.getuid()}"), name)


def own_folder(folder: str) -> str:
    """Makes a directory that is the user's alone, whoever else may write beside it; PermissionError if something else
    is there."""
    try:
        os.mkdir(folder, 0o700)
    except FileExistsError:
        pass
    _check_runtime(folder, os.lstat(folder), 0o077)
    return folder


def _check_runtime(folder: str, found: os.stat_result, others: int) -> None:
    if not stat.S_ISDIR(found.st_mode) or found.st_uid != os.geteuid() or found.st_mode & others:
        raise PermissionError(f"{folder} has to be a directory that only you can use; set XDG_RUNTIME_DIR")


def make_folder(folder: str, is_shared_fine: bool = False) -> None:
    """Makes a directory for the user alone, unless it is there, and those above it. PermissionError if others could
    put something else in its place, or in the place of what will be made in it."""
    if not os.path.lexists(folder):
        make_folder(os.path.dirname(os.path.abspath(folder)), is_shared_fine=True)
        try:
            os.mkdir(folder, 0o700)
        except FileExistsError:
            pass  # Another process has just made it.
    check_folder(folder, is_shared_fine)


def check_folder(folder: str, is_shared_fine: bool = False) -> None:
    """PermissionError if a directory is another user's, or if others can write to it. A shared one, such as /tmp, will
    do for what nobody else can replace there (`is_shared_fine`)."""
    found = os.stat(folder)
    if not stat.S_ISDIR(found.st_mode):
        raise NotADirectoryError(f"{folder} isn't a directory")
    if found.st_uid not in (os.geteuid(), 0):
        raise PermissionError(f"the directory {folder} is another user's")
    is_open = found.st_mode & stat.S_IWOTH or found.st_mode & stat.S_IWGRP and not _is_own_group(found.st_gid)
    if is_open and not (is_shared_fine and found.st_mode & stat.S_ISVTX):
        raise PermissionError(f"others can write to the directory {folder}")
    check_way(folder)


def check_way(path: str) -> None:
    """PermissionError if others could put something else in the place of a part of a path, which may be a link. In a
    shared directory, such as /tmp, only the owner of a part can do that. Whoever owns `/` can do anything."""
    trusted = {os.geteuid(), 0, os.stat("/").st_uid}
    for folder, part in _parts_of(path):
        found, place = os.stat(folder), os.path.join(folder, part)
        is_open = found.st_mode & stat.S_IWOTH or (
            found.st_mode & stat.S_IWGRP and found.st_uid != 0 and not _is_own_group(found.st_gid))
        if is_open and not found.st_mode & stat.S_ISVTX:
            raise PermissionError(f"others can write to the directory {folder}")
        if os.lstat(place).st_uid not in trusted:
            raise PermissionError(f"{place} is another user's")


def _parts_of(path: str) -> Iterator[tuple[str, str]]:
    """Each part of a path with the directory in which it is looked up, also those of links on the way."""
    folder, links = "/", 0
    left = os.path.abspath(path).split("/")[::-1]
    while left:
        part = left.pop()
        if part in ("", "."):
            continue
        if part == "..":
            folder = os.path.dirname(folder)
            continue
        yield folder, part
        try:
            target = os.readlink(os.path.join(folder, part))
        except OSError:  # It isn't a link.
            folder = os.path.join(folder, part)
            continue
        links += 1
        if links > _MOST_LINKS:
            raise PermissionError(f"{path}: too many links")
        folder = "/" if target.startswith("/") else folder
        left += target.split("/")[::-1]


def _is_own_group(group: int) -> bool:
    """Whether a group is the user's alone, as many systems make one for each user."""
    import grp
    import pwd
    try:
        found, user = grp.getgrgid(group), pwd.getpwuid(os.geteuid()).pw_name
    except KeyError:
        return False
    return found.gr_name == user and not set(found.gr_mem) - {user}
