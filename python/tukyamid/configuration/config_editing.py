"""Changes of a configuration file. Comments and order stay as they are, and the file is replaced whole.

What is written is read back first, so that a change never leaves a file that can't be used.
"""

from __future__ import annotations

import fcntl
import os
import time
from collections.abc import Callable, Iterator
from contextlib import contextmanager, suppress
from typing import Any

from ..output_files import Output
from ..safe_folders import make_folder
from ..third_party import find_libraries
from . import config_file, config_values

_PATIENCE = 10.0
_FIRST = "# The configuration of Tukyamid; docs/CLIENTS.md says what each key means.\n"


def change(path: str, edit: Callable[[Any], None], template: str = _FIRST) -> None:
    """Has `edit` change the document (tomlkit's) of a file, and writes it. A file that isn't there begins as
    `template`. ConfigUnusable if the file can't be used, or couldn't be used any more."""
    find_libraries()
    try:
        import tomlkit
    except ModuleNotFoundError:
        raise config_file.ConfigUnusable(path, "a change needs Python's tomlkit: apt-get install "
                                               "python3-tomlkit") from None
    if path == config_file.HOST_FILE:
        os.makedirs(os.path.dirname(path), 0o755, exist_ok=True)
    make_folder(os.path.dirname(path))
    with _locked(path):
        text = config_file.read(path)
        is_new = text is None
        text = template if text is None else text
        config_values.read_checked(path, text)
        document = tomlkit.parse(text)
        edit(document)
        changed = tomlkit.dumps(document)
        config_values.read_checked(path, changed)
        if len(changed.encode()) > config_file.LONGEST:
            raise config_file.ConfigUnusable(path, f"it would have more than {config_file.LONGEST:,} bytes")
        with Output(path) as output:
            output.write([changed.encode()])
            output.keep()
        if is_new and path == config_file.HOST_FILE:
            os.chmod(path, 0o644)  # Every user of the host reads it.


def remove_if_bare(path: str) -> None:
    """Removes a file that contains only what a new one begins with, since the user's own file would hide the host's.
    Its folder is removed too if that is empty."""
    with _locked(path):
        text = config_file.read(path)
        if text is not None and text.strip() in ("", _FIRST.strip()) and not os.path.islink(path):
            os.unlink(path)
            with suppress(OSError):
                os.rmdir(os.path.dirname(path))


@contextmanager
def _locked(path: str) -> Iterator[None]:
    """One change at a time; ConfigUnusable if another one takes too long."""
    folder = os.open(os.path.dirname(path), os.O_RDONLY | os.O_DIRECTORY | os.O_CLOEXEC)
    try:
        end = time.monotonic() + _PATIENCE
        while True:
            try:
                fcntl.flock(folder, fcntl.LOCK_EX | fcntl.LOCK_NB)
                break
            except BlockingIOError:
                if time.monotonic() > end:
                    raise config_file.ConfigUnusable(path, "another change of it doesn't end") from None
                time.sleep(0.02)
        yield
    finally:
        os.close(folder)
