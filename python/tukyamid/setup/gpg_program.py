"""Where `tukyamid-gpg` is, and the folders that have it by the names of gpg's programs."""

import os
import shutil
from pathlib import Path

from ..command.exit_statuses import NoAnswer
from ..safe_folders import make_folder

NAMES = ("gpg", "gpg2", "gpgv", "gpgv2", "gpgconf")
_PACKAGED = Path("/usr/lib/tukyamid/bin")
_OF_HOST = Path("/usr/local/lib/tukyamid/bin")
_CHECKOUT = Path(__file__).resolve().parents[3] / "verifier" / "out" / "tukyamid-gpg"


def program() -> Path:
    """The path of tukyamid-gpg. NoAnswer if it isn't installed."""
    named = os.environ.get("TUKYAMID_GPG") or shutil.which("tukyamid-gpg") or _CHECKOUT
    path = Path(named).absolute()
    if not os.access(path, os.X_OK):
        raise NoAnswer("tukyamid-gpg isn't installed: apt install tukyamid-gpg")
    return path


def folder(is_of_host: bool = False) -> Path:
    """The folder of the names: the package's, or else one of the user's own. What all users of a host run has to find
    a folder that all of them can read."""
    if not os.environ.get("TUKYAMID_GPG") and all(os.access(_PACKAGED / name, os.X_OK) for name in NAMES):
        return _PACKAGED
    if is_of_host:
        return _OF_HOST
    data = os.environ.get("XDG_DATA_HOME") or os.path.expanduser("~/.local/share")
    return Path(data).absolute() / "tukyamid" / "bin"


def make_names(names: Path) -> None:
    """Makes a folder of names, unless it is the package's."""
    if names == _PACKAGED:
        return
    if names == _OF_HOST:
        names.mkdir(mode=0o755, parents=True, exist_ok=True)
    else:
        make_folder(str(names))
    for name in NAMES:
        link = names / name
        if not link.is_symlink() or Path(os.readlink(link)) != program():
            aside = names / f".{name}.{os.getpid()}"
            aside.symlink_to(program())
            os.replace(aside, link)
