"""The programs that can ask Tukyamid, and what has each of them do so."""

import os
import shutil
from collections.abc import Callable
from pathlib import Path
from typing import NamedTuple

from ..command.exit_statuses import NoAnswer
from ..configuration import config_file
from . import gpg_program
from .policy_steps import home, strict
from .steps import DesktopSetting, GitSetting, Lines, Step, Wrapper

_PACMAN = "/etc/pacman.d/gnupg"
_MUTT = "--no-verbose --quiet --batch --output -"
_PLACES = "/usr/bin:/bin:/usr/sbin:/sbin"


class Program(NamedTuple):
    """How a program is set up, its names as a caller, and for whom: only root can set up what is the host's. One that
    asks as another user than root reads the host's configuration, whatever root's own is."""
    make: Callable[[], list[Step]]
    callers: tuple[str, ...]
    is_of_host: bool = False
    is_of_another_user: bool = False


def steps_of(name: str, is_strict: bool) -> list[Step]:
    """What has a program ask Tukyamid, and refuse what the engine doesn't reach if it has to be strict."""
    program = PROGRAMS[name]
    path = config_file.user_file() if not program.is_of_host else \
        config_file.HOST_FILE if program.is_of_another_user else _roots_file()
    return [*program.make(), *(strict(path, caller) for caller in program.callers if is_strict)]


def _roots_file() -> str:
    """The configuration that counts for what root runs: root's own file replaces the host's."""
    own = config_file.user_file()
    return own if config_file.read(own) is not None else config_file.HOST_FILE


def undone_steps_of(name: str) -> list[Step]:
    """All that may have been done for a program."""
    return steps_of(name, is_strict=True)


def _git() -> list[Step]:
    return [GitSetting("gpg.program", str(gpg_program.program()))]


def _apt() -> list[Step]:
    path, names = Path("/etc/apt/apt.conf.d/90tukyamid"), gpg_program.folder(is_of_host=True)
    return [Lines(path, (f'APT::Key::GPGVCommand "{names / "gpgv"}";',), "//", is_own=True, names=names)]


def _mutt() -> list[Step]:
    return [_mutt_lines(Path.home() / ".muttrc", Path.home() / ".mutt/muttrc", _config() / "mutt/muttrc")]


def _neomutt() -> list[Step]:
    """neomutt reads mutt's files as well, but only if it has none of its own."""
    return [_mutt_lines(_config() / "neomutt/neomuttrc", Path.home() / ".neomutt/neomuttrc",
                        Path.home() / ".neomuttrc")]


def _mutt_lines(*paths: Path) -> Lines:
    ours = f"{gpg_program.program()} --status-fd=2"
    phrase = "%?p?--passphrase-fd 0 --pinentry-mode=loopback?"
    good = '"^\\\\[GNUPG:\\\\] GOODSIG"'
    return Lines(_first_there(*paths), (
        f'set crypt_use_gpgme=no pgp_good_sign={good} pgp_verify_command="{ours} {_MUTT} --verify %s %f"',
        f'set pgp_decode_command="{ours} {phrase} {_MUTT} %f"',
        f'set pgp_decrypt_command="{ours} {phrase} {_MUTT} --decrypt %f"'), "#")


def emacs_file() -> Path:
    """The user's file for emacs."""
    return _first_there(Path.home() / ".emacs.d/init.el", Path.home() / ".emacs", _config() / "emacs/init.el")


def _emacs() -> list[Step]:
    return [Lines(emacs_file(), (f"(custom-set-variables '(epg-gpg-program \"{gpg_program.program()}\"))",), ";;")]


def _evolution() -> list[Step]:
    return [DesktopSetting("org.gnome.evolution-data-server", "camel-gpg-binary", str(gpg_program.program()))]


def _gpgme() -> list[Step]:
    """By PATH: for programs that a session starts, and for login shells."""
    names, session = gpg_program.folder(), _config() / "environment.d/50-tukyamid.conf"
    return [Lines(session, (f"PATH={names}:$PATH",), "#", is_own=True, names=names),
            Lines(Path.home() / ".profile", (f'PATH={names}:"$PATH"',), "#", names=names)]


def _pacman() -> list[Step]:
    return [*wrapped(*PACMAN), home(_roots_file(), _PACMAN)]


def _wrapping(*names: str) -> Callable[[], list[Step]]:
    return lambda: list(wrapped(*names))


def wrapped(*names: str) -> list[Wrapper]:
    """The wrappers of those of these programs that are installed."""
    is_root = os.geteuid() == 0
    folder = Path("/usr/local/bin") if is_root else Path.home() / ".local/bin"
    reals = [real for name in names if (real := shutil.which(name, path=_PLACES))]
    if not reals:
        raise NoAnswer(f"{names[0]} isn't installed")
    return [Wrapper(folder / os.path.basename(real), real, gpg_program.folder(is_root)) for real in reals]


def _config() -> Path:
    return Path(config_file.config_folder())


def _first_there(*paths: Path) -> Path:
    return next((path for path in paths if path.exists()), paths[0])


DPKG = ("dpkg-source", "dscverify", "uscan", "debsig-verify")
BOOTSTRAP = ("debootstrap", "mmdebstrap")
PACMAN = ("pacman", "pacman-key", "makepkg")

PROGRAMS: dict[str, Program] = {
    "git": Program(_git, ("git",)),
    "mutt": Program(_mutt, ("mutt",)),
    "neomutt": Program(_neomutt, ("neomutt",)),
    "evolution": Program(_evolution, ("evolution",)),
    "emacs": Program(_emacs, ("emacs",)),
    "gpgme": Program(_gpgme, ()),
    "notmuch": Program(_wrapping("notmuch"), ("notmuch",)),
    "apt": Program(_apt, ("apt-key",), is_of_host=True, is_of_another_user=True),
    "dpkg": Program(_wrapping(*DPKG), DPKG),
    "debootstrap": Program(_wrapping(*BOOTSTRAP), BOOTSTRAP),
    "pacman": Program(_pacman, PACMAN, is_of_host=True),
    "ostree": Program(_wrapping("ostree"), ("ostree",)),
}
