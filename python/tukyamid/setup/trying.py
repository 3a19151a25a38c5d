"""How each program that was set up is tried: by itself if it can be driven, or else by what it is set up to run."""

import re
import shlex
import shutil
from collections.abc import Callable
from pathlib import Path

from .programs import BOOTSTRAP, DPKG, PACMAN, emacs_file, wrapped
from .trial import Trial
from .trial_data import ARMORED, DATA


def fault_of(name: str, trial: Trial) -> str | None:
    """Why a program that was set up doesn't accept what Tukyamid would have it accept, or None. TrialFailed if it
    can't be tried."""
    return _TRIALS[name](trial)


def _git(trial: Trial) -> str | None:
    """git itself, over a repository with the commit."""
    header, empty, message = DATA.partition(b"\n\n")
    signature = ARMORED.rstrip(b"\n").replace(b"\n", b"\n ")
    trial.run(["git", "init", "-q", "repository"])
    within = ["git", "-C", "repository"]
    commit = trial.run([*within, "hash-object", "-t", "commit", "-w", "--stdin"],
                       header + b"\ngpgsig " + signature + empty + message).stdout.strip()
    done = trial.run([*within, "verify-commit", commit])
    return None if done.returncode == 0 else "git verify-commit refuses the trial's commit"


def _mutt(program: str) -> Callable[[Trial], str | None]:
    """The command that mutt is set up to run, as mutt itself prints it."""
    def tried(trial: Trial) -> str | None:
        said = trial.run([program, "-Q", "pgp_verify_command"]).stdout
        found = re.search(r'pgp_verify_command ?= ?"(.*)"', said)
        if not found:
            return f"{program} -Q prints no pgp_verify_command"
        command = found[1].replace("%s", "data.asc").replace("%f", "data")
        done = trial.run(["sh", "-c", command])
        return None if _is_root(done.stdout + done.stderr) else f"{program}'s pgp_verify_command doesn't ask Tukyamid"
    return tried


def _emacs(trial: Trial) -> str | None:
    """epg in emacs, after the user's file."""
    program = ("(progn (require 'epg) (let ((context (epg-make-context 'OpenPGP)))"
               ' (epg-verify-file context "data.asc" "data")'
               " (kill-emacs (if (equal (mapcar #'epg-signature-validity (epg-context-result-for context 'verify))"
               " '(ultimate)) 0 1))))")
    done = trial.run(["emacs", "--batch", "--load", str(emacs_file()), "--eval", program])
    return None if done.returncode == 0 else "emacs doesn't take the trial's signature for a root's"


def _evolution(trial: Trial) -> str | None:
    said = trial.run(["gsettings", "get", "org.gnome.evolution-data-server", "camel-gpg-binary"]).stdout
    return None if trial.accepts([said.strip().strip("'")]) else "evolution's camel-gpg-binary doesn't ask Tukyamid"


def _gpgme(trial: Trial) -> str | None:
    """What GPGME asks for the path of gpg, in this session."""
    found = shutil.which("gpgconf") or "no gpgconf"
    said = trial.run([found, "--list-components"]).stdout
    listed = re.search(r"^gpg:[^:]*:([^:\n]*)", said, re.MULTILINE)
    if listed and trial.accepts([re.sub("%([0-9a-f]{2})", lambda octet: chr(int(octet[1], 16)), listed[1])]):
        return None
    return f"PATH leads to {found} in this session: log in again"


def _apt(trial: Trial) -> str | None:
    said = trial.run(["apt-config", "shell", "COMMAND", "APT::Key::GPGVCommand"]).stdout
    words = shlex.split(said.partition("=")[2])
    if words and trial.is_strict_over_keyrings(words):
        return None
    return "APT::Key::GPGVCommand doesn't ask Tukyamid"


def _wrapped(names: tuple[str, ...], over_keyrings: bool) -> Callable[[Trial], str | None]:
    """That PATH leads to the wrappers, and what the programs find on the PATH that these set."""
    def tried(trial: Trial) -> str | None:
        for wrapper in wrapped(*names):
            found = shutil.which(wrapper.path.name)
            if found is None or Path(found) != wrapper.path:
                return f"PATH leads to {found}, not to {wrapper.path}"
            does = trial.is_strict_over_keyrings if over_keyrings else trial.accepts
            if not does([str(wrapper.folder / ("gpgv" if over_keyrings else "gpg"))]):
                return f"{wrapper.folder} doesn't have tukyamid-gpg"
        return None
    return tried


def _is_root(text: str) -> bool:
    return "[GNUPG:] TRUST_ULTIMATE" in text


_TRIALS: dict[str, Callable[[Trial], str | None]] = {
    "git": _git,
    "mutt": _mutt("mutt"),
    "neomutt": _mutt("neomutt"),
    "evolution": _evolution,
    "emacs": _emacs,
    "gpgme": _gpgme,
    "notmuch": _wrapped(("notmuch",), over_keyrings=False),
    "apt": _apt,
    "dpkg": _wrapped(DPKG, over_keyrings=True),
    "debootstrap": _wrapped(BOOTSTRAP, over_keyrings=True),
    "pacman": _wrapped(PACMAN, over_keyrings=False),
    "ostree": _wrapped(("ostree",), over_keyrings=False),
}
