"""Each program, driven as its users drive it: whether it accepts a signature of each case."""

import shutil
import subprocess
from concurrent.futures import ThreadPoolExecutor

from arch import Makepkg, Pacman, PacmanKey
from archives import Apt, Debootstrap, Mmdebstrap
from asked import CASES, MODES, PYTHON, Asked
from commits import Git, Ostree, ReceivePack
from debian import DebsigVerify, DpkgSource, Dscverify, Gpgv, Uscan
from mailers import Camel, MailGnupg, Mutt, Notmuch

# How many runs of a program go on at once: most of them wait.
AT_ONCE = 4


class OfPython:
    """A library of Python's, by a program that ends with status 0 if it accepts the signature."""

    def __init__(self, module, program):
        self.needed, self._program = (None, module), program

    def accepts(self, asked, case):
        signature, data = (asked.folder / name for name in CASES[case])
        return asked.run(PYTHON, "-c", self._program, asked.gpg, signature, data).returncode == 0


GPGME = """
import sys, gpg
with open(sys.argv[2], "rb") as signature, open(sys.argv[3], "rb") as data:
    try:
        found = gpg.Context().verify(data.read(), signature.read())[1]
    except gpg.errors.GpgError:
        sys.exit(1)
sys.exit(0 if found.signatures else 1)
"""
GNUPG = """
import sys, gnupg
with open(sys.argv[2], "rb") as signature:
    sys.exit(0 if gnupg.GPG(gpgbinary=sys.argv[1]).verify_file(signature, sys.argv[3]).valid else 1)
"""


class Emacs:
    """emacs's epg, whose `epg-gpg-program` is customized: it accepts if all signatures are good."""
    needed = ("emacs", None)

    def accepts(self, asked, case):
        signature, data = (asked.folder / name for name in CASES[case])
        text = (f'(progn (custom-set-variables \'(epg-gpg-program "{asked.gpg}")) (require \'epg)'
                f' (let ((context (epg-make-context \'OpenPGP)))'
                f' (condition-case nil (epg-verify-file context "{signature}" "{data}") (error nil))'
                f' (let ((found (mapcar #\'epg-signature-status (epg-context-result-for context \'verify))))'
                f' (kill-emacs (if (and found (not (delq \'good found))) 0 1)))))')
        return asked.run("emacs", "-Q", "--batch", "--eval", text).returncode == 0


PROGRAMS = {
    "git verify-commit": Git(),
    "git, gpg.minTrustLevel=fully": Git("-c", "gpg.minTrustLevel=fully"),
    "git receive-pack (signed push)": ReceivePack(),
    "GPGME (python3-gpg)": OfPython("gpg", GPGME),
    "python3-gnupg": OfPython("gnupg", GNUPG),
    "Mail::GnuPG": MailGnupg(),
    "mutt, by GPGME": Mutt("mutt", is_classic=False),
    "mutt, by commands": Mutt("mutt", is_classic=True),
    "neomutt, by GPGME": Mutt("neomutt", is_classic=False),
    "neomutt, by commands": Mutt("neomutt", is_classic=True),
    "notmuch: good": Notmuch(names_signer=False),
    "notmuch: names the signer": Notmuch(names_signer=True),
    "Evolution (camel)": Camel(),
    "emacs (epg)": Emacs(),
    "pacman -U": Pacman(),
    "pacman-key --verify": PacmanKey(),
    "makepkg": Makepkg(is_named=False),
    "makepkg, validpgpkeys": Makepkg(is_named=True),
    "ostree pull": Ostree(),
    "apt-get update": Apt(),
    "mmdebstrap": Mmdebstrap(),
    "debootstrap": Debootstrap(),
    "gpgv --keyring": Gpgv(),
    "dpkg-source": DpkgSource(),
    "dscverify": Dscverify(),
    "uscan": Uscan(),
    "debsig-verify": DebsigVerify(),
}


def lacks(program):
    """Why a program can't be driven here, or None."""
    command, module = program.needed
    if command and not shutil.which(command):
        return f"not installed: {command}"
    if hasattr(program, "library") and not program.library.exists():
        return "not installed: makepkg"
    if module and subprocess.run([PYTHON, "-c", imported(program, module)], capture_output=True,
                                 check=False).returncode:
        return f"not installed: {getattr(program, 'typelib', f'python3-{module}')}"
    return None


def imported(program, module):
    """A program of Python's that fails if a module, or a library behind it, isn't there."""
    name, _, version = getattr(program, "typelib", "").partition("-")
    return f"import {module}" + (f"; gi.require_version('{name}', '{version}')" if name else "")


def answers(host, program):
    """By mode and case, whether a program accepts."""
    found = {}
    for mode in MODES:
        asked = Asked(host, mode)
        getattr(program, "begin", lambda _: None)(asked)
        try:
            found[mode] = _of_mode(program, asked)
        finally:
            getattr(program, "end", lambda _: None)(asked)
            host.configure()
    return found


def _of_mode(program, asked):
    """The first case makes what all share."""
    first, *others = CASES
    found = {first: program.accepts(asked, first)}
    with ThreadPoolExecutor(AT_ONCE) as runs:
        return found | dict(zip(others, runs.map(lambda case: program.accepts(asked, case), others)))
