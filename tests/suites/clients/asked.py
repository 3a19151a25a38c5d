"""Who is asked, and about which signatures: the real gpg, or `tukyamid-gpg` by default or strict.

The files are those of the suite `gpg`: signatures on `data` by people with and without a path from Alice, the root.
"""

import os
import subprocess
import sys
from dataclasses import dataclass
from pathlib import Path

from host import PROGRAM, ROOT

# What is verified: the signature, and what it is on.
CASES = {
    "good": ("bob.detached", "data"), "marginal": ("marg.detached", "data"), "uncertified": ("carol.detached", "data"),
    "key expired": ("dave.detached", "data"), "signature expired": ("expiring.detached", "data"),
    "revoked": ("eve.detached", "data"), "missing": ("mia.detached", "data"), "bad": ("bob.detached", "altered"),
    "two": ("two.detached", "data")}
# Who signs what is made for one program. What is bad is Bob's too, and altered afterwards.
SIGNERS = {"good": ("bob",), "marginal": ("marg",), "uncertified": ("carol",), "key expired": ("dave",),
           "signature expired": ("bob",), "revoked": ("eve",), "missing": ("mia",), "bad": ("bob",),
           "two": ("bob", "carol")}
REAL, DEFAULT, STRICT = "gpg", "default", "strict"
MODES = (REAL, DEFAULT, STRICT)
PYTHON = "/usr/bin/python3"
# A busy machine takes long, and nothing here may fail by that.
PATIENCE = 900


@dataclass
class Asked:
    """Who is asked: the host of the people, and whether the real gpg or ours answers."""
    host: object
    mode: str

    def __post_init__(self):
        self.folder = self.host.people.folder
        self.host.configure("strict = true\n" if self.mode == STRICT else "")
        self.is_real = self.mode == REAL
        self.gpg = "/usr/bin/gpg" if self.is_real else str(PROGRAM)

    def run(self, *words, environment=None, at=None, given="", is_text=True):
        """Runs a program that finds gpg on PATH."""
        form = {"text": True, "errors": "replace"} if is_text else {"text": False}
        return subprocess.run([str(word) for word in words], capture_output=True, input=given if is_text else b"",
                              timeout=PATIENCE, env=self.environment | (environment or {}), check=False,
                              cwd=at or self.folder, **form)

    @property
    def environment(self):
        """The user's variables, with gpg's names first on PATH: the real ones, or ours."""
        front = self.folder / ("no-names" if self.is_real else "bin")
        return self.host.environment | {"PATH": f"{front}:{without_sequoia(self.folder)}"}

    def set_up(self, *words, environment=None):
        """Has `tukyamid setup` configure a program to ask this gpg, or with --undo no longer."""
        done = self.run(sys.executable, ROOT / "python/bin/tukyamid", "setup", *words,
                        environment={"TUKYAMID_GPG": self.gpg} | (environment or {}))
        if done.returncode:
            raise RuntimeError(f"tukyamid setup {words}: {done.stderr}")

    def work(self, name, make):
        """A folder of this name, which `make` fills the first time."""
        work = self.folder / f"{name}-of-clients"
        if not work.exists():
            work.mkdir()
            make(work)
        return work


def file_name(case):
    """A case as the name of a file."""
    return case.replace(" ", "-")


def expiry(case):
    """The options of gpg that have a signature end before now, if it is to."""
    return ("--default-sig-expire", "10d") if case == "signature expired" else ()


def detached(people, case, data, *how):
    """A case's detached signature of data."""
    said = data + b"altered" if case == "bad" else data
    return people.sign(*SIGNERS[case], how=("--detach-sign", *how), data=said, options=expiry(case))


def cleartext(people, case, data, before, after):
    """A case's text with its signature. The bad one has another word in it."""
    text = people.sign(*SIGNERS[case], how=("--clear-sign",), data=data, options=expiry(case))
    return text.replace(before, after, 1) if case == "bad" else text


def without_sequoia(folder):
    """A folder of the system's programs without Sequoia's, which dpkg would ask before gpgv."""
    path = Path(folder) / "system"
    if not path.exists():
        path.mkdir()
        for program in os.listdir("/usr/bin"):
            if not program.startswith(("sq", "gosop", "pgpainless", "rsop")):
                (path / program).symlink_to(f"/usr/bin/{program}")
        for program in os.listdir("/usr/sbin"):
            if not (path / program).is_symlink():
                (path / program).symlink_to(f"/usr/sbin/{program}")
    return path
