"""The configuration file, which Python and `tukyamid-gpg` read: both take a file, or both refuse it."""

import os
import subprocess
import tempfile
import tomllib
from pathlib import Path

from plain import ROOT

from tukyamid.configuration import config_file, config_values, plain_toml

PROGRAM = Path(os.environ.get("TUKYAMID_GPG") or ROOT / "verifier/out/tukyamid-gpg")
PATIENCE = 60
FPR = "ab" * 20
SAMPLES = [
    'amount = 120\ninputs = ["service"]\nstrict = false\n\n[roots]\n'
    f'{FPR} = 120   # Alice\n{FPR.upper()[::-1]} = 60\n\n'
    '[caller.git]\nfor = ["@example.org", "a@b.c", "Carol"]\nstrict = true\n',
    'inputs = ["gpg", "/x"]\nsocket = "/run/x"\nhomes = ["/etc/pacman.d/gnupg"]\nthreshold = 2\nfor = ["@x.org"]\n',
    'caller.apt.strict = true\ncaller.apt.amount = 240\ncaller.mutt = {threshold = 3}\n',
    'strict = true\nroots = {}\n',
    f'[sets.Debian]\n{FPR} = 120\n[sets.me]\n{FPR} = 1\n',
    "",
]


class Differs(AssertionError):
    """One of the two takes a file that the other one refuses, or a reader ends in another way."""


def read_plain(octets: bytes) -> bool:
    """Whether the reader of plain files takes these octets; Differs if Python's own reader of TOML doesn't read the
    same."""
    text = octets.decode()
    plain = plain_toml.read(text)
    if plain is None:
        return False
    try:
        whole = tomllib.loads(text)
    except ValueError as error:
        raise Differs(f"a plain file: {plain}, and {error}") from None
    if repr(plain) != repr(whole):
        raise Differs(f"{plain} isn't {whole}")
    return True


class Readers:
    """Both readers of a file, in a directory of their own."""

    def __init__(self) -> None:
        self._folder = tempfile.TemporaryDirectory(prefix="tukyamid-")
        self._path = Path(self._folder.name) / "tukyamid/config.toml"
        self._path.parent.mkdir(mode=0o700)
        self._environment = {"XDG_CONFIG_HOME": self._folder.name, "PATH": os.environ["PATH"]}

    def read(self, octets: bytes) -> bool:
        """Whether both take a file with these octets; Differs if only one does."""
        self._path.write_bytes(octets)
        self._path.chmod(0o600)
        by_python, by_program = self.by_python(), self.by_program()
        if by_python is None and by_program is None:
            return True
        if by_python is None or by_program is None:
            raise Differs(f"Python: {by_python or 'taken'}; tukyamid-gpg: {by_program or 'taken'}")
        return False

    def by_python(self) -> str | None:
        """Why Python refuses the file; None if it takes it."""
        try:
            config_values.read_checked(str(self._path), config_file.read(str(self._path)) or "")
        except config_file.ConfigUnusable as unusable:
            return str(unusable)
        return None

    def by_program(self) -> str | None:
        """Why `tukyamid-gpg` refuses the file; None if it takes it, and then lacks the file of the signature."""
        words = [PROGRAM, "--verify", "/nonexistent/signature"]
        done = subprocess.run(words, env=self._environment, stdin=subprocess.DEVNULL, capture_output=True,
                              timeout=PATIENCE, check=False)
        said = done.stderr.decode("utf-8", "replace")
        if done.returncode != 2 or "verify signatures failed: " not in said:
            raise Differs(f"tukyamid-gpg ended with status {done.returncode}: {said[:300]!a}")
        return None if "/nonexistent/signature" in said else said
