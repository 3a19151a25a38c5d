"""The service over the people's keyring, the user's configuration, and `tukyamid-gpg` and the real gpg side by side."""

import os
import re
import socket
import subprocess
import sys
import time
from dataclasses import dataclass, field
from pathlib import Path

ROOT = Path(__file__).resolve().parents[3]
PROGRAM = Path(os.environ.get("TUKYAMID_GPG") or ROOT / "verifier/out/tukyamid-gpg")
VERIFIER = Path(os.environ.get("TUKYAMID_VERIFIER") or ROOT / "verifier/out/wot-verdicts")
ENGINE = Path(os.environ.get("WOT_PROGRAM", ROOT / "crates/wot_cli/out/wot_cli"))
SERVER = ROOT / "python/bin/tukyamid-server"
MARK = b"[GNUPG:] "
# gpg's own lines that say nothing about whether a signature is good.
LEFT_OUT = (b"KEY_CONSIDERED",)


@dataclass
class Answer:
    """What a program answered: its exit status, its status lines without their mark, and its text for people."""
    exit: int
    lines: list
    text: str
    output: bytes = b""

    @property
    def words(self):
        """The first words of the status lines."""
        return [line.split(b" ")[0].decode() for line in self.lines]

    def line(self, word):
        """The one status line of this word, without it; None if there is none."""
        found = [line for line in self.lines if line.split(b" ")[0].decode() == word]
        assert len(found) < 2, found
        return found[0].partition(b" ")[2].decode() if found else None


@dataclass
class Host:
    """A user's folders. `service` is the process of the service, None if it doesn't run."""
    folder: Path
    people: object
    service: object = None
    environment: dict = field(default_factory=dict)

    def __post_init__(self):
        self.home = self.folder / "user"
        for name in ("user/.config/tukyamid", "user/run", "user/data", "bin"):
            (self.folder / name).mkdir(parents=True, mode=0o700)
        (self.home / ".gnupg").symlink_to(self.people.home)
        for name in ("gpg", "gpgv", "gpgconf", "tukyamid-sopv"):
            (self.folder / "bin" / name).symlink_to(PROGRAM)
        self.environment = {
            "PATH": os.environ["PATH"], "HOME": str(self.home), "XDG_RUNTIME_DIR": str(self.home / "run"),
            "LC_ALL": "C.UTF-8", "TZ": "UTC"}
        self.configure()

    @property
    def socket(self):
        return self.home / "run/tukyamid.socket"

    @property
    def file(self):
        """The user's configuration."""
        return self.home / ".config/tukyamid/config.toml"

    def configure(self, text="", roots=("alice",)):
        """Writes the configuration: the keys of `text`, and these roots at 120."""
        lines = [f"{self.people.fpr[name]} = 120" for name in roots]
        before, mark, tables = ("\n" + text).partition("\n[")
        self.file.write_text("\n".join([before, "[roots]", *lines, mark + tables]) + "\n")
        self.file.chmod(0o600)

    def start(self):
        """Starts the service over the people's keyring."""
        words = [sys.executable, SERVER, "serve", "--socket", self.socket, "--database", self.home / "data/keyring.db",
                 "--engine", ENGINE, "--verifier", VERIFIER, "--directory", self.home / "data/pgp.cert.d"]
        self.service = subprocess.Popen(words, stdin=subprocess.DEVNULL, env=self.environment)
        end = time.monotonic() + 60
        while not self.socket.exists():
            if time.monotonic() > end or self.service.poll() is not None:
                raise RuntimeError("the service doesn't start")
            time.sleep(0.02)
        reply = self.ask(b"service keyring add " + os.fsencode(self.people.ring))
        if not reply.startswith(b"ok keyring "):
            raise RuntimeError(reply)

    def ask(self, line):
        """The last line that the service replies to one that it works on for a while."""
        with socket.socket(socket.AF_UNIX) as connection:
            connection.settimeout(60)
            connection.connect(os.fspath(self.socket))
            connection.sendall(line + b"\n")
            with connection.makefile("rb") as replies:
                for reply in replies:
                    if not reply.startswith(b"service progress "):
                        return reply
        return b""

    def end(self):
        if self.service is not None:
            self.service.terminate()
            self.service.wait(30)

    def run(self, *words, program=PROGRAM, given=b"", environment=None, home=None):
        """Runs a program with status lines on standard output, apart from what else it writes."""
        read, write = os.pipe()
        words = [program, *(["--homedir", home] if home else []), "--status-fd", str(write), *words]
        with subprocess.Popen(
                words, stdin=subprocess.PIPE, stdout=subprocess.PIPE, stderr=subprocess.PIPE, pass_fds=[write],
                env=self.environment | (environment or {}), cwd=self.people.folder) as run:
            os.close(write)
            output, text = run.communicate(given, timeout=120)
        with open(read, "rb") as status:
            return Answer(run.returncode, read_lines(status.read()), text.decode("utf-8", "replace"), output)

    def ours(self, *words, **how):
        return self.run(*words, **how)

    def theirs(self, *words, **how):
        """The real gpg's answer."""
        return self.run(*words, program="/usr/bin/gpg", **how)


def read_lines(octets):
    """Status lines without their mark and without those that are left out."""
    lines = []
    for line in octets.removesuffix(b"\n").split(b"\n") if octets else []:
        assert line.startswith(MARK), line
        if not line.startswith(tuple(MARK + word for word in LEFT_OUT)):
            lines.append(line.removeprefix(MARK))
    return lines


def key_id(fpr):
    return fpr[-16:].upper()


def is_status_line(text):
    """Whether any line of a text for people could be taken for a status line."""
    return re.search(r"^\[GNUPG:\]", text, re.MULTILINE) is not None
