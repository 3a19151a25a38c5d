"""Tries what a program runs in gpg's place. A service of the trial's own holds the only key that can verify the trial's
signature, so whoever accepts it has asked Tukyamid."""

import os
import subprocess
import tempfile
import time
from collections.abc import Iterator, Sequence
from contextlib import contextmanager
from pathlib import Path

from ..client import connect
from ..configuration import config_file
from ..own_processes import environment, words_of
from ..protocol.refusals import TukyamidError
from ..service.start_on_demand import is_served
from . import trial_data

_PATIENCE = 60.0
# Longer than a busy machine takes, shorter than a user waits.
_MOST_SECONDS = 60


class TrialFailed(TukyamidError):
    """The trial can't be made; the text says why."""


class Trial:
    """A folder with what is verified, and the variables with which programs ask the trial's service. Its policy is
    strict."""

    def __init__(self, folder: Path) -> None:
        self.folder = folder
        self.environment = {name: value for name, value in os.environ.items() if name != "TUKYAMID_CALLER"}
        self.environment[config_file.VARIABLE] = str(folder / "config.toml")
        for name, octets in {
                "data": trial_data.DATA, "data.asc": trial_data.ARMORED, "key.pgp": trial_data.KEY,
                "stranger.sig": trial_data.STRANGERS_SIGNATURE,
                "ring.pgp": trial_data.KEY + trial_data.STRANGERS_KEY}.items():
            (folder / name).write_bytes(octets)
        self._write_config()

    @property
    def socket(self) -> Path:
        """Where the trial's service listens."""
        return self.folder / "socket"

    def _write_config(self) -> None:
        path = self.folder / "config.toml"
        path.write_text(f'socket = "{self.socket}"\nstrict = true\n[roots]\n{trial_data.FINGERPRINT} = 120\n')
        path.chmod(0o600)

    def run(self, words: Sequence[str], given: bytes = b"") -> "subprocess.CompletedProcess[str]":
        """Runs a program in the trial's folder."""
        try:
            done = subprocess.run(words, cwd=self.folder, env=self.environment, input=given, capture_output=True,
                                  timeout=_MOST_SECONDS, check=False)
        except (OSError, subprocess.TimeoutExpired) as error:
            raise TrialFailed(str(error)) from None
        return subprocess.CompletedProcess(done.args, done.returncode, done.stdout.decode(errors="replace"),
                                           done.stderr.decode(errors="replace"))

    def accepts(self, words: Sequence[str]) -> bool:
        """Whether what a program runs in gpg's place accepts the signature, as that of a trust root."""
        done = self.run([*words, "--status-fd", "1", "--batch", "--verify", "data.asc", "data"])
        return done.returncode == 0 and "[GNUPG:] TRUST_ULTIMATE" in done.stdout

    def is_strict_over_keyrings(self, words: Sequence[str]) -> bool:
        """Whether what a program runs in gpgv's place accepts the signature, and refuses a stranger's, whose key is in
        the keyring as well."""
        common = [*words, "--status-fd", "1", "--keyring", str(self.folder / "ring.pgp")]
        good, strange = (self.run([*common, name, "data"]) for name in ("data.asc", "stranger.sig"))
        return good.returncode == 0 and strange.returncode != 0 and "VALIDSIG" not in strange.stdout


@contextmanager
def trial(options: Sequence[str] = ()) -> Iterator[Trial]:
    """A trial with its service, which ends with it. `options` are more words for the service. TrialFailed if it can't
    be started."""
    with tempfile.TemporaryDirectory(prefix="tukyamid-") as folder:
        made = Trial(Path(folder))
        words = [*words_of("service"), "serve", "--socket", str(made.socket), "--database",
                 str(made.folder / "keyring.db"), "--directory", str(made.folder / "pgp.cert.d"), *options]
        with subprocess.Popen(words, stdin=subprocess.DEVNULL, stdout=subprocess.DEVNULL, stderr=subprocess.DEVNULL,
                              env=environment()) as service:
            try:
                _wait_for(made.socket, service)
                with connect(made.socket, timeout=_PATIENCE) as connection:
                    connection.add_keyring(made.folder / "key.pgp")
                yield made
            finally:
                service.terminate()


def _wait_for(socket: Path, service: "subprocess.Popen[bytes]") -> None:
    end = time.monotonic() + _PATIENCE
    while not is_served(socket):
        if service.poll() is not None or time.monotonic() > end:
            raise TrialFailed("the trial's service doesn't start: see the engine and the verifier above")
        time.sleep(0.02)
