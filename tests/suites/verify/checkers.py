"""The programs that are compared: each as the set of primary fingerprints whose signatures it calls good."""

import subprocess
from dataclasses import dataclass
from pathlib import Path

from program import PROGRAM


@dataclass
class File:
    """What is checked: data, and detached signatures unless the data are a signed message themselves."""
    data: Path
    signature: Path | None = None

    @property
    def paths(self):
        """Signature first, as gpgv and sqv take them."""
        return [str(path) for path in (self.signature, self.data) if path is not None]


def _run(*words):
    return subprocess.run(list(map(str, words)), stdin=subprocess.DEVNULL, capture_output=True, check=False)


def by_gpgv(ring, file):
    """Those whom gpgv calls good, and neither expired nor revoked."""
    said = _run("gpgv", "--status-fd", "1", "--keyring", ring.resolve(), *file.paths).stdout
    good, is_good = set(), False
    for line in said.decode("utf-8", "replace").splitlines():
        words = line.split()
        if len(words) < 2:
            continue
        if words[1] in ("GOODSIG", "EXPKEYSIG", "REVKEYSIG", "EXPSIG", "BADSIG", "ERRSIG"):
            is_good = words[1] == "GOODSIG"
        elif words[1] == "VALIDSIG" and is_good:
            good.add(words[11].lower())
    return good


def by_sqv(ring, file):
    """Those whom sqv calls good; it knows detached signatures alone."""
    run = _run("sqv", "--keyring", ring, *file.paths)
    return {line.lower() for line in run.stdout.decode().split()} if run.returncode == 0 else set()


def by_sq(ring, file):
    """Whether sq calls the file good."""
    signature = ["--detached", file.signature] if file.signature is not None else []
    return _run("sq", "verify", "--signer-cert", ring, *signature, file.data).returncode == 0


@dataclass
class Line:
    """A line of the verifier."""
    word: str
    made: str
    kind: str
    hash_algorithm: str
    certificate: str
    key: str
    why: str


def by_verifier(ring, file, *words, status=0):
    """The lines `signature` of `wot-verdicts --data`."""
    signature = ["--signature", file.signature] if file.signature is not None else []
    run = _run(PROGRAM, "--data", file.data, *signature, *words, "--", ring)
    if run.returncode != status:
        raise AssertionError(f"status {run.returncode}, not {status}: {run.stderr.decode()}")
    lines = []
    for line in run.stdout.decode().splitlines():
        mark, *fields = line.split(" ", 7)
        if mark == "signature":
            lines.append(Line(*fields))
        elif mark != "outside":
            raise AssertionError(line)
    return lines
