"""The signers of the tests and what they signed, made by gpg and sq: a distribution's release files, a package, and a
message, signed by keys that are in order, expired, revoked, or nobody's."""

import subprocess
from dataclasses import dataclass
from pathlib import Path

import gnupg

MADE = 1700000000               # 2023-11-14: the keys
CERTIFIED = MADE + 86400
SIGNED = MADE + 100 * 86400
EXPIRED = MADE + 365 * 86400    # of the old key; long before today
REVOKED = MADE + 200 * 86400

# A line that begins with a dash, one that ends with spaces, and one that isn't ASCII: cleartext alters each.
RELEASE = """Origin: Example
Suite: stable
- a line that begins with a dash
-----BEGIN nothing
Description: with spaces behind it  \t
Codename: frühling
SHA256:
 9f86d081884c7d659a2feaa0c55ad015a3bf4f1b2b0b822cd15d6c15b0f00a08 4 main/binary-amd64/Packages
""".encode()
PACKAGE = bytes(range(256)) * 40

USER_IDS = {
    "root": "Root <root@example.net>",
    "archive": "Example Archive Automatic Signing Key <ftpmaster@example.org>",
    "release": "Example Stable Release Key <release@example.org>",
    "packager": "Paula Packager <paula@arch.example>",
    "old": "Old Key <old@example.org>",
    "lost": "Lost Key <lost@example.org>",
    "retired": "Retired Key <retired@example.org>",
    "divided": "Divided Key <divided@example.org>",
    "impostor": "Example Archive Automatic Signing Key <ftpmaster@example.org>",
    "stranger": "Stranger <stranger@example.com>",
}
# Those whom the root has certified.
CERTIFIED_NAMES = ("archive", "release", "packager", "old", "lost", "retired", "divided")


@dataclass
class Signers:
    """`fpr` has a fingerprint for each name; `ring` is a file of all certificates but the stranger's."""
    home: Path
    folder: Path
    fpr: dict
    ring: Path

    def write(self, name, octets):
        path = self.folder / name
        path.write_bytes(octets)
        return path

    def gpg(self, *words, at=SIGNED):
        return gnupg.gpg(self.home, *words, at=at)

    def sign(self, data, *names, how=("--detach-sign",), at=SIGNED, options=()):
        """What gpg writes when these sign data."""
        users = [word for name in names for word in ("-u", self.user(name))]
        return self.gpg(*options, *users, "--output", "-", *how, str(data), at=at)

    def user(self, name):
        """The key of a name as gpg takes it; that with subkeys signs with the newest that may."""
        return self.fpr[name]


def make(folder):
    gnupg.FOLDER = folder
    home = gnupg.make_home("home")
    signers = Signers(home, folder, {}, folder / "ring.pgp")
    for name in USER_IDS:
        _generate(signers, name)
    for name in CERTIFIED_NAMES:
        gnupg.gpg(home, "-u", signers.fpr["root"], "--quick-sign-key", signers.fpr[name], at=CERTIFIED)
    return signers


def finish(signers):
    """Revokes what is to be revoked, and writes the keyring: after everything was signed."""
    _revoke(signers, "lost", reason=1)
    _revoke(signers, "retired", reason=2)
    _revoke_subkey(signers, "divided")
    names = [name for name in USER_IDS if name != "stranger"]
    signers.ring.write_bytes(signers.gpg("--export", *(signers.fpr[name] for name in names), at=REVOKED))


def _generate(signers, name):
    algorithm = "rsa2048" if name == "archive" else "ed25519"
    use = "cert" if name in ("archive", "divided") else "cert,sign"
    expiry = "1y" if name == "old" else "never"
    # Two keys have one user ID: which of them is new says the list of all.
    before = set(_fingerprints(signers))
    signers.gpg("--quick-generate-key", USER_IDS[name], algorithm, use, expiry, at=MADE)
    signers.fpr[name], = set(_fingerprints(signers)) - before
    if use == "cert":
        signers.gpg("--quick-add-key", signers.fpr[name], algorithm, "sign", "never", at=MADE)


def _fingerprints(signers):
    """The fingerprints of primary keys, in lower case."""
    primary = False
    for line in signers.gpg("--with-colons", "--list-keys", at=MADE).decode().splitlines():
        fields = line.split(":")
        if fields[0] in ("pub", "sub"):
            primary = fields[0] == "pub"
        elif fields[0] == "fpr" and primary:
            yield fields[9].lower()


def _revoke(signers, name, reason):
    """Revokes a key: by gpg's list 1 is compromised, 2 is superseded."""
    text = gnupg.gpg(signers.home, "--output", "-", "--armor", "--gen-revoke", signers.fpr[name],
                     given=f"y\n{reason}\n\ny\n", at=REVOKED)
    gnupg.gpg(signers.home, "--import", str(signers.write(f"{name}.rev", text)), at=REVOKED)


def _revoke_subkey(signers, name):
    gnupg.gpg(signers.home, "--edit-key", signers.fpr[name], given="key 1\nrevkey\ny\n1\n\ny\nsave\n", at=REVOKED)


def sq_sign(signers, name, data, *words):
    """What sq writes when somebody signs data; its key has no password."""
    secret = signers.write(f"{name}.secret", signers.gpg("--export-secret-keys", signers.fpr[name]))
    run = subprocess.run(["sq", "sign", "--signer-key", str(secret), "--time", "20240301T000000", *words, str(data)],
                         stdin=subprocess.DEVNULL, capture_output=True, check=False)
    if run.returncode:
        raise RuntimeError(run.stderr.decode())
    return run.stdout
