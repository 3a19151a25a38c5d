"""The keyring of the tests, made by gpg: five keys of five algorithms that certify each other."""

import subprocess
from collections import Counter
from dataclasses import dataclass
from pathlib import Path

import openpgp

FOLDER = Path("/nonexistent")
# All is made in one second.
NOW = 1700000000
ALGORITHMS = {"alice": "rsa2048", "bob": "ed25519", "carol": "dsa2048", "dave": "nistp256", "erin": "nistp521"}
PICTURE = bytes.fromhex("ffd8ffe000104a46494600010100000100010000ffd9")


def make_home(name):
    """A folder for gpg, with an agent: for one that it starts itself gpg waits for five seconds alone."""
    home = FOLDER / name
    home.mkdir(mode=0o700)
    subprocess.run(["gpg-agent", "--homedir", str(home), "--daemon"], stdin=subprocess.DEVNULL,
                   stdout=subprocess.DEVNULL, stderr=subprocess.DEVNULL, check=True)
    return home


def gpg(home, *words, given=None, status=0, at=NOW):
    """Runs gpg at a time, and gives what it writes."""
    common = ["--batch", "--yes", "--no-tty", "--passphrase", "", "--pinentry-mode", "loopback",
              "--faked-system-time", f"{at}!", "--trust-model", "always", "--no-auto-check-trustdb"]
    if given is not None:
        common.remove("--batch")
        common += ["--command-fd", "0"]
    run = subprocess.run(["gpg", "--homedir", str(home), *common, *words],
                         input=b"" if given is None else given.encode(), capture_output=True)
    if run.returncode != status:
        raise RuntimeError(f"gpg {words}: {run.stderr.decode()}")
    return run.stdout


@dataclass
class Ring:
    folder: Path
    home: Path
    user_ids: dict
    fingerprints: dict
    by_id: dict
    texts: dict
    exported: bytes
    secrets: bytes
    plan: Counter
    marks: set


def made():
    """Makes the keyring."""
    home = make_home("home")
    user_ids = {name: f"{name.title()} <{name}@example.org>" for name in ALGORITHMS}
    fingerprints = {}
    for name, algorithm in ALGORITHMS.items():
        gpg(home, "--quick-generate-key", user_ids[name], algorithm, "cert,sign", "never")
        listed = gpg(home, "--with-colons", "--list-keys", f"={user_ids[name]}").decode()
        fingerprints[name] = next(line.split(":")[9] for line in listed.splitlines() if line.startswith("fpr")).lower()
    certify(home, fingerprints)
    extend(home, fingerprints)
    # Before the revocation, since gpg doesn't check what a revoked key made.
    marks = check(home)
    revoke(home, fingerprints)
    texts = {name: gpg(home, "--export", fingerprint) for name, fingerprint in fingerprints.items()}
    by_id = {fingerprint[-16:]: fingerprint for fingerprint in fingerprints.values()}
    return Ring(FOLDER, home, user_ids, fingerprints, by_id, texts, gpg(home, "--export"),
                gpg(home, "--export-secret-keys"), plan(user_ids, fingerprints, texts), marks)


def certify(home, fingerprints):
    """Each certifies each other; Alice makes Bob an introducer for example.org."""
    for issuer in fingerprints:
        for target in fingerprints:
            if (issuer, target) == ("alice", "bob"):
                gpg(home, "-u", fingerprints[issuer], "--edit-key", fingerprints[target],
                    given="tsign\n2\n1\nexample.org\ny\nsave\n")
            elif issuer != target:
                gpg(home, "-u", fingerprints[issuer], "--quick-sign-key", fingerprints[target])


def extend(home, fingerprints):
    """Alice has a subkey and a picture, Carol revokes a second user ID, Dave names Alice as a revoker."""
    picture = FOLDER / "picture.jpg"
    picture.write_bytes(PICTURE)
    gpg(home, "--quick-add-key", fingerprints["alice"], "rsa2048", "encr", "never")
    gpg(home, "--edit-key", fingerprints["alice"], given=f"addphoto\n{picture}\ny\nsave\n")
    gpg(home, "--quick-add-uid", fingerprints["carol"], "Carol <carol@example.net>")
    gpg(home, "--quick-revoke-uid", fingerprints["carol"], "Carol <carol@example.net>")
    gpg(home, "--edit-key", fingerprints["dave"], given=f"addrevoker\n{fingerprints['alice']}\ny\nsave\n")


def revoke(home, fingerprints):
    """Erin's key is revoked."""
    kept = home / "openpgp-revocs.d" / f"{fingerprints['erin'].upper()}.rev"
    revocation = FOLDER / "revocation.asc"
    revocation.write_bytes(kept.read_bytes().replace(b":-----BEGIN", b"-----BEGIN"))
    gpg(home, "--import", str(revocation))


def plan(user_ids, fingerprints, texts):
    """The signatures that must be there, as place, kind, component, issuer and owner."""
    plan = Counter()
    for target, owner in fingerprints.items():
        for issuer, by in fingerprints.items():
            plan[(1, 0x13 if issuer == target else 0x10, user_ids[target].encode(), by, owner)] += 1
    alice, carol, dave, erin = (fingerprints[name] for name in ("alice", "carol", "dave", "erin"))
    subkey, = (body for kind, body in openpgp.packets(texts["alice"]) if kind == 14)
    attribute, = (body for kind, body in openpgp.packets(texts["alice"]) if kind == 17)
    plan[(3, 0x18, subkey, alice, alice)] += 1
    plan[(2, 0x13, attribute, alice, alice)] += 1
    plan[(1, 0x13, b"Carol <carol@example.net>", carol, carol)] += 1
    plan[(1, 0x30, b"Carol <carol@example.net>", carol, carol)] += 1
    plan[(0, 0x1f, b"", dave, dave)] += 1
    plan[(0, 0x20, b"", erin, erin)] += 1
    return plan


def check(home):
    """What gpg says of the signatures: `!` is good."""
    listed = gpg(home, "--with-colons", "--check-signatures").decode()
    return {line.split(":")[1] for line in listed.splitlines() if line.startswith(("sig:", "rev:"))}


def end():
    """Ends the agents that gpg started."""
    for home in FOLDER.glob("*/private-keys-v1.d"):
        subprocess.run(["gpgconf", "--homedir", str(home.parent), "--kill", "all"], capture_output=True)
