"""The people of the tests and what they sign, made by gpg: a root, those whom she certified, and those whom she didn't.

The real gpg gets the same keyring, with owner trust for Alice and for the introducer, so that answers can be compared.
"""

import re
import subprocess
import sys
from dataclasses import dataclass
from pathlib import Path

sys.path.insert(0, str(Path(__file__).resolve().parents[1] / "verdicts"))
import gnupg  # noqa: E402

MADE = 1700000000               # 2023-11-14: the keys
CERTIFIED = MADE + 86400
SIGNED = MADE + 100 * 86400     # 2024-02-22
REVOKED = MADE + 200 * 86400

DATA = b"first line\n- second line\nthird line with spaces behind it  \n"
USER_IDS = {
    "alice": "Alice <alice@example.org>",
    "bob": "Bob <bob@example.org>",
    "sub": "Sub <sub@example.org>",
    "intro": "Intro <intro@example.org>",
    "marg": "Marg <marg@example.org>",
    "carol": "Carol <carol@example.org>",
    "dave": "Dave <dave@example.org>",
    "eve": "Eve <eve@example.org>",
    "mia": "Mia <mia@example.org>",
}
CERTIFIED_BY_ALICE = ("bob", "sub", "dave", "eve")


@dataclass
class People:
    """Homes of gpg: `maker` has every secret key, `home` is the user's. `ring` is a file of all but Mia's key."""
    folder: Path
    maker: Path
    home: Path
    fpr: dict
    ring: Path

    def gpg(self, *words, at=SIGNED, given=None):
        return gnupg.gpg(self.maker, *words, at=at, given=given)

    def write(self, name, octets):
        path = self.folder / name
        path.write_bytes(octets)
        return path

    def sign(self, *names, how=("--detach-sign",), data=DATA, options=(), at=SIGNED):
        """What gpg writes when these sign data."""
        users = [word for name in names for word in ("-u", self.fpr.get(name, name))]
        path = self.write("to-sign", data)
        return self.gpg(*options, *users, "--output", "-", *how, str(path), at=at)


def make(folder):
    """Makes the keys, certifies some, and gives the user's gpg all but Mia's."""
    gnupg.FOLDER = folder
    people = People(folder, gnupg.make_home("maker"), gnupg.make_home("home"), {}, folder / "ring.pgp")
    for name in USER_IDS:
        _generate(people, name)
    for name in CERTIFIED_BY_ALICE:
        people.gpg("-u", people.fpr["alice"], "--quick-sign-key", people.fpr[name], at=CERTIFIED)
    # Alice trusts Intro partially (60) as an introducer.
    people.gpg("-u", people.fpr["alice"], "--edit-key", people.fpr["intro"], at=CERTIFIED,
               given="tsign\n1\n1\n\ny\nsave\n")
    people.gpg("-u", people.fpr["intro"], "--quick-sign-key", people.fpr["marg"], at=CERTIFIED)
    return people


def finish(people):
    """Gives the user's gpg the keyring, with Eve's key revoked, which still signs elsewhere, and owner trust."""
    names = [name for name in USER_IDS if name != "mia"]
    whole = people.gpg("--export", *(people.fpr[name] for name in names), at=REVOKED)
    text = people.gpg("--output", "-", "--armor", "--gen-revoke", people.fpr["eve"], given="y\n1\n\ny\n", at=REVOKED)
    trust = f"{people.fpr['alice'].upper()}:6:\n{people.fpr['intro'].upper()}:4:\n".encode()
    _keep(people, "--import", people.write("whole", whole))
    _keep(people, "--import", people.write("eve.rev", text))
    _keep(people, "--import-ownertrust", people.write("trust", trust))
    _keep(people, "--check-trustdb")
    people.ring.write_bytes(gnupg.gpg(people.home, "--export", at=REVOKED))
    _add_reader(people)


def _add_reader(people):
    """The user's own key, which decrypts and signs, and which only the user's gpg has."""
    user_id = "Reader <reader@example.org>"
    gnupg.gpg(people.home, "--quick-generate-key", user_id, "default", "default", "never", at=MADE)
    people.gpg("--import", str(people.write("reader", gnupg.gpg(people.home, "--export", "reader@example.org"))))
    for name, how in ("detached", "--detach-sign"), ("clear", "--clear-sign"):
        data = str(people.write("to-sign", DATA))
        people.write(f"reader.{name}", gnupg.gpg(people.home, "-u", user_id, "--output", "-", how, data, at=SIGNED))
    _keep(people, "--import-ownertrust", people.write("trust", b"%s:2:\n" % _fpr_of(people, "reader").encode()))


def _fpr_of(people, name):
    listed = gnupg.gpg(people.home, "--with-colons", "--list-keys", f"{name}@example.org", at=MADE).decode()
    return re.search(r"^fpr:+([0-9A-F]+):", listed, re.MULTILINE)[1]


def _keep(people, *words):
    """Has the user's gpg take something in, at the present time."""
    subprocess.run(["gpg", "--homedir", people.home, "--batch", "--quiet", *words], check=True,
                   stdin=subprocess.DEVNULL, capture_output=True)


def _generate(people, name):
    use = "cert" if name == "sub" else "cert,sign"
    expiry = "1y" if name == "dave" else "never"
    algorithm = "rsa2048" if name == "bob" else "ed25519"
    people.gpg("--quick-generate-key", USER_IDS[name], algorithm, use, expiry, at=MADE)
    listed = people.gpg("--with-colons", "--list-keys", f"={USER_IDS[name]}", at=MADE).decode()
    people.fpr[name] = re.search(r"^fpr:+([0-9A-F]+):", listed, re.MULTILINE)[1].lower()
    if use == "cert":
        people.gpg("--quick-add-key", people.fpr[name], "ed25519", "sign", "never", at=MADE)
