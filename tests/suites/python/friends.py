"""A keyring that gpg makes: six people who certify one another, with results that are known in advance.

    Alice  makes Bob an introducer for example.org (depth 1, amount 120), and Carol and Erin one for all (60 and 120)
    Bob    certifies Carol, Dave (of example.net, out of his scope), Erin, and Frank for 30 days
    Carol  certifies Dave
    Erin   certifies Frank; later her key is revoked, with effect at all times
"""

import functools
import re
import subprocess

from outside import folder

PEOPLE = {name: f"{name} <{name.lower()}@example.{domain}>" for name, domain in
          (("Alice", "net"), ("Bob", "org"), ("Carol", "org"), ("Dave", "net"), ("Erin", "org"), ("Frank", "org"))}


class Friends:
    def __init__(self):
        self.home = folder() / "gpg"
        self.home.mkdir(mode=0o700)
        # gpg waits for an agent that it starts itself for five seconds alone.
        subprocess.run(["gpg-agent", "--homedir", str(self.home), "--daemon"], stdin=subprocess.DEVNULL,
                       stdout=subprocess.DEVNULL, stderr=subprocess.DEVNULL, timeout=600, check=True)
        self.fpr = {name: self._make(uid) for name, uid in PEOPLE.items()}
        self._introduce("Alice", "Bob", 2, "example.org", "20250201T000000!")
        self._introduce("Alice", "Carol", 1, "", "20250202T000000!")
        self._introduce("Alice", "Erin", 2, "", "20250203T000000!")
        self._certify("Bob", "Carol", "20250301T000000!")
        self._certify("Bob", "Dave", "20250302T000000!")
        self._certify("Bob", "Erin", "20250303T000000!")
        self._certify("Carol", "Dave", "20250304T000000!")
        self._certify("Erin", "Frank", "20250401T000000!")
        self._certify("Bob", "Frank", "20250402T000000!", "--default-cert-expire", "30d")
        self._revoke("Erin")
        self.keyring = folder() / "friends.pgp"
        self.keyring.write_bytes(self._gpg("--export"))
        self._exported = {name: self._gpg("--export", fpr) for name, fpr in self.fpr.items()}
        self._armored = {word: self._gpg("--batch", "--armor", word, self.fpr["Alice"])
                         for word in ("--export", "--export-secret-keys")}
        subprocess.run(["gpgconf", "--homedir", str(self.home), "--kill", "all"], check=False)

    def without(self, missing):
        """A keyring of all but one."""
        path = folder() / f"without-{missing}.pgp"
        path.write_bytes(b"".join(octets for name, octets in self._exported.items() if name != missing))
        return path

    def armored_alice(self, secret):
        """Alice's certificate as a text, or with its secret parts."""
        return self._armored["--export-secret-keys" if secret else "--export"]

    def as_directory(self, path, root):
        """The certificates as a certificate directory, with one of them as its trust root."""
        for name, fpr in self.fpr.items():
            exported = self._exported[name]
            (path / fpr[:2]).mkdir(parents=True, exist_ok=True)
            (path / fpr[:2] / fpr[2:]).write_bytes(exported)
            if name == root:
                (path / "trust-root").write_bytes(exported)
        return path

    def _gpg(self, *words, typed=b""):
        done = subprocess.run(["gpg", "--homedir", str(self.home), "--quiet", "--no-tty", "--yes", *words], input=typed,
                              capture_output=True, timeout=600, check=False)
        if done.returncode:
            raise RuntimeError(f"gpg {words}: {done.stderr.decode(errors='replace')}")
        return done.stdout

    def _make(self, uid):
        said = self._gpg("--batch", "--status-fd", "1", "--faked-system-time", "20250101T000000!", "--passphrase", "",
                         "--quick-gen-key", uid, "ed25519", "cert,sign", "never")
        return re.search(rb"KEY_CREATED P ([0-9A-F]{40})", said).group(1).decode().lower()

    def _introduce(self, issuer, target, value, domain, when):
        self._gpg("--faked-system-time", when, "--command-fd", "0", "--status-fd", "1", "-u", self.fpr[issuer],
                  "--edit-key", self.fpr[target], "tsign", typed=f"{value}\n1\n{domain}\ny\nsave\n".encode())

    def _certify(self, issuer, target, when, *options):
        self._gpg("--batch", "--faked-system-time", when, *options, "-u", self.fpr[issuer], "--quick-sign-key",
                  self.fpr[target])

    def _revoke(self, name):
        made = self.home / "openpgp-revocs.d" / f"{self.fpr[name].upper()}.rev"
        self._gpg("--batch", "--import", typed=made.read_bytes().replace(b":-----BEGIN", b"-----BEGIN"))


@functools.cache
def friends():
    return Friends()
