"""The signed files of the tests: each with the verdicts that are known in advance, since the tests made it."""

from dataclasses import dataclass, field

import openpgp
from checkers import File
from signers import PACKAGE, RELEASE, SIGNED, sq_sign

DETACHED, ARMORED, CLEAR, WHOLE = ("--detach-sign",), ("--armor", "--detach-sign"), ("--clearsign",), ("--sign",)


@dataclass
class Case:
    """A file, what the verifier says of each signature, whose signatures are good, and who of gpgv, sqv and sq takes
    others as good, with the reason."""
    name: str
    file: File
    words: list
    good: set
    others: dict = field(default_factory=dict)
    why: str = ""


class Files:
    """Makes the files. Those of keys that are revoked later are made before."""

    def __init__(self, signers):
        self._signers = signers
        self.release = signers.write("Release", RELEASE)
        self.package = signers.write("package.tar.zst", PACKAGE)
        self.cases = []

    def make(self):
        self._debian()
        self._arch()
        self._whole()
        self._keys()
        self._spoiled()
        return self

    def _add(self, name, file, words, good, others=None, why=""):
        self.cases.append(Case(name, file, words, set(good), others or {}, why))

    def detached(self, name, octets, data=None):
        return File(data or self.release, self._signers.write(f"{name}.sig", octets))

    def _debian(self):
        """A Release file, with Release.gpg beside it or as InRelease; one signer, or two as in Debian's archive."""
        sign = self._signers.sign
        for names in ("archive",), ("release",), ("archive", "release"):
            words, label = ["good"] * len(names), "-".join(names)
            for how, form in (ARMORED, "Release.gpg"), (DETACHED, "Release.sig"):
                self._add(f"{form} by {label}", self.detached(f"{form}.{label}", sign(self.release, *names, how=how)),
                          words, names)
            clear = self._signers.write(f"InRelease.{label}", sign(self.release, *names, how=CLEAR))
            self._add(f"InRelease by {label}", File(clear), words, names)
        apart = sign(self.release, "archive") + sign(self.release, "release")
        self._add("two signatures one after the other", self.detached("apart", apart), ["good"] * 2,
                  ("archive", "release"))
        self._add("by sq", self.detached("sq", sq_sign(self._signers, "archive", self.release, "--detached")),
                  ["good"], ("archive",))
        for form, words in ("clear", ["--cleartext-signature"]), ("whole", []):
            octets = sq_sign(self._signers, "archive", self.release, *words)
            self._add(f"{form} by sq", File(self._signers.write(f"sq.{form}", octets)), ["good"], ("archive",))

    def _arch(self):
        self._add("package.sig", self.detached("package", self._signers.sign(self.package, "packager"), self.package),
                  ["good"], ("packager",))

    def _whole(self):
        """Messages that hold what is signed: packed by gpg's default, as it is, and as text."""
        for name, options in ("packed", ()), ("plain", ("--compress-algo", "none")):
            for data, form in (self.release, "release"), (self.package, "package"):
                self._add(f"{name} message of {form}", self._message(f"{name}.{form}", data, options), ["good"],
                          ("archive",))
        self._add("text message of release", self._message("text.release", self.release, ("--textmode",)), ["good"],
                  ("archive",))
        self._add("text message of package", self._message("text.package", self.package, ("--textmode",)), ["bad"], (),
                  {"gpgv": {"archive"}}, "a carriage return alone ends a line for Sequoia, and for gpg it doesn't")
        two = self._signers.sign(self.release, "archive", "release", how=WHOLE)
        self._add("message by two", File(self._signers.write("two.pgp", two)), ["good"] * 2, ("archive", "release"))

    def _message(self, name, data, options):
        return File(self._signers.write(name, self._signers.sign(data, "archive", how=WHOLE, options=options)))

    def _keys(self):
        """Signatures that are right over the data, by keys that aren't in order or aren't there."""
        def by(name, at=SIGNED, options=()):
            label = f"{name}-{at}-{'-'.join(options)}"
            return self.detached(label, self._signers.sign(self.release, name, at=at, options=options))
        self._add("a key that has expired since", by("old"), ["good"], ("old",), {"gpgv": set()},
                  "gpgv looks at the key as it is now")
        self._add("a key that was retired since", by("retired"), ["good"], ("retired",), {"gpgv": set()},
                  "gpgv looks at the key as it is now")
        self._add("a key that was compromised", by("lost"), ["refused"], ())
        self._add("a subkey that was compromised", by("divided"), ["refused"], ())
        self._add("a stranger", by("stranger"), ["absent"], ())
        self._add("an impostor", by("impostor"), ["good"], ("impostor",))
        self._add("SHA-1", by("release", options=("--digest-algo", "SHA1")), ["refused"], (), {"gpgv": {"release"}},
                  "gpgv 2.2 takes SHA-1 over data")
        self._add("a signature that has expired", by("release", options=("--default-sig-expire", "1d")), ["refused"],
                  ())
        mixed = self._signers.sign(self.release, "release") + self._signers.sign(self.release, "stranger")
        self._add("one good, one by a stranger", self.detached("mixed", mixed), ["good", "absent"], ("release",))

    def _spoiled(self):
        """Data, signatures and messages that were altered or cut."""
        good = self._signers.sign(self.release, "release")
        wrong = self._signers.write("Release.wrong", RELEASE.replace(b"stable", b"staple"))
        cut = self._signers.write("Release.cut", RELEASE[:-1])
        empty = self._signers.write("Release.empty", b"")
        for data, form in (wrong, "other"), (cut, "cut"), (empty, "empty"):
            self._add(f"{form} data", self.detached(f"data-{form}", good, data), ["bad"], ())
        self._add("an altered signature", self.detached("altered", good[:-1] + bytes([good[-1] ^ 1])), ["bad"], ())
        self._add("a cut signature", self.detached("cut", good[:-9]), ["malformed"], ())
        self._add("nothing as a signature", self.detached("nothing", b""), ["malformed"], ())
        self._add("a text as a signature", self.detached("text", b"good\n"), ["malformed"], ())
        self._add("a certification as a signature", self.detached("certification", self._certification()), ["bad"], ())
        clear = self._signers.sign(self.release, "release", how=CLEAR)
        whole = self._signers.sign(self.release, "release", how=WHOLE, options=("--compress-algo", "none"))
        for name, octets, word in [
            ("altered InRelease", clear.replace(b"stable", b"staple"), "bad"),
            ("cut InRelease", clear[:clear.index(b"-----BEGIN PGP SIGNATURE")], "malformed"),
            ("altered message", whole.replace(b"stable", b"staple"), "bad"),
            ("cut message", whole[:-20], "malformed"),
        ]:
            self._add(name, File(self._signers.write(name.replace(" ", "-"), octets)), [word], ())

    def _certification(self):
        """A signature packet of the release key's certificate: the root's certification of its user ID."""
        text = self._signers.gpg("--export", self._signers.fpr["release"])
        found = [octets for kind, body, octets in openpgp.split(text) if kind == 2 and body[1] == 0x10]
        return found[0]
