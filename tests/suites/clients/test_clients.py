"""What each program accepts: with the real gpg as trials of it have shown, by default the same, and strict only what
the engine reaches."""

import unittest

from asked import CASES, DEFAULT, REAL, STRICT
from host import ROOT
from made import Made
from programs import PROGRAMS, answers, lacks
from table import row

PAGE = ROOT / "docs/CLIENTS.md"
SIGNED = {"good", "marginal", "uncertified"}
ENDED = {"key expired", "revoked"}
# What each accepts with gpg 2.2: git refuses two signatures; what reads an exit status accepts keys that have ended.
WITH_GPG = {
    "git verify-commit": SIGNED,
    "git, gpg.minTrustLevel=fully": {"good"},
    "git receive-pack (signed push)": SIGNED,
    "GPGME (python3-gpg)": SIGNED | {"two"},
    "python3-gnupg": SIGNED | {"two"},
    "Mail::GnuPG": SIGNED | ENDED | {"two"},
    "mutt, by GPGME": SIGNED | {"two"},
    "mutt, by commands": SIGNED | {"two"},
    "neomutt, by GPGME": SIGNED | {"two"},
    "neomutt, by commands": SIGNED | {"two"},
    "notmuch: good": SIGNED | {"two"},
    "notmuch: names the signer": {"good"},
    "Evolution (camel)": {"good"},
    "emacs (epg)": SIGNED | {"two"},
    "pacman -U": {"good"},
    "pacman-key --verify": {"good", "signature expired", "two"},
    "makepkg": {"good", "marginal", "signature expired"},
    "makepkg, validpgpkeys": SIGNED | {"key expired", "signature expired", "two"},
    "ostree pull": SIGNED | {"two"},
    "apt-get update": SIGNED | {"two"},
    "mmdebstrap": SIGNED | {"two"},
    "debootstrap": SIGNED | ENDED | {"signature expired", "two"},
    "gpgv --keyring": SIGNED | ENDED | {"two"},
    "dpkg-source": SIGNED | ENDED | {"two"},
    "dscverify": SIGNED | ENDED | {"two"},
    "uscan": SIGNED | ENDED | {"two"},
    "debsig-verify": SIGNED | ENDED | {"two"},
}
# By default ours gives no TRUST_FULLY after an expired signature, which these take for yes.
NOT_BY_DEFAULT = {"pacman-key --verify": {"signature expired"}, "makepkg": {"signature expired"}}
# Strict, a signature that the engine reaches is enough for these, whatever stands beside it.
ANY_OF_TWO = {"apt-get update", "pacman-key --verify", "mmdebstrap", "debootstrap", "ostree pull", "Evolution (camel)"}


class Clients(unittest.TestCase):
    maxDiff = None

    def accepted(self, name):
        why = lacks(PROGRAMS[name])
        if why is not None:
            self.skipTest(why)
        found = answers(Made.once(), PROGRAMS[name])
        return found, {mode: {case for case in CASES if found[mode][case]} for mode in found}


def _test_of(name):
    def test(self):
        found, accepted = self.accepted(name)
        self.assertEqual(accepted[REAL], WITH_GPG[name], "with the real gpg")
        self.assertEqual(accepted[DEFAULT], WITH_GPG[name] - NOT_BY_DEFAULT.get(name, set()), "by default")
        self.assertEqual(accepted[STRICT], {"good"} | ({"two"} if name in ANY_OF_TWO else set()), "strict")
        self.assertIn(row(name, found), PAGE.read_text(encoding="utf-8"))
    test.__doc__ = f"{name}, in every case."
    return test


for number, known in enumerate(WITH_GPG):
    word = "".join(letter if letter.isalnum() else "_" for letter in known)
    setattr(Clients, f"test_{word}", _test_of(known))


class Whole(unittest.TestCase):
    def test_every_program_is_expected_of(self):
        self.assertEqual(set(WITH_GPG), set(PROGRAMS))
