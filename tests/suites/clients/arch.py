"""pacman, its key tool, and makepkg: they verify over the user's own folder of GnuPG's."""

import os
import re
from pathlib import Path

from asked import CASES, detached, file_name

INFO = b"pkgname = thing\npkgver = 1-1\npkgdesc = it\nbuilddate = 1708640000\nsize = 0\narch = any\n"
SETTINGS = """[options]
RootDir = {work}/root
DBPath = {work}/db
CacheDir = {work}/cache
LogFile = {work}/log
GPGDir = {home}
Architecture = auto
LocalFileSigLevel = Required TrustedOnly
"""
PACKAGE = "thing-1-1-any.pkg.tar"
BUILD = """pkgname=thing
pkgver=1
pkgrel=1
arch=(any)
source=({sources})
sha256sums=({sums})
validpgpkeys=({keys})
"""


class PacmanKey:
    """pacman-key --verify. It wants a keyring of the old form there, which gpg leaves alone."""
    needed = ("pacman-key", None)
    library = Path("/usr/share/makepkg/util/parseopts.sh")

    def accepts(self, asked, case):
        (asked.host.people.home / "pubring.gpg").touch()
        signature, data = (asked.folder / name for name in CASES[case])
        return asked.run("pacman-key", "--gpgdir", asked.host.people.home, "--verify", signature, data).returncode == 0


class Pacman:
    """pacman -U of a package beside its signature, as far as it prints what it would install."""
    needed = ("pacman", None)

    def accepts(self, asked, case):
        work = asked.work("pacman", lambda work: self._make(asked, work))
        return asked.run("pacman", "--config", work / "pacman.conf", "--noconfirm", "-U", "--print",
                         work / file_name(case) / PACKAGE).returncode == 0

    def _make(self, asked, work):
        for name in "root", "db", "cache":
            (work / name).mkdir()
        (work / "pacman.conf").write_text(SETTINGS.format(work=work, home=asked.host.people.home))
        (work / ".PKGINFO").write_bytes(INFO)
        asked.run("tar", "-cf", PACKAGE, ".PKGINFO", at=work)
        octets = (work / PACKAGE).read_bytes()
        for case in CASES:
            folder = work / file_name(case)
            folder.mkdir()
            (folder / PACKAGE).write_bytes(octets)
            (folder / f"{PACKAGE}.sig").write_bytes(detached(asked.host.people, case, octets))


class Makepkg:
    """makepkg --verifysource, which says of each file whether its signature passed: one run for all cases. It doesn't
    run as root, so root runs it as a user of a namespace. `is_named` says whether the build names its signers
    (validpgpkeys)."""
    needed = ("makepkg", None)
    library = PacmanKey.library

    def __init__(self, is_named):
        self._is_named, self._said = is_named, {}

    def accepts(self, asked, case):
        if asked.mode not in self._said:
            self._said[asked.mode] = self._verify(asked)
        return self._said[asked.mode][file_name(case)] == "Passed"

    def _verify(self, asked):
        """By case, makepkg's word."""
        name = "makepkg-named" if self._is_named else "makepkg"
        work = asked.work(name, lambda work: self._make(asked, work))
        user = ("unshare", "--user", "--map-user=1000") if os.geteuid() == 0 else ()
        said = asked.run(*user, "makepkg", "--verifysource", "--nodeps", at=work)
        words = dict(re.findall(r"^ +([a-z-]+) \.\.\. (Passed|FAILED)", said.stderr, re.MULTILINE))
        assert set(words) == set(map(file_name, CASES)), said
        assert (said.returncode == 0) == (set(words.values()) == {"Passed"}), said
        return words

    def _make(self, asked, work):
        people = asked.host.people
        sources = [name for case in CASES for name in (file_name(case), f"{file_name(case)}.sig")]
        keys = [fpr.upper() for fpr in people.fpr.values()] if self._is_named else []
        (work / "PKGBUILD").write_text(BUILD.format(
            sources=" ".join(sources), sums=" ".join("SKIP" for _ in sources), keys=" ".join(keys)))
        for case, (signature, data) in CASES.items():
            (work / file_name(case)).write_bytes((asked.folder / data).read_bytes())
            (work / f"{file_name(case)}.sig").write_bytes((asked.folder / signature).read_bytes())
