"""Debian's programs that verify one file over a keyring that they name: sources, packages, and what upstream signed."""

import functools
import shutil
import subprocess
import threading
from contextlib import contextmanager
from http.server import SimpleHTTPRequestHandler, ThreadingHTTPServer

import gnupg
from asked import CASES, SIGNERS, cleartext, detached, file_name

CHANGES = """thing ({version}) unstable; urgency=low

  * It.

 -- S <s@example.org>  Thu, 22 Feb 2024 22:13:20 +0000
"""
POLICY = """<?xml version="1.0"?>
<!DOCTYPE Policy SYSTEM "https://www.debian.org/debsig/1.0/policy.dtd">
<Policy xmlns="https://www.debian.org/debsig/1.0/">
  <Origin Name="people" id="{key}" Description="people"/>
  <Selection><Required Type="origin" File="ring.gpg" id="{key}"/></Selection>
  <Verification><Required Type="origin" File="ring.gpg" id="{key}"/></Verification>
</Policy>
"""


class Gpgv:
    """gpgv over a keyring: by its exit status."""
    needed = ("gpgv", None)

    def accepts(self, asked, case):
        signature, data = (asked.folder / name for name in CASES[case])
        return asked.run("gpgv", "--status-fd", "1", "--keyring", asked.host.people.ring, "--ignore-time-conflict",
                         signature, data).returncode == 0


class DpkgSource:
    """dpkg-source --require-valid-signature, with the people's ring as trustedkeys.gpg."""
    needed = ("dpkg-source", None)

    def accepts(self, asked, case):
        out = self.sources(asked) / f"out-{file_name(case)}"
        shutil.rmtree(out, ignore_errors=True)
        return asked.run("dpkg-source", "--require-valid-signature", "-x", f"{file_name(case)}.dsc", out,
                         at=self.sources(asked)).returncode == 0

    def sources(self, asked):
        """A folder with a signed .dsc for each case."""
        return asked.work("dpkg", lambda work: self._make(asked, work))

    def _make(self, asked, work):
        (work / "thing-1/debian/source").mkdir(parents=True)
        (work / "thing-1/debian/source/format").write_text("3.0 (native)\n")
        (work / "thing-1/debian/changelog").write_text(CHANGES.format(version="1"))
        (work / "thing-1/debian/control").write_text(
            "Source: thing\nMaintainer: S <s@example.org>\n\nPackage: thing\nArchitecture: all\nDescription: it\n")
        asked.run("dpkg-source", "-b", "thing-1", at=work)
        plain = (work / "thing_1.dsc").read_bytes()
        people = asked.host.people
        shutil.copy(people.ring, people.home / "trustedkeys.gpg")
        for case in CASES:
            text = cleartext(people, case, plain, b"Architecture: all", b"Architecture: any")
            (work / f"{file_name(case)}.dsc").write_bytes(text)


class Dscverify(DpkgSource):
    """dscverify, over the same files."""
    needed = ("dscverify", None)

    def accepts(self, asked, case):
        return asked.run("dscverify", "--no-default-keyrings", "--keyring", asked.host.people.ring,
                         f"{file_name(case)}.dsc", at=self.sources(asked)).returncode == 0


class DebsigVerify:
    """debsig-verify over a package that has a signature in it, and over a policy and a keyring for each signer."""
    needed = ("debsig-verify", None)

    def accepts(self, asked, case):
        work = asked.work("debsig", lambda work: self._make(asked, work)) / file_name(case)
        return asked.run("debsig-verify", "--policies-dir", work / "policies", "--keyrings-dir", work / "keyrings",
                         work / "thing.deb").returncode == 0

    def _make(self, asked, work):
        (work / "thing/DEBIAN").mkdir(parents=True)
        (work / "thing/DEBIAN/control").write_text(
            "Package: thing\nVersion: 1\nArchitecture: all\nMaintainer: S <s@example.org>\nDescription: it\n")
        asked.run("dpkg-deb", "--root-owner-group", "-b", "thing", "thing.deb", at=work)
        names = asked.run("ar", "t", "thing.deb", at=work).stdout.split()
        plain = b"".join(subprocess.run(["ar", "p", work / "thing.deb", name], capture_output=True, check=True).stdout
                         for name in names)
        for case in CASES:
            self._add(asked, work, work / file_name(case), case, plain)

    def _add(self, asked, work, folder, case, plain):
        people = asked.host.people
        folder.mkdir()
        shutil.copy(work / "thing.deb", folder)
        (folder / "_gpgorigin").write_bytes(detached(people, case, plain))
        asked.run("ar", "q", "thing.deb", "_gpgorigin", at=folder)
        key = people.fpr[SIGNERS[case][0]].upper()
        for name in "policies", "keyrings":
            (folder / name / key).mkdir(parents=True)
        (folder / "policies" / key / "it.pol").write_text(POLICY.format(key=key))
        # It looks at the first key of a keyring alone.
        names = ["carol"] if case == "missing" else SIGNERS[case]
        ring = [gnupg.gpg(people.home, "--export", people.fpr[name]) for name in names]
        (folder / "keyrings" / key / "ring.gpg").write_bytes(b"".join(ring))


class Uscan:
    """uscan, which fetches a new version of upstream's, with its signature, from a server of this test's."""
    needed = ("uscan", None)

    def accepts(self, asked, case):
        work = asked.work("uscan", lambda work: self._make(asked, work))
        folder = work / file_name(case)
        with served(work / "upstream" / file_name(case)) as port:
            (folder / "debian/watch").write_text(
                f"version=4\nopts=pgpsigurlmangle=s/$/.asc/ http://127.0.0.1:{port}/ thing-(.*)\\.tar\\.gz\n")
            (folder / "fetched").mkdir(exist_ok=True)
            return asked.run("uscan", "--no-symlink", "--force-download", "--destdir=fetched", at=folder,
                             environment={"no_proxy": "127.0.0.1"}).returncode == 0

    def _make(self, asked, work):
        people = asked.host.people
        armored = gnupg.gpg(people.home, "--armor", "--export")
        (work / "thing-2").mkdir()
        (work / "thing-2/it").write_text("it\n")
        asked.run("tar", "-czf", "thing-2.tar.gz", "thing-2", at=work)
        octets = (work / "thing-2.tar.gz").read_bytes()
        for case in CASES:
            folder, upstream = work / file_name(case), work / "upstream" / file_name(case)
            (folder / "debian/upstream").mkdir(parents=True)
            upstream.mkdir(parents=True)
            (folder / "debian/upstream/signing-key.asc").write_bytes(armored)
            (folder / "debian/changelog").write_text(CHANGES.format(version="1-1"))
            (upstream / "thing-2.tar.gz").write_bytes(octets)
            (upstream / "thing-2.tar.gz.asc").write_bytes(detached(people, case, octets, "--armor"))


class _Quiet(SimpleHTTPRequestHandler):
    def log_message(self, *_):
        """Says nothing."""


@contextmanager
def served(folder):
    """A server of a folder's files on this machine; its port."""
    with ThreadingHTTPServer(("127.0.0.1", 0), functools.partial(_Quiet, directory=str(folder))) as server:
        serving = threading.Thread(target=server.serve_forever, daemon=True)
        serving.start()
        try:
            yield server.server_address[1]
        finally:
            server.shutdown()
            serving.join()
