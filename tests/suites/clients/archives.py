"""Programs that install from a repository: each asks about the signature of its InRelease, over the people's ring."""

import gzip
import hashlib
import shutil

from asked import CASES, cleartext, file_name

PACKAGE = """Package: thing
Version: 1
Architecture: amd64
Essential: yes
Priority: required
Maintainer: S <s@example.org>
Filename: pool/thing.deb
Size: 1
SHA256: e3b0c44298fc1c149afbf4c8996fb92427ae41e4649b934ca495991b7852b855
Description: it
"""
RELEASE = """Origin: people
Suite: stable
Codename: stable
Date: Thu, 22 Feb 2024 22:13:20 UTC
Architectures: amd64
Components: main
SHA256:
"""


def repository(asked, case):
    """The repository whose InRelease has a case's signature."""
    return asked.work("archives", lambda work: _make(asked.host.people, work)) / file_name(case)


def _make(people, work):
    indexes = {"Packages": PACKAGE.encode(), "Packages.gz": gzip.compress(PACKAGE.encode(), mtime=0)}
    sums = [f" {hashlib.sha256(octets).hexdigest()} {len(octets)} main/binary-amd64/{name}\n"
            for name, octets in indexes.items()]
    release = (RELEASE + "".join(sums)).encode()
    for case in CASES:
        top = work / file_name(case) / "dists/stable"
        (top / "main/binary-amd64").mkdir(parents=True)
        for name, octets in indexes.items():
            (top / "main/binary-amd64" / name).write_bytes(octets)
        (top / "InRelease").write_bytes(cleartext(people, case, release, b"Origin: people", b"Origin: others"))


def line(asked, case):
    """The repository's line in sources.list."""
    return f"deb [signed-by={asked.host.people.ring} arch=amd64] file:{repository(asked, case)} stable main"


class Apt:
    """apt-get update."""
    needed = ("apt-get", None)

    def accepts(self, asked, case):
        work = repository(asked, case) / "apt"
        shutil.rmtree(work, ignore_errors=True)
        for name in "lists/partial", "cache/archives/partial":
            (work / name).mkdir(parents=True)
        (work / "status").touch()
        (work / "sources.list").write_text(line(asked, case) + "\n")
        options = {"Dir::State": work, "Dir::State::status": work / "status", "Dir::Cache": work / "cache",
                   "Dir::Etc::sourcelist": work / "sources.list", "Dir::Etc::sourceparts": "/dev/null",
                   "APT::Sandbox::User": "root", "Dir::Etc::parts": "/dev/null", "APT::Architecture": "amd64",
                   "APT::Key::GPGVCommand": "/usr/bin/gpgv" if asked.is_real else asked.folder / "bin/gpgv"}
        words = [word for name, value in options.items() for word in ("-o", f"{name}={value}")]
        found = asked.run("apt-get", *words, "update")
        return found.returncode == 0 and not any(said.startswith(("W:", "E:")) for said in found.stderr.splitlines())


class Debootstrap:
    """debootstrap, as far as it lists the packages that it would install."""
    needed = ("debootstrap", None)

    def accepts(self, asked, case):
        target = repository(asked, case) / "debootstrap"
        shutil.rmtree(target, ignore_errors=True)
        return asked.run("debootstrap", "--print-debs", f"--keyring={asked.host.people.ring}", "--variant=minbase",
                         "--arch=amd64", "stable", target, f"file://{repository(asked, case)}", "sid").returncode == 0


class Mmdebstrap:
    """mmdebstrap, as far as it updates the lists of packages, by an apt that finds gpgv on PATH."""
    needed = ("mmdebstrap", None)

    def accepts(self, asked, case):
        return asked.run("mmdebstrap", "--simulate", "--variant=custom", "--mode=chrootless", "--format=null",
                         "--architectures=amd64", "--skip=check/signed-by", '--aptopt=APT::Sandbox::User "root"',
                         "stable", "-", line(asked, case)).returncode == 0
