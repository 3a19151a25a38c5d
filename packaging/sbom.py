"""The list of what is inside the packages (an SBOM), in the JSON form of SPDX 2.3."""

from __future__ import annotations

import hashlib
import io
import subprocess
import tarfile
from collections.abc import Iterable, Iterator, Mapping, Sequence
from datetime import datetime, timezone
from pathlib import Path

from linked import Library

Element = dict[str, object]
LICENSE = "Apache-2.0"
ENGINE = "tukyamid"
VERIFIERS = ("tukyamid-gpg", "tukyamid-verifier")  # They have the same libraries inside.


def bill_of_materials(top: Path, packages: Sequence[Path], build: Mapping[str, str], epoch: int,
                      of_the_verifier: Sequence[Library]) -> Element:
    """The document about these packages: each with its files, and the libraries within the two programs."""
    document: Element = {
        "spdxVersion": "SPDX-2.3", "dataLicense": "CC0-1.0", "SPDXID": "SPDXRef-DOCUMENT",
        "name": f"tukyamid-{build['version']}",
        "documentNamespace": f"https://spdx.org/spdxdocs/tukyamid-{build['version']}-{build['commit']}",
        "creationInfo": {"created": datetime.fromtimestamp(epoch, timezone.utc).strftime("%Y-%m-%dT%H:%M:%SZ"),
                         "creators": [f"Tool: tools/package-{build['version']}"]},
    }
    elements: list[Element] = []
    files: list[Element] = []
    relations: list[Element] = []
    for package in packages:
        element, inside = _package(package)
        elements.append(element)
        files += inside
        relations.append(_relation("SPDXRef-DOCUMENT", "DESCRIBES", element))
        relations += [_relation(element["SPDXID"], "CONTAINS", file) for file in inside]
        for library in _libraries(top, str(element["name"]), build, of_the_verifier):
            elements += [library] if library not in elements else []
            relations.append(_relation(element["SPDXID"], "STATIC_LINK", library))
    return document | {"packages": elements, "files": files, "relationships": relations}


def _relation(one: object, kind: str, other: Element) -> Element:
    return {"spdxElementId": one, "relationshipType": kind, "relatedSpdxElement": other["SPDXID"]}


def _identity(*words: str) -> str:
    plain = "-".join(words)
    return "SPDXRef-" + "".join(c if c.isascii() and (c.isalnum() or c in ".-") else "-" for c in plain)


def _field(package: Path, name: str) -> str:
    return subprocess.run(["dpkg-deb", "-f", package, name], capture_output=True, text=True, check=True).stdout.strip()


def _package(path: Path) -> tuple[Element, list[Element]]:
    """A package, and its files."""
    name, version, architecture = (_field(path, field) for field in ("Package", "Version", "Architecture"))
    files = list(_files(path, name))
    sums = sorted(str(checksum["checksumValue"]) for file in files for checksum in _checksums_of(file)
                  if checksum["algorithm"] == "SHA1")
    return {
        "SPDXID": _identity("Package", name), "name": name, "versionInfo": version, "packageFileName": path.name,
        "downloadLocation": "NOASSERTION", "licenseConcluded": LICENSE, "licenseDeclared": LICENSE,
        "copyrightText": "NOASSERTION", "checksums": _checksums(path.read_bytes()), "filesAnalyzed": True,
        "packageVerificationCode": {
            "packageVerificationCodeValue": hashlib.sha1("".join(sums).encode(), usedforsecurity=False).hexdigest()},
        "comment": f"Depends: {_field(path, 'Depends')}",
        "externalRefs": [_purl(f"pkg:deb/tukyamid/{name}@{version}?arch={architecture}")],
    }, files


def _purl(locator: str) -> Element:
    return {"referenceCategory": "PACKAGE-MANAGER", "referenceType": "purl", "referenceLocator": locator}


def _checksums(octets: bytes) -> list[Element]:
    return [{"algorithm": "SHA1", "checksumValue": hashlib.sha1(octets, usedforsecurity=False).hexdigest()},
            {"algorithm": "SHA256", "checksumValue": hashlib.sha256(octets).hexdigest()}]


def _checksums_of(file: Element) -> Iterable[Element]:
    checksums = file["checksums"]
    assert isinstance(checksums, list)
    return checksums


def _files(path: Path, package: str) -> Iterator[Element]:
    """The regular files of a package."""
    archive = subprocess.run(["dpkg-deb", "--fsys-tarfile", path], capture_output=True, check=True).stdout
    with tarfile.open(fileobj=io.BytesIO(archive)) as tar:
        for member in tar:
            content = tar.extractfile(member) if member.isfile() else None
            if content is not None:
                yield {"SPDXID": _identity("File", package, member.name.removeprefix("./")), "fileName": member.name,
                       "checksums": _checksums(content.read()), "licenseConcluded": "NOASSERTION",
                       "copyrightText": "NOASSERTION"}


def _libraries(top: Path, package: str, build: Mapping[str, str],
               of_the_verifier: Sequence[Library]) -> Iterator[Element]:
    """The libraries that a package's program has inside."""
    if package == ENGINE:
        for name in _kit_libraries(top):
            yield _library("rattle", name, build["toolchain"], [])
    elif package in VERIFIERS:
        for crate in of_the_verifier:
            yield _library("crate", crate.name, crate.version, [_purl(f"pkg:cargo/{crate.name}@{crate.version}")]) | {
                "licenseDeclared": crate.licence}


def _library(kind: str, name: str, version: str, references: list[Element]) -> Element:
    return {"SPDXID": _identity("Library", kind, name, version), "name": name, "versionInfo": version,
            "downloadLocation": "NOASSERTION", "filesAnalyzed": False, "licenseConcluded": "NOASSERTION",
            "licenseDeclared": "NOASSERTION", "copyrightText": "NOASSERTION", "externalRefs": references}


def _kit_libraries(top: Path) -> list[str]:
    """The toolchain's libraries that the engine's program stands on, by crates.txt."""
    stands_on = {}
    for line in (top / "crates.txt").read_text().splitlines():
        name, colon, libraries = line.partition(":")
        if colon and not line.startswith("#"):
            stands_on[name.split()[0]] = libraries.split()
    sought, found = ["wot_cli"], set()
    while sought:
        name = sought.pop()
        if name not in found:
            found.add(name)
            sought += stands_on.get(name, [])
    return sorted(found - stands_on.keys())
