"""The packages as they are built."""

import hashlib
import json
import os
import re
import shutil
import subprocess
import unittest

import building
import plain
import verifier

VERSION = re.search(r'^VERSION = "([0-9.]+)"$', (plain.ROOT / "python/tukyamid/version.py").read_text(), re.M).group(1)


def output(*words, **options):
    return subprocess.run(words, capture_output=True, text=True, check=True, **options).stdout


class Built(unittest.TestCase):
    @classmethod
    def setUpClass(cls):
        building.both()

    def test_two_builds_are_the_same_octet_by_octet(self):
        one, two = building.both()
        names = sorted(file.name for file in one.iterdir())
        self.assertEqual(names, sorted(file.name for file in two.iterdir()))
        for name in names:
            with self.subTest(name):
                self.assertEqual((one / name).read_bytes(), (two / name).read_bytes())
        self.assertEqual(output("sha256sum", "--check", "--strict", "SHA256SUMS", cwd=one).count(": OK\n"),
                         len(names) - 1)

    def test_lintian_has_nothing_to_say(self):
        if not building.installed(["lintian"]):
            self.skipTest("lintian isn't installed")
        done = subprocess.run(["lintian", "--allow-root", "--tag-display-limit", "0", *building.packages().values()],
                              capture_output=True, text=True, check=False)
        self.assertEqual((done.returncode, done.stdout), (0, ""))

    def test_the_version_is_that_of_the_module(self):
        for name, file in building.packages().items():
            self.assertEqual(output("dpkg-deb", "-f", file, "Version").strip(), f"{VERSION}-1", name)
        metadata = building.unpacked("python3-tukyamid") / f"usr/lib/python3/dist-packages/tukyamid-{VERSION}.dist-info"
        self.assertIn(f"\nVersion: {VERSION}\n", (metadata / "METADATA").read_text())

    def test_what_is_inside(self):
        expected = {
            "tukyamid": ["usr/bin/tukyamid-engine", "usr/share/man/man1/tukyamid-engine.1.gz",
                         "usr/share/man/man7/tukyamid-protocol.7.gz", "usr/share/tukyamid/build.json",
                         "usr/share/doc/tukyamid/README.md", "usr/share/doc/tukyamid/docs/PROFILE.md",
                         "usr/share/doc/tukyamid/examples/quickstart.wot"],
            "python3-tukyamid": ["usr/bin/tukyamid", "usr/share/man/man1/tukyamid.1.gz",
                                 "usr/lib/python3/dist-packages/tukyamid/py.typed",
                                 "usr/lib/python3/dist-packages/tukyamid/client/aio/__init__.py",
                                 "usr/lib/python3/dist-packages/tukyamid/public/openapi.json",
                                 "usr/lib/python3/dist-packages/tukyamid/web/page/index.html",
                                 "usr/lib/python3/dist-packages/tukyamid/web/page/main.js",
                                 "usr/share/bash-completion/completions/tukyamid",
                                 "usr/share/fish/vendor_completions.d/tukyamid.fish",
                                 "usr/share/zsh/vendor-completions/_tukyamid"],
            "tukyamid-server": ["usr/bin/tukyamid-server", "usr/share/man/man1/tukyamid-server.1.gz",
                                "usr/lib/sysusers.d/tukyamid-server.conf", "lib/systemd/system/tukyamid.service",
                                "lib/systemd/system/tukyamid-public.service",
                                "lib/systemd/system/tukyamid.socket", "usr/lib/systemd/user/tukyamid.service",
                                "usr/lib/systemd/user/tukyamid.socket", "usr/lib/tukyamid/watch-notice",
                                "usr/lib/systemd/user/tukyamid-watch@.service"],
        }
        if verifier.built():
            expected["tukyamid-verifier"] = ["usr/bin/wot-verdicts", "usr/share/man/man1/wot-verdicts.1.gz"]
            expected["tukyamid-gpg"] = ["usr/bin/tukyamid-gpg", "usr/bin/tukyamid-sopv", "usr/lib/tukyamid/bin/gpg",
                                        "usr/lib/tukyamid/bin/gpgconf", "usr/share/man/man1/tukyamid-gpg.1.gz"]
        self.assertEqual(set(building.packages()), set(expected))
        for name, files in expected.items():
            self.assertEqual(set(files) - building.paths(name), set(), name)
            self.assertEqual([path for path in building.paths(name) if "__pycache__" in path], [])

    def test_the_command_starts_with_little(self):
        """It is the checkout's own script, whose first line leaves out what others add to Python."""
        command = building.unpacked("python3-tukyamid") / "usr/bin/tukyamid"
        self.assertEqual(command.read_text(), (plain.ROOT / "python/bin/tukyamid").read_text())
        self.assertTrue(command.read_text().startswith("#!/usr/bin/python3 -IS\n"))

    def test_the_packaged_engine_answers_and_is_the_one_that_is_named(self):
        place = building.unpacked("tukyamid")
        engine = place / "usr/bin/tukyamid-engine"
        examples = place / "usr/share/doc/tukyamid/examples"
        with (examples / "quickstart.wot").open("rb") as script:
            said = subprocess.run([engine, "run"], stdin=script, capture_output=True, check=True).stdout
        self.assertEqual(said, (examples / "quickstart.expected").read_bytes())
        named = json.loads((place / "usr/share/tukyamid/build.json").read_text())
        self.assertEqual(named["version"], VERSION)
        self.assertEqual(named["commit"].removesuffix("-dirty"),
                         output("git", "rev-parse", "HEAD", cwd=plain.ROOT).strip())
        self.assertEqual(named["toolchain"], building.TOOLCHAIN)
        self.assertEqual(named["tukyamid-engine sha256"], hashlib.sha256(engine.read_bytes()).hexdigest())

    def test_the_manual_pages_are_well_formed(self):
        if not building.installed(["groff-base"]):
            self.skipTest("groff-base isn't installed")
        pages = [building.unpacked(name) / path for name in building.packages() for path in building.paths(name)
                 if "/man/" in path]
        self.assertGreater(len(pages), 3)
        for page in pages:
            with self.subTest(page.name):
                done = subprocess.run(["groff", "-man", "-t", "-Kutf8", "-Tutf8", "-ww"], check=False,
                                      input=subprocess.run(["zcat", page], capture_output=True, check=True).stdout,
                                      capture_output=True)
                warnings = [line for line in done.stderr.decode().splitlines() if "can't break line" not in line
                            and "cannot adjust line" not in line]
                self.assertEqual((done.returncode, warnings), (0, []))
                self.assertRegex(subprocess.run(["zcat", page], capture_output=True, check=True).stdout,
                                 rb"(?m)^\.SH\s+NAME$")

    def test_the_bill_of_materials(self):
        bill = json.loads((building.both()[0] / f"tukyamid_{VERSION}.spdx.json").read_text())
        self.assertEqual((bill["spdxVersion"], bill["dataLicense"]), ("SPDX-2.3", "CC0-1.0"))
        elements = {element["SPDXID"]: element for element in [*bill["packages"], *bill["files"]]}
        self.assertEqual(len(elements), len(bill["packages"]) + len(bill["files"]))
        for relation in bill["relationships"]:
            self.assertIn(relation["relatedSpdxElement"], elements)
            self.assertTrue(relation["spdxElementId"] == "SPDXRef-DOCUMENT" or relation["spdxElementId"] in elements)
        for name, file in building.packages().items():
            with self.subTest(name):
                element = next(one for one in bill["packages"] if one.get("packageFileName") == file.name)
                self.assertIn({"algorithm": "SHA256", "checksumValue": output("sha256sum", file).split()[0]},
                              element["checksums"])
                self.assert_files(bill, element, name)
        self.assertEqual({one["name"] for one in bill["packages"] if "Library-rattle" in one["SPDXID"]},
                         {"hex", "itoa", "memchr", "rand_core", "rand_xoshiro", "sha1", "sha2", "thiserror"})

    def test_the_libraries_within_the_verifier(self):
        """The program names the sources of libraries in it, for what it says if they panic: each of these is in the
        bill and in the package's copyright, with its licence."""
        if "tukyamid-verifier" not in building.packages():
            self.skipTest("the verifier isn't built")
        said = output("strings", "-n", "8", building.unpacked("tukyamid-verifier") / "usr/bin/wot-verdicts")
        inside = set(re.findall(r"/registry/([a-z0-9_-]+)-(\d+\.\d+\.\d+)/", said))
        self.assertTrue({"sequoia-openpgp", "nettle", "buffered-reader"} <= {name for name, _ in inside}, inside)
        bill = json.loads((building.both()[0] / f"tukyamid_{VERSION}.spdx.json").read_text())
        listed = {(one["name"], one["versionInfo"]): one["licenseDeclared"] for one in bill["packages"]
                  if "Library-crate" in one["SPDXID"]}
        self.assertEqual(inside - set(listed), set())
        self.assertNotIn("NOASSERTION", listed.values())
        text = (building.unpacked("tukyamid-verifier") / "usr/share/doc/tukyamid-verifier/copyright").read_text()
        for (name, version), licence in listed.items():
            self.assertIn(f"  {name} {version}: {licence}\n", text)
        for licence in "LGPL-2+", "LGPL-3+ or GPL-2+", "MIT", "BSL-1.0", "Apache-2.0":
            self.assertIn(f"\nLicense: {licence}\n", text)

    def test_the_command_comes_with_the_package_of_its_name(self):
        self.assertIn("python3-tukyamid", output("dpkg-deb", "-f", building.packages()["tukyamid"], "Recommends"))

    def assert_files(self, bill, element, name):
        """The files of a package are all in the list, with their checksums by another program."""
        inside = {relation["relatedSpdxElement"] for relation in bill["relationships"]
                  if relation["spdxElementId"] == element["SPDXID"] and relation["relationshipType"] == "CONTAINS"}
        listed = {file["fileName"].removeprefix("./"): file["checksums"] for file in bill["files"]
                  if file["SPDXID"] in inside}
        place = building.unpacked(name)
        files = sorted(path for path in building.paths(name) if not (place / path).is_symlink())
        self.assertEqual(sorted(listed), files)
        sums = {path: [output(tool, place / path).split()[0] for tool in ("sha1sum", "sha256sum")] for path in files}
        for path, (sha1, sha256) in sums.items():
            self.assertEqual(listed[path], [{"algorithm": "SHA1", "checksumValue": sha1},
                                            {"algorithm": "SHA256", "checksumValue": sha256}])
        whole = "".join(sorted(sha1 for sha1, _ in sums.values()))
        self.assertEqual(element["packageVerificationCode"]["packageVerificationCodeValue"],
                         output("sha1sum", input=whole).split()[0])


class Refusals(unittest.TestCase):
    """What tools/package doesn't package."""

    def test_an_engine_that_is_not_there(self):
        if not building.installed(building.needed()):
            self.skipTest("packages are missing")
        for engine in building.folder(), building.folder() / "nothing":
            done = building.package(building.folder() / "none", "--engine", engine, "--without-verifier")
            self.assertEqual((done.returncode, done.stdout), (69, ""))
            self.assertIn(f"{engine} isn't a program", done.stderr)

    def test_an_engine_older_than_its_sources(self):
        if not building.installed(building.needed()):
            self.skipTest("packages are missing")
        copy = building.folder() / "copy"
        subprocess.run(["git", "clone", "-q", plain.ROOT, copy], check=True)
        shutil.copy(plain.ROOT / "tools/package", copy / "tools/package")
        words = [copy / "tools/package", "--without-verifier", "--toolchain", "none", "--dirty"]
        done = subprocess.run(words, capture_output=True, text=True, check=False)
        self.assertEqual(done.returncode, 69)
        self.assertIn("isn't built", done.stderr)
        program = copy / "crates/wot_cli/out/wot_cli"
        program.parent.mkdir()
        program.write_text("#!/bin/sh\n")
        program.chmod(0o755)
        os.utime(program, (1, 1))
        done = subprocess.run(words, capture_output=True, text=True, check=False)
        self.assertEqual(done.returncode, 69)
        self.assertIn("older than its sources", done.stderr)

    def test_changes_that_are_not_committed(self):
        if not building.installed(building.needed()):
            self.skipTest("packages are missing")
        copy = building.folder() / "changed"
        subprocess.run(["git", "clone", "-q", plain.ROOT, copy], check=True)
        (copy / "README.md").write_text("changed\n")
        done = subprocess.run([copy / "tools/package", "--engine", plain.PROGRAM, "--without-verifier"],
                              capture_output=True, text=True, check=False)
        self.assertEqual(done.returncode, 69)
        self.assertIn("aren't committed", done.stderr)
