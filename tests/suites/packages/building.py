"""The packages that the tests look at: built once for all, and once more to be compared."""

import atexit
import functools
import os
import shutil
import subprocess
import tempfile
import unittest
from concurrent.futures import ThreadPoolExecutor
from pathlib import Path

import needs
import plain
import verifier

TOOL = plain.ROOT / "tools" / "package"
TOOLCHAIN = "the tests' own words"


@functools.cache
def folder():
    path = tempfile.mkdtemp(prefix="tukyamid-packages-")
    atexit.register(shutil.rmtree, path, ignore_errors=True)
    return Path(path)


def installed(packages):
    """Whether all these packages are installed."""
    return not needs.missing(packages)


def package(out, *words, **settings):
    """Runs tools/package into a folder."""
    return subprocess.run([TOOL, "--out", out, "--dirty", *words], capture_output=True, text=True, check=False,
                          stdin=subprocess.DEVNULL, env={**os.environ, **settings.pop("env", {})}, **settings)


def build(name, **settings):
    path = verifier.built()
    words = ["--verifier", path] if path else ["--without-verifier"]
    done = package(folder() / name, "--engine", plain.PROGRAM, "--toolchain", TOOLCHAIN, *words, **settings)
    if done.returncode != 0:
        raise AssertionError(f"tools/package ended with status {done.returncode}: {done.stderr[-3000:]}")
    return folder() / name


@functools.cache
def both():
    """The folders of two builds, under other settings."""
    if not os.access(plain.PROGRAM, os.X_OK):
        raise unittest.SkipTest(f"the engine isn't built: {plain.PROGRAM}")
    if not installed(needed()):
        raise unittest.SkipTest(f"packages are missing: apt-get install {' '.join(needed())}")
    verifier.built()  # Before both builds, which use it.
    other = {"TZ": "Asia/Kathmandu", "LC_ALL": "C", "PYTHONHASHSEED": "7", "TMPDIR": str(folder())}
    with ThreadPoolExecutor() as pool:
        one = pool.submit(build, "one")
        two = pool.submit(build, "two", env=other, umask=0o077)
        return one.result(), two.result()


@functools.cache
def needed():
    """The packages that tools/package needs, as it says itself."""
    said = subprocess.run([TOOL, "--needed"], capture_output=True, text=True, check=True).stdout
    return said.split()


def packages():
    """The built packages by name."""
    found = {file.name.split("_")[0]: file for file in both()[0].glob("*.deb")}
    if not found:
        raise AssertionError("no package was built")
    return found


@functools.cache
def unpacked(name):
    """The files of a package, unpacked."""
    place = folder() / "unpacked" / name
    place.mkdir(parents=True)
    subprocess.run(["dpkg-deb", "-x", packages()[name], place], check=True)
    return place


def paths(name):
    return {str(file.relative_to(unpacked(name))) for file in unpacked(name).rglob("*") if not file.is_dir()}
