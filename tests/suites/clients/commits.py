"""git, which verifies commits and signed pushes, and ostree, which verifies commits of its own."""

from asked import CASES, PYTHON, SIGNERS, detached, expiry, file_name

SIGNING = """#!/bin/sh
exec /usr/bin/gpg --homedir {home} --batch --pinentry-mode loopback --faked-system-time 1708640000 --passphrase '' \
{options} "$@"
"""
# git refuses a signature on other data than it was made on, so the data gets a word more on its way.
ALTERING = """#!/bin/sh
(cat; echo altered) | "{program}" "$@"
"""
HOOK = '#!/bin/sh\ncat > /dev/null\n[ "$GIT_PUSH_CERT_STATUS" = G ]\n'


def git(asked, work, *words, given=""):
    return asked.run("git", "-c", "user.name=S", "-c", "user.email=s@example.org", *words, at=work, given=given)


def signing(asked, case):
    """A program that signs for git as a case has it: only the signers aren't git's to say."""
    users = "".join(f" -u {asked.host.people.fpr[name]}" for name in SIGNERS[case][1:])
    program = write_program(asked.folder / f"signing-{file_name(case)}", SIGNING.format(
        home=asked.host.people.maker, options=" ".join(expiry(case)) + users))
    if case != "bad":
        return program
    return write_program(asked.folder / "signing-altered", ALTERING.format(program=program))


def write_program(path, text):
    path.write_text(text)
    path.chmod(0o755)
    return path


class Git:
    """git verify-commit. `options` go before it."""
    needed = ("git", None)

    def __init__(self, *options):
        self._options = options

    def accepts(self, asked, case):
        work = asked.work("git", lambda work: self._make(asked, work))
        found = git(asked, work, "rev-parse", file_name(case))
        return git(asked, work, *self._options, "-c", f"gpg.program={asked.gpg}", "verify-commit",
                   found.stdout.strip()).returncode == 0

    def _make(self, asked, work):
        """A branch with a signed commit for each case."""
        git(asked, work, "init", "-q", ".")
        for case, names in SIGNERS.items():
            made = git(asked, work, "-c", f"gpg.program={signing(asked, case)}", "commit", "-q", "--allow-empty", "-m",
                       case, f"-S{asked.host.people.fpr[names[0]]}")
            assert made.returncode == 0, made.stderr
            git(asked, work, "branch", file_name(case))


class ReceivePack:
    """git receive-pack, to which somebody pushes with a signature: its hook wants a good one."""
    needed = ("git", None)

    def accepts(self, asked, case):
        work = asked.work("pushes", lambda work: self._make(asked, work))
        to = work / f"{file_name(case)}-{asked.mode}.git"
        git(asked, work, "init", "-q", "--bare", to)
        for name, value in ("receive.certNonceSeed", "seed"), ("gpg.program", asked.gpg):
            git(asked, to, "config", name, value)
        write_program(to / "hooks/pre-receive", HOOK)
        key = asked.host.people.fpr[SIGNERS[case][0]]
        pushed = git(asked, work / "from", "-c", f"gpg.program={signing(asked, case)}", "-c", f"user.signingKey={key}",
                     "push", "-q", "--signed", to, "HEAD:refs/heads/main")
        is_there = git(asked, to, "rev-parse", "-q", "--verify", "refs/heads/main").returncode == 0
        assert is_there == (pushed.returncode == 0), pushed
        assert is_there or "pre-receive hook declined" in pushed.stderr, pushed
        return is_there

    def _make(self, asked, work):
        git(asked, work, "init", "-q", "from")
        git(asked, work / "from", "commit", "-q", "--allow-empty", "-m", "It")


# Reads a commit of a repository, or adds a signature to it: `PATH COMMIT [SIGNATURE]`.
OSTREE = """
import sys, gi
gi.require_version("OSTree", "1.0")
from gi.repository import Gio, GLib, OSTree
path, commit, *signature = sys.argv[1:]
repository = OSTree.Repo.new(Gio.File.new_for_path(path))
repository.open(None)
if signature:
    with open(signature[0], "rb") as octets:
        repository.append_gpg_signature(commit, GLib.Bytes.new(octets.read()), None)
else:
    found = repository.load_variant(OSTree.ObjectType.COMMIT, commit)[1]
    sys.stdout.buffer.write(found.get_data_as_bytes().get_data())
"""


class Ostree:
    """ostree pull, from a remote whose keyring has the people's keys."""
    needed = ("ostree", "gi")
    typelib = "OSTree-1.0"

    def accepts(self, asked, case):
        work = asked.work("ostree", lambda work: self._make(asked, work))
        to = work / f"{file_name(case)}-{asked.mode}"
        for words in (["init", "--mode=archive"], ["remote", "add", f"--gpg-import={asked.host.people.ring}", "people",
                                                   f"file://{work}/from"]):
            assert asked.run("ostree", f"--repo={to}", *words).returncode == 0
        return asked.run("ostree", f"--repo={to}", "pull", "people", file_name(case)).returncode == 0

    def _make(self, asked, work):
        asked.run("ostree", "--repo=from", "init", "--mode=archive", at=work)
        (work / "tree").mkdir()
        for case in CASES:
            (work / "tree/it").write_text(case)
            commit = asked.run("ostree", "--repo=from", "commit", "-b", file_name(case), "tree", at=work).stdout.strip()
            read = asked.run(PYTHON, "-c", OSTREE, work / "from", commit, is_text=False)
            (work / "signature").write_bytes(detached(asked.host.people, case, read.stdout))
            asked.run(PYTHON, "-c", OSTREE, work / "from", commit, work / "signature")
