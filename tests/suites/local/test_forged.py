"""A service that another user has forged: neither the command, nor a program that uses the Python package, asks it."""

import os
import sys
from pathlib import Path

from users import Connection, Users, needs_engine, needs_root

sys.path.append(str(Path(__file__).resolve().parents[1] / "python"))
from made import Made, trust  # noqa: E402

CREATED, WHEN = 1_100_000_000, 1_200_000_000
CAROL = "Carol <carol@example.org>"
PLAIN = """
import os
import sys
from tukyamid import connect
with connect(sys.argv[1], user=int(sys.argv[2]) if sys.argv[2:] else None) as service:
    print(len(list(service.keys())))
"""
ASYNCHRONOUS = """
import asyncio, sys
from tukyamid.client import aio
async def main():
    async with await aio.connect(sys.argv[1], user=int(sys.argv[2]) if sys.argv[2:] else None) as service:
        print((await service.keys()).count)
asyncio.run(main())
"""


def forged():
    """A root that has certified a key as Carol's, and the lines that say so: nobody but Mallory has ever seen it."""
    root, carol = Made(1), Made(2)
    root.direct(CREATED)
    carol.direct(CREATED).certified(CAROL.encode(), root, CREATED, trust(1, 120), kind=0x10)
    return root, carol


@needs_engine
@needs_root
class Forged(Users):
    def setUp(self):
        super().setUp()
        self.root, self.carol = forged()
        self.question = ["--root", self.root.fpr, "--time", f"@{WHEN}", "authenticate", self.carol.fpr, CAROL]

    def forge(self, folder):
        """A service of Mallory's, at the place where a command looks for its user's own. Every signature is good by
        whomever it names."""
        made, path = self.mallory.home / "forged.socket", folder / "tukyamid.socket"
        self.mallory.serve(made, "--mode", "666")
        with Connection(made) as told:
            told.tell(*(b"import " + one.octets.hex().encode() for one in (self.root, self.carol)))
        with Connection(made) as told:
            pending = [line.split(b" ") for line in told.tell(b"pending").splitlines()[1:]]
        self.assertEqual(len(pending), 3)
        with Connection(made) as told:
            told.tell(*(b"verdict %s good %s" % (number, issuer) for _, number, _, issuer in pending))
        made.rename(path)
        return path

    def test_in_the_forgers_folder(self):
        """As after `su` or `sudo`, whose environment still names another user's directory."""
        self.forge(self.mallory.runtime)
        self.assertEqual(self.mallory.tukyamid(*self.question)[0], 0)  # The forgery is a good one.
        self.mallory.home.chmod(0o755)
        self.mallory.runtime.chmod(0o755)
        for user in (self.alice, self.user(0)):
            status, out, said = user.tukyamid(*self.question, XDG_RUNTIME_DIR=str(self.mallory.runtime))
            self.assertEqual((status, out), (3, ""), user.number)
            self.assertRegex(said, r"\Atukyamid: /[^\n]* has to be a directory that only you can use[^\n]*\n\Z")

    def test_in_a_folder_in_which_others_may_write(self):
        self.alice.home.chmod(0o755)
        self.alice.runtime.chmod(0o1777)
        self.forge(self.alice.runtime)
        status, out, said = self.alice.tukyamid(*self.question)
        self.assertEqual((status, out), (3, ""))
        self.assertIn("has to be a directory that only you can use", said)

    def test_where_the_users_own_folder_would_be_made(self):
        """Without a directory of the session's, the user's is below /tmp, where anybody can come first."""
        place = Path(f"/tmp/tukyamid-{self.alice.number}")
        self.assertFalse(os.path.lexists(place))
        makes = (lambda: self.mallory.make(place, 0o777), place.rmdir), \
            (lambda: place.symlink_to(self.alice.home), place.unlink), (lambda: os.mkfifo(place, 0o666), place.unlink)
        for make, remove in makes:
            make()
            self.addCleanup(lambda remove=remove: os.path.lexists(place) and remove())
            os.chown(place, self.mallory.number, self.mallory.number, follow_symlinks=False)
            status, out, said = self.alice.tukyamid(*self.question, XDG_RUNTIME_DIR="")
            self.assertEqual((status, out), (3, ""))
            self.assertIn(f"{place} has to be a directory that only you can use; set XDG_RUNTIME_DIR", said)
            remove()

    def test_a_forgery_that_came_into_the_users_own_folder(self):
        """Its folder is in order by now. Whose the service is, the kernel still says."""
        self.alice.home.chmod(0o755)
        self.alice.runtime.chmod(0o777)
        self.forge(self.alice.runtime)
        self.alice.runtime.chmod(0o700)
        for words in (self.question, ["status"], ["keyring", "list"], ["keyring", "add", "/etc/hostname"], ["log"],
                      ["web"], ["verify", "/etc/hostname", "--for", "@example.org"]):
            status, out, said = self.alice.tukyamid(*words)
            self.assertEqual((status, out), (3, ""), words)
            self.assertIn(f"is another user's, of number {self.mallory.number}, so it isn't asked", said)

    def test_the_doctor_names_it(self):
        self.alice.home.chmod(0o755)
        self.alice.runtime.chmod(0o777)
        self.forge(self.alice.runtime)
        self.alice.runtime.chmod(0o700)
        status, out, _ = self.alice.tukyamid("doctor")
        self.assertEqual(status, 3)
        self.assertRegex(out, r"\[missing\] +service [^\n]*is another user's, of number 23001")

    def test_programs(self):
        self.mallory.home.chmod(0o755)
        self.mallory.runtime.chmod(0o755)
        path = self.forge(self.mallory.runtime)
        for program in PLAIN, ASYNCHRONOUS:
            status, out, said = self.alice.python(program, path)
            self.assertEqual((status, out), (1, ""))
            self.assertIn("ServiceForeign: ", said)
            self.assertEqual(self.alice.python(program, path, str(self.mallory.number)), (0, "2\n", ""))
            self.assertEqual(self.mallory.python(program, path), (0, "2\n", ""))


@needs_engine
@needs_root
class Clients(Users):
    """The other way round: who may ask a service."""

    def test_a_private_socket_whose_mode_was_changed(self):
        """The service lets in its own user and root, and nobody else."""
        path = self.alice.runtime / "tukyamid.socket"
        service = self.alice.serve(path)
        self.assertEqual(path.stat().st_mode & 0o777, 0o600)
        for folder in self.alice.home, self.alice.runtime:
            folder.chmod(0o755)
        for user, mode, reply in ((self.alice, 0o600, b"keys 0\n"), (self.user(0), 0o600, b"keys 0\n"),
                                  (self.mallory, 0o666, b"")):
            path.chmod(mode)
            with self.subTest(user.number):
                asking = user.start(["/usr/bin/python3", "-c", ASKS, path])
                self.assertEqual(asking.communicate()[0], reply)
        service.terminate()
        said = service.communicate()[1].decode()
        self.assertIn(f"user {self.mallory.number} may not use this socket", said)

    def test_a_socket_for_others(self):
        path = self.alice.runtime / "tukyamid.socket"
        self.alice.serve(path, "--mode", "666")
        for folder in self.alice.home, self.alice.runtime:
            folder.chmod(0o755)
        self.assertEqual(self.mallory.start(["/usr/bin/python3", "-c", ASKS, path]).communicate()[0], b"keys 0\n")


ASKS = """
import socket, sys
with socket.socket(socket.AF_UNIX) as asking:
    asking.connect(sys.argv[1])
    asking.sendall(b"keys\\n")
    try:
        sys.stdout.write(asking.recv(100).decode())
    except ConnectionResetError:
        pass
"""

