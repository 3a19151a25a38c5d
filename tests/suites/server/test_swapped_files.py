"""Watched files that become something else after the service has looked at them, and while it reads them."""

import hashlib
import os
import shutil
import stat
import tempfile
import threading
import unittest
from pathlib import Path
from unittest import mock

from outside import HERE, Client, Server, needs_engine
from tukyamid.service.keyring_files import watched_files
from tukyamid.service.keyring_files.keyring_contents import look_at
from world import World

TRUSTING = HERE / "trusting_verifier.py"
SWAPPING = HERE / "swapping_verifier.sh"
SECONDS = 100  # The service gives a verifier 300 seconds to read.
MEMORY = 300 << 10  # In KiB; the bound of a keyring is 512 MiB.


def make_fifo(place):
    os.mkfifo(place)


def make_link_to_fifo(place):
    os.mkfifo(f"{place}-end")
    place.symlink_to(f"{place}-end")


def make_link_to_zero(place):
    place.symlink_to("/dev/zero")


def make_device(place):
    os.mknod(place, 0o600 | stat.S_IFCHR, os.makedev(1, 5))


def make_large(place):
    place.touch()
    os.truncate(place, 600 << 20)


def make_folder(place):
    place.mkdir()


KINDS = [make_fifo, make_link_to_fifo, make_link_to_zero, make_large, make_folder]
if os.geteuid() == 0:
    KINDS.append(make_device)


class Watched(unittest.TestCase):
    def setUp(self):
        self.world = World(count=6)
        self.folder = Path(tempfile.mkdtemp(prefix="tukyamid-swapped-"))
        self.addCleanup(shutil.rmtree, self.folder)
        self.text = bytes.fromhex(self.world.imports[0][7:].decode())

    def add(self, server, path):
        with Client(server.path) as client:
            client.socket.settimeout(SECONDS)
            client.send(b"service keyring add " + os.fsencode(path))
            while (line := client.read_line()).startswith(b"service progress "):
                pass
            return line

    def assert_small(self, server):
        status = Path(f"/proc/{server.process.pid}/status").read_text()
        self.assertLess(int(status.partition("VmHWM:")[2].split()[0]), MEMORY)


@needs_engine
class BeforeItIsRead(Watched):
    """What stands in a file's place once the verifier starts: the verifier gets what the service has read."""

    def swapped(self, file, make):
        """The reply about a keyring whose file becomes something else, and the folder of its server."""
        folder = Path(tempfile.mkdtemp(dir=self.folder))
        watched, others = folder / "watched", folder / "others"
        for place in watched / file, others / file:
            place.parent.mkdir(parents=True)
        (watched / file).write_bytes(self.text)
        make(others / file)
        given = {"WATCHED": str(watched), "SWAPPED": str(others)}
        with Server("--engines", "1", "--verifier", SWAPPING, folder=folder, environment=given) as server:
            reply = self.add(server, watched / file if len(Path(file).parts) == 1 else watched)
            self.assertFalse((others / file).is_symlink() or (others / file).is_fifo())
            self.assert_small(server)
        return reply

    def test_a_file(self):
        for make in KINDS:
            if make is not make_folder:
                with self.subTest(make.__name__):
                    self.assertRegex(self.swapped("keyring.pgp", make), rb"^ok keyring 1 ")

    def test_an_entry_of_a_certificate_directory(self):
        fpr = self.world.fprs[0].decode()
        for make in make_fifo, make_link_to_zero:
            with self.subTest(make.__name__):
                self.assertRegex(self.swapped(f"{fpr[:2]}/{fpr[2:]}", make), rb"^ok keyring 1 ")


class BetweenLooks(Watched):
    """What stands in a file's place once the service has looked which files there are."""

    def test_what_is_opened_is_looked_at(self):
        for make in KINDS:
            place = self.folder / make.__name__
            make(place)
            with self.subTest(make.__name__), self.assertRaisesRegex(watched_files.Unreadable, "regular|512 MiB"):
                watched_files.read_files(str(place), [str(place)])

    def test_a_file_that_grows_while_it_is_read(self):
        """It grows after its length was asked: no more than the bound is read of it."""
        place = self.folder / "keyring.pgp"
        place.write_bytes(bytes(1000))
        asked = os.fstat

        def grown(number):
            found = asked(number)
            os.truncate(place, 1 << 40)
            return found

        with mock.patch.object(watched_files, "MOST_OCTETS", 1 << 20), mock.patch("os.fstat", grown):
            with self.assertRaisesRegex(watched_files.Unreadable, "more than 1 MiB"):
                watched_files.read_files(str(place), [str(place)])

    def test_what_was_read_is_what_is_known(self):
        """The digest is that of the very octets that the verifier gets."""
        place = self.folder / "keyring.pgp"
        place.write_bytes(self.text)
        looked = look_at(str(place))
        self.assertEqual(looked.files, (("", self.text),))
        self.assertEqual(looked.digest, hashlib.sha256(hashlib.sha256(self.text).digest()).digest())


@needs_engine
class Racing(Watched):
    def race(self, place, others, ended):
        """Puts one after the other in the place of a file, as fast as it goes."""
        while not ended.is_set():
            for make in [*others, None]:
                beside = place.with_name("beside")
                beside.unlink(missing_ok=True)
                Path(f"{beside}-end").unlink(missing_ok=True)
                if make is None:
                    beside.write_bytes(self.text)
                else:
                    make(beside)
                beside.replace(place)

    def test_a_file_that_is_renamed_over_in_a_loop(self):
        place = self.folder / "keyring.pgp"
        place.write_bytes(self.text)
        ended = threading.Event()
        others = [make for make in KINDS if make is not make_folder]
        racer = threading.Thread(target=self.race, args=(place, others, ended))
        with Server("--engines", "1", "--verifier", TRUSTING, folder=self.folder) as server:
            racer.start()
            try:
                replies = [self.add(server, place) for _ in range(20)]
            finally:
                ended.set()
                racer.join()
            self.assert_small(server)
            place.unlink()
            place.write_bytes(self.text)
            self.assertRegex(self.add(server, place), b"^ok keyring 1 ")
        for reply in replies:
            self.assertRegex(reply, b"^(ok keyring 1 |fault keyring .*(regular file|512 MiB|No such file))")


if __name__ == "__main__":
    unittest.main()
