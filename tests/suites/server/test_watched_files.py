"""What the service takes for a keyring, what it costs to watch it, and how soon a change is noticed."""

import hashlib
import os
import shutil
import socket
import sqlite3
import tempfile
import time
import unittest
from contextlib import closing
from pathlib import Path

from outside import HERE, Client, Server, needs_engine
from world import World

TRUSTING = HERE / "trusting_verifier.py"
def seconds_of(process):
    """The processor time that a process has taken."""
    fields = Path(f"/proc/{process}/stat").read_text().rpartition(")")[2].split()
    return (int(fields[11]) + int(fields[12])) / os.sysconf("SC_CLK_TCK")


@needs_engine
class Files(unittest.TestCase):
    def setUp(self):
        self.world = World(count=6)
        self.folder = Path(tempfile.mkdtemp(prefix="tukyamid-files-"))
        self.addCleanup(shutil.rmtree, self.folder)
        self.server = self.enterContext(Server("--engines", "1", "--verifier", TRUSTING, folder=self.folder))
        self.client = self.enterContext(Client(self.server.path))

    def certificate(self, place):
        return bytes.fromhex(self.world.imports[5 * place][7:].decode())

    def add(self, path, client=None):
        client = client or self.client
        client.send(b"service keyring add " + os.fsencode(path))
        while (line := client.read_line()).startswith(b"service progress "):
            pass
        return line

    def keys(self):
        return self.client.tell(b"keys")

    def wait_quickly(self, keys, what):
        """That a change is noticed well before the files would be looked at without a notice."""
        begun = time.monotonic()
        self.server.wait_for(lambda: self.keys() == b"keys %d" % keys)
        self.assertLess(time.monotonic() - begun, 30, what)

    def test_what_is_no_file(self):
        """A FIFO, a socket and a device are refused at once, and others aren't kept waiting."""
        fifo = self.folder / "fifo"
        os.mkfifo(fifo)
        bound = socket.socket(socket.AF_UNIX)
        self.addCleanup(bound.close)
        bound.bind(str(self.folder / "bound"))
        link = self.folder / "link"
        link.symlink_to("fifo")
        paths = [fifo, self.folder / "bound", link]
        if os.geteuid() == 0:
            zero = self.folder / "zero"
            os.mknod(zero, 0o20666, os.makedev(1, 5))
            paths.append(zero)
        for path in paths:
            self.assertRegex(self.add(path), rb"^fault keyring .*neither a regular file nor a directory$")
        file = self.folder / "keyring.pgp"
        file.write_bytes(self.certificate(0))
        self.assertRegex(self.add(file), b"^ok keyring 1 ")

    def test_a_file_that_becomes_a_fifo(self):
        file = self.folder / "keyring.pgp"
        file.write_bytes(self.certificate(0))
        self.add(file)
        file.unlink()
        os.mkfifo(file)
        self.server.wait_for(lambda: self.listed()[-1].startswith(b"fault "))
        other = self.folder / "other.pgp"
        other.write_bytes(self.certificate(1))
        self.assertRegex(self.add(other), b"^ok keyring 1 ")

    def listed(self):
        with Client(self.server.path) as client:
            client.send(b"service keyring list")
            return [client.read_line() for _ in range(int(client.read_line().split(b" ")[2]))]

    def test_directories(self):
        """Any directory isn't a certificate directory; a new one and one with certificates are."""
        for path in "/usr", "/proc", self.folder:
            self.assertRegex(self.add(path), rb"^fault keyring .*isn't a certificate directory")
        new = self.folder / "new"
        new.mkdir()
        (new / "writelock").touch()
        self.assertEqual(self.add(new), b"ok keyring 0 0")
        self.put(new, 0)
        self.wait_quickly(1, "a certificate in a new folder")
        self.put(new, 1)
        self.wait_quickly(2, "another certificate")

    def put(self, folder, place):
        """Writes an entry as programs do: beside its place, and renamed."""
        fpr = self.world.fprs[place].decode()
        (folder / fpr[:2]).mkdir(exist_ok=True)
        beside = folder / fpr[:2] / ".new"
        beside.write_bytes(self.certificate(place))
        beside.rename(folder / fpr[:2] / fpr[2:])

    def test_a_name_that_would_steer_a_terminal(self):
        """It is one line of the log, and in characters that print."""
        file = self.folder / "a\nforged: line \x1b[2J \x9b31m.pgp"
        file.write_bytes(self.certificate(0))
        self.assertRegex(self.add(os.fsdecode(os.fsencode(file).replace(b"\n", rb"\x0a").replace(b"\x1b", rb"\x1b"))),
                         b"^ok keyring 1 ")
        file.unlink()
        self.server.wait_for(lambda: "No such file" in self.server.said())
        said = self.server.said()
        self.assertIn(r"a\x0aforged: line \x1b[2J \xc2\x9b31m.pgp: No such file", said)
        self.assertTrue(all(line.isprintable() and line.startswith("tukyamid-server: ") for line in said.splitlines()))

    def test_a_name_that_is_no_text(self):
        """The database keeps names as text, so it is refused."""
        file = self.folder / os.fsdecode(b"\xff.pgp")
        file.write_bytes(self.certificate(0))
        self.assertRegex(self.add(str(self.folder) + r"/\xff.pgp"), b"^fault keyring .*name.*UTF-8")

    def test_an_armored_file_that_is_too_large(self):
        """Its size alone says so: nothing of it is kept in memory."""
        file = self.folder / "large.asc"
        file.write_bytes(b"-----BEGIN PGP PUBLIC KEY BLOCK-----\n")
        os.truncate(file, 600 << 20)
        self.assertRegex(self.add(file), rb"^fault keyring .*more than 512 MiB")
        peak = int(Path(f"/proc/{self.server.process.pid}/status").read_text().partition("VmHWM:")[2].split()[0])
        self.assertLess(peak, 400 << 10)

    def test_changes_are_noticed_in_every_way_of_making_them(self):
        file = self.folder / "keyring.pgp"
        file.write_bytes(self.certificate(0))
        self.assertRegex(self.add(file), b"^ok ")
        with open(file, "ab") as opened:
            opened.write(self.certificate(1))
        self.wait_quickly(2, "appended")
        beside = self.folder / "beside"
        beside.write_bytes(self.certificate(2))
        beside.rename(file)
        self.wait_quickly(3, "renamed over it")
        file.unlink()
        self.server.wait_for(lambda: self.listed()[-1].startswith(b"fault "))
        file.write_bytes(self.certificate(3))
        self.wait_quickly(4, "made again")

    def test_two_thousand_files_cost_little(self):
        text = self.certificate(0)
        digest = hashlib.sha256(hashlib.sha256(text).digest()).digest()
        files = [self.folder / f"{place}.pgp" for place in range(2000)]
        for file in files:
            file.write_bytes(text)
        self.server.stop()
        with closing(sqlite3.connect(self.server.database)) as database, database:
            database.executemany("INSERT INTO sources VALUES (?, ?, 1, '')", [(str(file), digest) for file in files])
        server = self.server = self.enterContext(
            Server("--engines", "1", "--verifier", TRUSTING, folder=self.folder))
        before, quiet = 0.0, 0
        while quiet < 3:  # Until all are watched.
            now = seconds_of(server.process.pid)
            quiet = quiet + 1 if now - before <= 0.2 else 0
            before = now
            time.sleep(5)
        begun = seconds_of(self.server.process.pid)
        time.sleep(10)
        self.assertLess(seconds_of(self.server.process.pid) - begun, 1.0)
