"""Where `backup` and `export-dump` write: nothing that is there is destroyed, be it a device, a pipe, a link, or a
database."""

import os
import shutil
import socket
import stat
import subprocess
import tempfile
import threading
import unittest
from contextlib import closing
from pathlib import Path

from outside import PATIENCE, PYTHON, SERVER, Server, needs_engine, script_of
from tukyamid.output_files import Output
from tukyamid.service.storage.database import Actor
from tukyamid.service.storage.sqlite_database import Sqlite
from world import World

COMMANDS = "backup", "export-dump"
needs_root = unittest.skipUnless(os.geteuid() == 0, "only root makes devices and changes owners")


def kept(path):
    """What must stay of a file."""
    found = path.stat()
    return found.st_uid, found.st_gid, oct(found.st_mode)


class Outputs(unittest.TestCase):
    def setUp(self):
        self.folder = Path(tempfile.mkdtemp(prefix="tukyamid-outputs-"))
        self.addCleanup(shutil.rmtree, self.folder)
        self.path = self.folder / "keyring.db"
        with closing(Sqlite(self.path)) as database:
            database.fill(sorted(World(count=6).imports[4::5]), "a test", Actor(1, 2))
            self.script = script_of(database)
        self.place = self.folder / "place"

    def run_command(self, command, place, **more):
        return subprocess.run([PYTHON, SERVER, command, "--database", self.path, place], capture_output=True,
                              stdin=subprocess.DEVNULL, timeout=PATIENCE, check=False,
                              env={**os.environ, "XDG_DATA_HOME": str(self.folder / "data")}, **more)

    def written(self, command, place):
        done = self.run_command(command, place)
        self.assertEqual((done.returncode, done.stderr), (0, b""))

    def check_content(self, command, octets):
        if command == "export-dump":
            self.assertEqual(octets, self.script)
            return
        copy = self.folder / "copy"
        copy.write_bytes(octets)
        with closing(Sqlite(copy, is_made=False)) as database:
            self.assertEqual(script_of(database), self.script)

    def test_a_new_file_is_its_owners_alone(self):
        for command in COMMANDS:
            self.written(command, self.place)
            self.assertEqual(stat.S_IMODE(self.place.stat().st_mode), 0o600)
            self.check_content(command, self.place.read_bytes())
            self.place.unlink()

    def test_a_file_keeps_its_mode(self):
        for command in COMMANDS:
            self.place.write_bytes(b"before")
            self.place.chmod(0o640)
            os.setxattr(self.place, "user.note", b"kept")
            self.written(command, self.place)
            self.assertEqual(stat.S_IMODE(self.place.stat().st_mode), 0o640)
            self.assertEqual(os.getxattr(self.place, "user.note"), b"kept")
            self.check_content(command, self.place.read_bytes())

    @needs_root
    def test_a_file_keeps_its_owner(self):
        for command in COMMANDS:
            self.place.write_bytes(b"before")
            os.chown(self.place, 23001, 23002)
            before = kept(self.place)
            self.written(command, self.place)
            self.assertEqual(kept(self.place), before)
            self.check_content(command, self.place.read_bytes())

    def test_a_link_stays(self):
        target = self.folder / "target"
        for command in COMMANDS:
            for content in b"before", None:
                target.unlink(missing_ok=True)
                if content is not None:
                    target.write_bytes(content)
                self.place.unlink(missing_ok=True)
                self.place.symlink_to("target")
                self.written(command, self.place)
                self.assertEqual(os.readlink(self.place), "target")
                self.check_content(command, target.read_bytes())

    @needs_root
    def test_a_device_stays(self):
        """Nodes of the test's own: one like /dev/null, and one like /dev/full."""
        for minor, status in ((3, 0), (7, 1)):
            os.mknod(self.place, 0o666 | stat.S_IFCHR, os.makedev(1, minor))
            before = kept(self.place)
            for command in COMMANDS:
                done = self.run_command(command, self.place)
                self.assertEqual(done.returncode, status, done.stderr)
                self.assertEqual(b"No space left" in done.stderr, bool(status), done.stderr)
                self.assertTrue(stat.S_ISCHR(self.place.stat().st_mode))
                self.assertEqual(kept(self.place), before)
            self.place.unlink()

    def test_a_pipe_is_written_to(self):
        os.mkfifo(self.place)
        for command in COMMANDS:
            read = []
            reading = threading.Thread(target=lambda: read.append(self.place.read_bytes()))
            reading.start()
            self.written(command, self.place)
            reading.join(PATIENCE)
            self.assertTrue(stat.S_ISFIFO(self.place.stat().st_mode))
            self.check_content(command, read[0])

    @unittest.skipUnless(shutil.which("bash"), "bash isn't installed")
    def test_a_substituted_process(self):
        for command in COMMANDS:
            words = ["bash", "-c", '"$@" > >(cat > "$OUT")', "bash", PYTHON, SERVER, command, "--database", self.path]
            for place in "/dev/stdout", "/dev/fd/1", "/proc/self/fd/1":
                done = subprocess.run([*words, place], capture_output=True, check=False, timeout=PATIENCE,
                                      env={**os.environ, "OUT": str(self.folder / "out")})
                self.assertEqual((done.returncode, done.stderr), (0, b""))
            given = f'"$0" "$1" {command} --database "$2" >(cat > "$3"); wait $!'
            done = subprocess.run(["bash", "-c", given, PYTHON, SERVER, self.path, self.place], capture_output=True,
                                  check=False, timeout=PATIENCE)
            self.assertEqual((done.returncode, done.stderr), (0, b""))
            self.check_content(command, self.place.read_bytes())

    def test_standard_output_goes_on(self):
        """What the caller has written before and writes afterwards stays."""
        out = self.folder / "out"
        script = 'echo before; "$0" "$1" export-dump --database "$2" /dev/stdout; echo after'
        with open(out, "wb") as file:
            subprocess.run(["sh", "-c", script, PYTHON, SERVER, self.path], stdout=file, timeout=PATIENCE, check=True)
        self.assertEqual(out.read_bytes(), b"before\n" + self.script + b"after\n")

    def test_a_directory_and_nowhere(self):
        for place, said in ((self.folder, b"is a directory"), (self.folder / "no/where", b"No such file or directory")):
            for command in COMMANDS:
                done = self.run_command(command, place)
                self.assertEqual(done.returncode, 1)
                self.assertIn(said, done.stderr)
        self.assertEqual(sorted(entry.name for entry in self.folder.iterdir()), ["keyring.db"])

    def test_the_databases_own_files(self):
        """By their names, by links of either kind, and that of the user's own service."""
        with closing(Sqlite(self.path)):  # So that its log is there.
            os.link(self.path, self.folder / "hard")
            (self.folder / "soft").symlink_to("keyring.db")
            default = self.folder / "data/tukyamid/keyring.db"
            default.parent.mkdir(parents=True)
            shutil.copy(self.path, default)
            for place in (self.path, *(self.path.with_name(f"keyring.db{end}") for end in ("-wal", "-shm", "-journal")),
                          self.folder / "hard", self.folder / "soft", default):
                for command in COMMANDS:
                    with self.subTest(place=place.name, command=command):
                        done = self.run_command(command, place)
                        self.assertEqual(done.returncode, 1)
                        self.assertIn(b"name another file", done.stderr)
        (self.folder / "hard").unlink()  # With a second name the database isn't used.
        with closing(Sqlite(self.path, is_made=False)) as database:
            self.assertEqual((database.check(), script_of(database)), ([], self.script))

    @needs_engine
    def test_a_database_that_another_service_uses(self):
        with Server() as server:
            for place in server.database, server.database.with_name("keyring.db-wal"):
                done = self.run_command("backup", place)
                self.assertEqual(done.returncode, 1)
                self.assertIn(b"a service uses", done.stderr)


@needs_root
class Shared(unittest.TestCase):
    """A directory in which everybody may make files, as /tmp. What another user has left there isn't written to."""

    def setUp(self):
        self.folder = Path(tempfile.mkdtemp(prefix="tukyamid-outputs-"))
        self.addCleanup(shutil.rmtree, self.folder)
        self.victim = self.folder / "victim"
        self.victim.write_bytes(b"what must stay")
        self.shared = self.folder / "shared"
        self.shared.mkdir()
        self.shared.chmod(0o1777)

    def test_what_another_user_has_left(self):
        link, fifo, file = (self.shared / name for name in ("link", "fifo", "file"))
        link.symlink_to(self.victim)
        os.mkfifo(fifo)
        file.write_bytes(b"another's")
        for path in link, fifo, file:
            os.chown(path, 23001, 23001, follow_symlinks=False)
            with self.assertRaisesRegex(PermissionError, "is another user's"), Output(str(path)):
                pass
        self.assertEqual((self.victim.read_bytes(), file.read_bytes()), (b"what must stay", b"another's"))

    def test_what_is_the_users_own(self):
        (self.shared / "file").write_bytes(b"before")
        with Output(str(self.shared / "file")) as output:
            output.write([b"after"])
            output.keep()
        self.assertEqual((self.shared / "file").read_bytes(), b"after")

    def test_what_is_not_kept_is_dropped(self):
        (self.shared / "file").write_bytes(b"before")
        with Output(str(self.shared / "file")) as output:
            output.write([b"after"])
        self.assertEqual((self.shared / "file").read_bytes(), b"before")
        self.assertEqual([entry.name for entry in self.shared.iterdir()], ["file"])

    def test_a_socket(self):
        with socket.socket(socket.AF_UNIX) as listening:
            listening.bind(str(self.folder / "socket"))
            with self.assertRaises(OSError), Output(str(self.folder / "socket")):
                pass
            self.assertTrue((self.folder / "socket").is_socket())
