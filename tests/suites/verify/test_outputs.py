"""Where `tukyamid verify --output` writes: nothing that is there is destroyed."""

import os
import stat
import subprocess
import tempfile

from asking import NO, OK, Asking
from program import needs_engine
from signers import RELEASE


@needs_engine
class Outputs(Asking):
    def test_what_is_written_to_stays(self):
        """A device, a pipe, a link and a file's mode; and nothing of what isn't verified reaches them."""
        folder = tempfile.TemporaryDirectory(prefix="wot")
        self.addCleanup(folder.cleanup)
        device, pipe, link, file = (os.path.join(folder.name, name) for name in ("device", "pipe", "link", "file"))
        os.mkfifo(pipe)
        os.symlink("file", link)
        places = {pipe: stat.S_ISFIFO, link: stat.S_ISLNK}
        if os.geteuid() == 0:  # A node of the test's own, like /dev/null.
            os.mknod(device, 0o666 | stat.S_IFCHR, os.makedev(1, 3))
            places[device] = stat.S_ISCHR
        for name, status, content in ("plain message of release", OK, RELEASE), ("altered message", NO, b""):
            for place, stays in places.items():
                with self.subTest(name, place=place), open(file, "wb") as before:
                    os.fchmod(before.fileno(), 0o640)
                    with subprocess.Popen(["cat", place if place == pipe else "/dev/null"], stdout=-1) as reading:
                        self.verify(name, "--for", "@example.org", "--output", place, status=status)
                        read = reading.stdout.read()
                    self.assertTrue(stays(os.lstat(place).st_mode))
                    self.assertEqual(stat.S_IMODE(os.stat(file).st_mode), 0o640)
                    with open(file, "rb") as after:
                        self.assertEqual((read, after.read()), (content if place == pipe else b"",
                                                                content if place == link else b""))
