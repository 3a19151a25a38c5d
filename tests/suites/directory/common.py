"""What the tests over a certificate directory share: certificates, lines, and a folder with what stands in it."""

import shutil
import sys
import tempfile
import unittest
from pathlib import Path

sys.path.insert(0, str(Path(__file__).resolve().parents[2]))
import plain

sys.path.insert(0, str(plain.ROOT / "model"))
from wot_model.certificates import KEY, fingerprint
from wot_model.machine import Machine
from wot_model.packets import write_packet
from wot_model.shelf import FolderShelf, place_of, read_folder, write_folder

BODIES = [b"\4\0\0\3\xe8\x1b" + bytes([number]) for number in range(1, 6)]
NAMES = [fingerprint(body) for body in BODIES]
ENTRIES = [write_packet(KEY, body) for body in BODIES]

# A key with its direct signature, and the same key with a user ID.
SIGNED = ENTRIES[3] + bytes.fromhex("c210041f1b0800060502000003e800000000")
NAMED = ENTRIES[3] + bytes.fromhex("cd0174")
WHOLE = SIGNED + bytes.fromhex("cd0174")


def import_(octets):
    return b"import " + octets.hex().encode() + b"\n"


def store(name):
    return b"store " + name.hex().encode() + b"\n"


def load(name):
    return b"load " + (name if isinstance(name, str) else name.hex()).encode() + b"\n"


class InFolder(unittest.TestCase):
    """A test over a certificate directory of its own, `self.folder`, which isn't there at first."""

    def setUp(self):
        holder = tempfile.TemporaryDirectory()
        self.addCleanup(holder.cleanup)
        self.folder = Path(holder.name) / "pgp.cert.d"

    def put(self, entries):
        write_folder(self.folder, entries)

    def path(self, name):
        """Where an entry stands."""
        return self.folder / place_of(name)

    def says(self, script, replies, *words, **options):
        """The program says this, and so does the plain model."""
        self.assertEqual(plain.run_program(script, *(words or ("run", str(self.folder))), **options), (0, replies))
        self.assertEqual(Machine(shelf=FolderShelf(self.folder)).transcript(script), replies)

    def left(self):
        """All files of the directory, and no other ones beside them."""
        return read_folder(self.folder)

    def stores(self, script, replies, left):
        """The program says this and leaves these entries, and so does the plain model over a copy."""
        with tempfile.TemporaryDirectory() as copy:
            if self.folder.exists():
                shutil.copytree(self.folder, copy, dirs_exist_ok=True)
            self.assertEqual(plain.run_program(script, "run", str(self.folder)), (0, replies))
            entries = {place_of(name): octets for name, octets in left.items()}
            self.assertEqual(self.left() if self.folder.exists() else {}, entries)
            self.assertEqual(Machine(shelf=FolderShelf(copy)).transcript(script), replies)
            self.assertEqual(read_folder(copy), entries)
