"""Entries that are no regular files, paths that can't be followed, and which folder is read."""

import os
import socket
import unittest

from common import ENTRIES, NAMED, NAMES, SIGNED, WHOLE, InFolder, import_, load, plain, store
from wot_model.shelf import LONGEST_ENTRY

TAKEN = b"ok taken 1 skipped 0 new 1\n"
FAULT = b"fault shelf\n"
PATIENCE = 60  # A program that waits for a FIFO's other end never ends.


class OddEntries(InFolder):
    """What stands under an entry's name, and what a line says of it. The run goes on after each."""

    def loads(self, reply, name=NAMES[0]):
        """The program says this of the entry, and goes on."""
        told = plain.run_program(load(name) + b"keys\n", "run", str(self.folder), timeout=PATIENCE)
        keys = b"keys 1\nkey %s 0 0\n" % name.hex().encode() if reply == TAKEN else b"keys 0\n"
        self.assertEqual(told, (0, reply + keys))

    def fails(self):
        """Neither a load nor a store gets past the entry."""
        self.loads(FAULT)
        told = plain.run_program(import_(ENTRIES[0]) + store(NAMES[0]), "run", str(self.folder), timeout=PATIENCE)
        self.assertEqual(told, (0, TAKEN + FAULT))

    def place(self, name=NAMES[0]):
        """The entry's path, in a folder that is there."""
        path = self.path(name)
        path.parent.mkdir(parents=True, exist_ok=True)
        return path

    def test_a_fifo(self):
        os.mkfifo(self.place())
        self.fails()

    def test_a_socket(self):
        place = self.place()
        there = os.getcwd()
        with socket.socket(socket.AF_UNIX) as listening:
            os.chdir(place.parent)  # A socket's path may have 108 octets at most.
            try:
                listening.bind(place.name)
            finally:
                os.chdir(there)
            self.fails()

    def test_a_folder(self):
        self.place().mkdir()
        self.fails()

    def test_a_device_that_never_ends(self):
        self.place().symlink_to("/dev/zero")
        self.fails()

    def test_a_device_that_is_empty(self):
        """It isn't read as an empty entry."""
        self.place().symlink_to("/dev/null")
        self.fails()

    @unittest.skipUnless(os.geteuid() == 0, "only root may make a device")
    def test_a_device_of_its_own(self):
        try:
            os.mknod(self.place(), 0o600 | 0o020000, os.makedev(1, 5))
        except OSError as error:
            self.skipTest(f"no device can be made here: {error}")
        self.fails()

    def test_a_link(self):
        """A link is followed to a regular file."""
        kept = self.folder.parent / "kept"
        kept.write_bytes(ENTRIES[0])
        self.place().symlink_to(kept)
        self.loads(TAKEN)

    def test_a_link_that_is_stored_over(self):
        """What it named is read, and the link is replaced; what it named stays."""
        kept = self.folder.parent / "kept"
        kept.write_bytes(SIGNED)
        self.place(NAMES[3]).symlink_to(kept)
        told = plain.run_program(import_(NAMED) + store(NAMES[3]), "run", str(self.folder))
        self.assertEqual(told, (0, b"ok taken 1 skipped 0 new 2\nok stored 30\n"))
        self.assertFalse(self.path(NAMES[3]).is_symlink())
        self.assertEqual(self.path(NAMES[3]).read_bytes(), WHOLE)
        self.assertEqual(kept.read_bytes(), SIGNED)

    def test_a_link_that_dangles(self):
        """There is no such entry."""
        self.place().symlink_to(self.folder / "nothing")
        self.loads(b"refused absent\n")

    def test_a_link_to_itself(self):
        self.place().symlink_to(self.path(NAMES[0]))
        self.fails()

    def test_a_file_in_the_place_of_an_entry_s_folder(self):
        """The entry's path leads through a file: that isn't the same as an entry that isn't there."""
        self.folder.mkdir()
        self.path(NAMES[0]).parent.write_bytes(b"")
        self.fails()

    def test_a_name_too_long(self):
        self.folder = self.folder.parent / ("d" * 300)
        self.loads(FAULT)

    def test_as_long_as_may_be(self):
        """An entry of 8,388,608 octets is read; its certificate stands before a packet that fills the rest."""
        rest = LONGEST_ENTRY - len(ENTRIES[0]) - 6
        filled = ENTRIES[0] + b"\xd5\xff" + rest.to_bytes(4, "big") + bytes(rest)
        self.put({NAMES[0]: filled, NAMES[1]: ENTRIES[1] + bytes(LONGEST_ENTRY + 1 - len(ENTRIES[1]))})
        self.assertEqual(self.path(NAMES[0]).stat().st_size, LONGEST_ENTRY)
        self.loads(TAKEN)
        self.loads(b"refused long\n", NAMES[1])


class WhichFolder(InFolder):
    """The folder that is named is read and written, and no other one."""

    def others(self):
        """The working folder, with misfiled entries in folders that nothing names."""
        there = self.folder.parent
        for name in ("run", "pgp.cert.d", "other"):
            self.folder = there / name
            self.put({NAMES[0]: ENTRIES[1]})
        self.folder = there / "named"
        self.put({NAMES[0]: ENTRIES[0]})
        return there

    def test_a_path(self):
        there = self.others()
        self.assertEqual(plain.run_program(load(NAMES[0]), "run", str(self.folder), cwd=there), (0, TAKEN))

    def test_a_name(self):
        there = self.others()
        self.assertEqual(plain.run_program(load(NAMES[0]), "run", "named", cwd=there), (0, TAKEN))

    def test_a_slash_at_the_end(self):
        there = self.others()
        self.assertEqual(plain.run_program(load(NAMES[0]), "run", "named/", cwd=there), (0, TAKEN))

    def test_a_store(self):
        there = self.others()
        before = {name: (there / name / "x").parent.stat().st_mtime_ns for name in ("run", "pgp.cert.d", "other")}
        told = plain.run_program(import_(SIGNED) + store(NAMES[3]), "run", "named", cwd=there)
        self.assertEqual(told, (0, b"ok taken 1 skipped 0 new 2\nok stored 27\n"))
        self.assertEqual(self.path(NAMES[3]).read_bytes(), SIGNED)
        after = {name: (there / name).stat().st_mtime_ns for name in before}
        self.assertEqual(after, before)
