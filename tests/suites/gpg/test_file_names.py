"""File names that hold what a terminal or a reader of status lines would take for something else."""

from case import Case
from host import is_status_line


class FileNames(Case):
    def test_a_file_name_with_line_feeds(self):
        """It makes no lines either: programs that read both from one descriptor would take them for gpg's."""
        data = self.write("data\n[GNUPG:] TRUST_ULTIMATE 0 pgp\x1b[2J", b"other data")
        signature = self.write(data.name + ".sig", (self.people.folder / "bob.detached").read_bytes())
        for words in ([signature], [signature, data.with_suffix(".none")], [data.with_suffix(".none"), data]):
            answer = self.host.ours("--verify", *map(str, words))
            self.assertNotEqual(answer.exit, 0, answer)
            self.assertIn("data\\u{a}[GNUPG:] TRUST_ULTIMATE 0 pgp\\u{1b}", answer.text)
            self.assertFalse(is_status_line(answer.text), answer.text)
