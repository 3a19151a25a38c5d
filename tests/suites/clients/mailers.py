"""Mail programs and their libraries, over mails in the form of PGP/MIME: whether they show a signature as good."""

import fcntl
import json
import os
import pty
import select
import struct
import termios
import time

from asked import CASES, PATIENCE, PYTHON, detached, file_name

CONTENT = b"Content-Type: text/plain\r\n\r\nA mail.\r\n"
MAIL = b"""From: Bob <bob@example.org>
To: Reader <reader@example.org>
Subject: A signed mail
Date: Thu, 22 Feb 2024 22:13:20 +0000
Message-ID: <%s@example.org>
MIME-Version: 1.0
Content-Type: multipart/signed; micalg="pgp-sha512"; protocol="application/pgp-signature"; boundary="part"

--part
%s
--part
Content-Type: application/pgp-signature

%s
--part--
"""
# What mutt and neomutt say of a signature, in their last line.
GOOD, NOT_GOOD = b"signature successfully verified", b"signature could NOT be verified"
ENTER = b"\r"


def mails(asked):
    """A folder with a mail for each case, and the same as a mailbox."""
    return asked.work("mails", lambda work: _make(asked.host.people, work))


def _make(people, work):
    for case in CASES:
        signature = detached(people, case, CONTENT, "--armor")
        mail = MAIL % (file_name(case).encode(), CONTENT.replace(b"\r\n", b"\n"), signature)
        (work / f"{file_name(case)}.eml").write_bytes(mail)
        (work / f"{file_name(case)}.mbox").write_bytes(b"From bob@example.org Thu Feb 22 22:13:20 2024\n" + mail)


class Mutt:
    """mutt or neomutt, in a terminal: by commands that `tukyamid setup` sets, or by GPGME, which Debian's ask."""

    def __init__(self, program, is_classic):
        self.needed, self._program, self._is_classic = (program, None), program, is_classic

    def begin(self, asked):
        """Sets the program up."""
        if self._is_classic:
            asked.set_up(self._program)

    def end(self, asked):
        """Takes that back."""
        if self._is_classic:
            asked.set_up(self._program, "--undo")

    def accepts(self, asked, case):
        words = [self._program, "-R", "-e", "set folder=. quit=yes", "-f", f"{file_name(case)}.mbox"]
        return said_in_terminal(words, asked.environment | {"TERM": "xterm"}, mails(asked)) == GOOD


def said_in_terminal(words, environment, folder):
    """What a mail program says of the signature of the first mail: GOOD or NOT_GOOD."""
    process, terminal = pty.fork()
    if process == 0:
        os.chdir(folder)
        os.execvpe(words[0], words, environment)
    try:
        fcntl.ioctl(terminal, termios.TIOCSWINSZ, struct.pack("4H", 50, 120, 0, 0))
        seen = read_until(terminal, b"", (b"A signed mail",))
        os.write(terminal, ENTER)
        seen = read_until(terminal, seen, (GOOD, NOT_GOOD))
        return GOOD if GOOD in seen else NOT_GOOD
    finally:
        os.kill(process, 9)
        os.waitpid(process, 0)
        os.close(terminal)


def read_until(terminal, seen, words):
    """Reads what is shown until one of these words is."""
    end = time.monotonic() + PATIENCE
    while not any(word in seen for word in words):
        if not select.select([terminal], [], [], end - time.monotonic())[0]:
            raise TimeoutError(f"{words} not in {seen[-2000:]!r}")
        seen += os.read(terminal, 65536)
    return seen


class Notmuch:
    """notmuch show --verify. It shows a signature as good, and names the signer if the key is valid."""
    needed = ("notmuch", None)

    def __init__(self, names_signer):
        self._names_signer = names_signer

    def accepts(self, asked, case):
        work = asked.work("notmuch", lambda work: self._make(asked, work))
        found = self._notmuch(asked, work, "show", "--verify", "--format=json", f"id:{file_name(case)}@example.org")
        message = json.loads(found.stdout)[0][0][0]
        signatures = message["body"][0]["sigstatus"]
        return bool(signatures) and all(one["status"] == "good" and (not self._names_signer or "userid" in one)
                                        for one in signatures)

    def _make(self, asked, work):
        for name in "cur", "new", "tmp":
            (work / "mail" / name).mkdir(parents=True)
        for path in mails(asked).glob("*.eml"):
            (work / "mail/cur" / path.name).write_bytes(path.read_bytes())
        (work / "config").write_text(f"[database]\npath={work}/mail\n[user]\nname=R\nprimary_email=r@example.org\n")
        self._notmuch(asked, work, "new")

    def _notmuch(self, asked, work, *words):
        return asked.run("notmuch", *words, environment={"NOTMUCH_CONFIG": work / "config"})


CAMEL = """
import sys, gi
gi.require_version("Camel", "1.2")
from gi.repository import Camel, GLib
Camel.init(sys.argv[2], False)
session = Camel.Session(user_data_dir=sys.argv[2] + "/data", user_cache_dir=sys.argv[2] + "/cache")
mail = Camel.MimeMessage.new()
mail.construct_from_stream_sync(Camel.StreamFs.new_with_name(sys.argv[1], 0, 0), None)
try:
    sys.exit(0 if Camel.GpgContext.new(session).verify_sync(mail, None).get_valid() else 1)
except GLib.Error:
    sys.exit(1)
"""


class Camel:
    """Evolution's library for mail, which `tukyamid setup evolution` sets up in the user's settings."""
    needed = (None, "gi")
    typelib = "Camel-1.2"
    settings = {"GSETTINGS_BACKEND": "keyfile"}

    def begin(self, asked):
        asked.set_up("evolution", environment=self.settings)

    def end(self, asked):
        asked.set_up("evolution", "--undo", environment=self.settings)

    def accepts(self, asked, case):
        work = asked.work("camel", lambda work: None)
        return asked.run(PYTHON, "-c", CAMEL, mails(asked) / f"{file_name(case)}.eml", work,
                         environment=self.settings).returncode == 0


MAIL_GNUPG = """
use Mail::GnuPG; use MIME::Parser;
my $parser = MIME::Parser->new;
$parser->decode_bodies(0);
$parser->output_to_core(1);
my ($status) = Mail::GnuPG->new->verify($parser->parse_open($ARGV[0]));
exit($status == 0 ? 0 : 1);
"""


class MailGnupg:
    """Mail::GnuPG of Perl's."""
    needed = ("perl", None)

    def accepts(self, asked, case):
        return asked.run("perl", "-e", MAIL_GNUPG, mails(asked) / f"{file_name(case)}.eml").returncode == 0
