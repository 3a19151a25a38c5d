"""Real input: closed, failing, octet by octet, from a terminal, 2^30 octets, and the longest lines."""

import os
import pty
import tempfile
import threading
import tty

from process import KEYS, PATIENCE, Edge, plain, read_all, start, state_of, stop_and_go, wait_until, waiting

MOST_OCTETS = 1 << 30


class Input(Edge):
    def test_nothing_to_read(self):
        self.assertEqual(plain.run_program(b""), (0, b""))
        self.assertEqual(self.run_by_shell("</dev/null", b"keys\n"), (0, b""))

    def test_the_last_line_feed_may_lack(self):
        self.assertEqual(plain.run_program(b"keys\nkeys"), (0, KEYS + KEYS))

    def test_a_first_read_that_fails_is_not_the_end(self):
        with tempfile.TemporaryDirectory() as folder:
            self.assertEqual(self.run_by_shell(f'<"{folder}"', b""), (3, b""))

    def test_a_closed_input(self):
        self.assertEqual(self.run_by_shell("<&-", b""), (3, b""))

    def test_an_input_that_may_only_be_written(self):
        with tempfile.NamedTemporaryFile() as file:
            self.assertEqual(self.run_by_shell(f'0>"{file.name}"', b""), (3, b""))

    def test_a_later_read_that_fails(self):
        """An empty pipe that doesn't wait: the whole line is answered, the begun one isn't."""
        ours, theirs = os.pipe()
        os.set_blocking(ours, False)
        os.write(theirs, b"keys\nkey")
        process = start(stdin=ours)
        os.close(ours)
        self.assertEqual(process.stdout.read(), KEYS)
        self.ends(process, 3)
        os.close(theirs)

    def test_a_terminal_that_is_hung_up(self):
        """What the master of a terminal reads once its slave is closed is an error, and not the end."""
        try:
            master, slave = pty.openpty()
        except OSError as error:
            self.skipTest(f"no terminal can be had here: {error}")
        tty.setraw(slave)
        process = start(stdin=master)
        os.close(master)
        os.write(slave, b"keys\nkeys\nkeys")
        self.hears(process, KEYS + KEYS)
        os.close(slave)
        self.assertEqual(process.stdout.read(), b"")
        self.ends(process, 3)

    def test_a_read_that_is_stopped_goes_on(self):
        process = start()
        process.stdin.write(b"ke")
        wait_until(lambda: waiting(process.stdin) == 0 and state_of(process) == "S")
        stop_and_go(process)
        process.stdin.write(b"ys\n")
        self.hears(process, KEYS)
        process.stdin.close()
        self.ends(process, 0)

    def test_single_octets(self):
        process = start()
        for octet in b"keys\n# comment\n\nkeys\r\nkeys":
            process.stdin.write(bytes([octet]))
            wait_until(lambda: waiting(process.stdin) == 0)
        process.stdin.close()
        self.assertEqual(process.stdout.read(), KEYS + b"refused line\n" + KEYS)
        self.ends(process, 0)


class Most(Edge):
    """An input of 2^30 octets or more ends with status 6, and no octet behind them is taken."""

    def stream(self, count, last, extra=b""):
        """The status, what was written, and what is left in the pipe; `last` are the last octets of the input."""
        block = b"#" * 65535 + b"\n"
        ours, theirs = os.pipe()
        process = start(stdin=ours)
        heard = []
        reader = threading.Thread(target=lambda: heard.append(process.stdout.read()))
        reader.start()
        rest = count - len(last)
        while rest > 0:
            rest -= os.write(theirs, block[-rest:] if rest < len(block) else block)
        os.write(theirs, last + extra)
        os.close(theirs)
        status = process.wait(PATIENCE)
        reader.join()
        self.ends(process, status)
        return status, heard[0], read_all(ours)

    def test_two_to_the_thirty(self):
        self.assertEqual(self.stream(MOST_OCTETS, b"keys\n#"), (6, KEYS, b""))

    def test_one_octet_fewer(self):
        self.assertEqual(self.stream(MOST_OCTETS - 1, b"keys\nkeys"), (0, KEYS + KEYS, b""))

    def test_no_octet_more_is_taken(self):
        self.assertEqual(self.stream(MOST_OCTETS, b"keys\nkeys", b"\nkeys\n"), (6, KEYS, b"\nkeys\n"))


class LongLines(Edge):
    LONGEST = 1 << 24
    VIEW = b"view v time 5\n"

    def line_of(self, size, begin, item, end):
        """A line of this size: items of a list, as many as fit, and a user ID that fills the rest."""
        count = (size - len(begin) - len(end)) // len(item(0))
        line = begin + b"".join(map(item, range(count)))[:-1] + end
        return line + b"u" * (size - len(line))

    def replies(self, line):
        return plain.run_program(self.VIEW + line + b"\n")

    def test_the_longest_claims(self):
        key = b"%040x"
        lines = {
            b"checked yes 0\n": (b"check v %s - " % (key % 0), lambda at: b"%040x=255," % at, b" "),
            b"checked no paths\n": (b"check v %s " % (key % 0), lambda at: b"255/%040x.0," % at, b" - "),
        }
        for reply, parts in lines.items():
            line = self.line_of(self.LONGEST, *parts)
            self.assertEqual(self.replies(line), (0, b"ok\n" + reply))
            self.assertEqual(self.replies(line + b"u"), (0, b"ok\nrefused long\n"))
            wrong = line.replace(b",", b",,", 1)[:-1]
            self.assertEqual(self.replies(wrong), (0, b"ok\nrefused line\n"))
