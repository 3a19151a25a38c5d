"""Random scripts for comparing a program with the model: the same seed gives the same script."""

from .certificates import ATTRIBUTE, KEY
from .packets import shortest_length, write_packet
from .random_lines import Lines
from .script import LONGEST_LINE


class Generator(Lines):
    """Draws a world, and a script about it."""

    def odd_line(self):
        """A line that has no reply or is malformed, or nearly so."""
        asked = [self.ask_line, self.list_line, self.explain_line, self.absence_line, self.check_line]
        asked += [self.cursor_line, self.watch_line]
        others = self.time_line, self.root_line, self.any_verdict_line, self.load_line, self.store_line, lambda: b"keys"
        line = self.pick([*asked, *others])()
        at = self.random.randrange(len(line) + 1)
        return self.pick([
            b"", b"# comment", b"#", b" ", b"\r", b"keys\r", b"#\r", b" #", b"lists", b"pending ", b"list p 01",
            b"list p 0", b"view p time 05", b"view p time +5", b"view p time 4294967296", b"view p time 42949672950",
            b"cursor c next 0", b"cursor c over p 0", b"cursor c", b"cursor c close ",
            b"watch w", b"watch w on", b"watch w on p", b"watch w off ", b"watch W off", b"watch w on p 00 0 ",
            b"import", b"import ", b"import c", b"import 0g", b"load", b"load ", b"load trust-root ",
            b"load Trust-root", b"store ", b"store trust-root", b"dump ", b"export", b"view " + b"a" * 33 + b" time 1",
            b"view  time 1", b"view P time 1",
            b"\xff\0", line + b" ", b" " + line, line + b"\r", line[:at], line[:at] + b" " + line[at:],
            line[:at] + line[at + 1 :], line.replace(b" ", b"  ", 1), line.upper(), line.replace(b" ", b"\t", 1),
            line[:at] + b"\\" + line[at:],
        ])

    def event(self):
        key = self.pick(self.keys)
        events = [
            (46, self.ask_line),
            (3, self.list_line),
            (12, self.cursor_line),
            (6, self.watch_line),
            (12, self.explain_line),
            (6, self.absence_line),
            (4, self.check_line),
            (2, lambda: b"pending"),
            (14, self.time_line),
            (6, self.root_line),
            (10, self.any_verdict_line),
            (4, lambda: self.import_line(self.certificate(key, 0.5))),
            (4, self.load_line),
            (4, self.store_line),
            (2, lambda: self.words(b"drop", self.digits(self.name()))),
            (2, lambda: self.words(b"export", self.digits(self.name()))),
            (2, lambda: b"keys"),
            (1, lambda: b"dump"),
            (1, lambda: self.words(b"view", self.pick(self.views), b"close")),
            (5, self.odd_line),
            (4, lambda: self.import_line(self.odd_octets())),
        ]
        return self.random.choices([make for _, make in events], [weight for weight, _ in events])[0]()

    def build_up(self):
        """Views with roots, certificates and verdicts, in any order."""
        lines = []
        for key in self.keys:
            if key.name in self.entries and self.chance(0.3):
                lines.append(self.words(b"load", self.digits(key.name)))
            elif self.chance(0.95):
                lines.append(self.import_line(self.certificate(key, 1)))
            else:
                lines += [self.import_line(self.certificate(key, 0.6)) for _ in range(2)]
            lines += [self.verdict_line(key, *signature) for signature in key.signatures if not self.is_odd()]
        if self.chance(0.3):
            lines.append(self.import_line(b"".join(self.certificate(key, 0.8) for key in self.keys)))
        self.random.shuffle(lines)
        opened = [self.words(b"view", view, b"time", self.time()) for view in self.views]
        roots = [self.root_line(view) for view in self.views for _ in range(self.pick([1, 1, 2, 3]))]
        first = self.words(b"view", b"p", b"root", self.digits(self.keys[0].name), self.pick([120, 255]))
        return opened + [first] + roots + lines

    def at_limits(self):
        """Lines that meet limits."""
        lines = []
        if self.chance(0.1):
            lines += [self.words(b"view", b"v%d" % number, b"time", 5) for number in range(self.pick([13, 14, 20]))]
        if self.chance(0.1):
            lines += [
                self.words(
                    b"view", b"p", b"root", self.digits(self.random.randbytes(self.pick([20, 32]))), self.pick([1, 120])
                )
                for _ in range(self.pick([60, 66]))
            ]
        if self.chance(0.02):
            key = self.pick(self.keys)
            lengths = [4194304 - 6 - len(key.body) - 1 - len(shortest_length(len(key.body))) + more for more in (0, 1)]
            big = write_packet(KEY, key.body) + write_packet(ATTRIBUTE, bytes(self.pick(lengths)))
            lines += [self.words(b"drop", self.digits(key.name)), b"import " + big.hex().encode(), b"keys"]
            lines += [self.words(b"drop", self.digits(key.name))]
        if self.chance(0.02):
            length = LONGEST_LINE + self.pick([0, 1])
            lines.append(self.pick([b"#", b"x", b"\0"]) * length)
        return lines

    def script(self):
        self.make_world()
        self.make_entries()
        lines = self.build_up() + [self.event() for _ in range(self.pick([20, 60, 60, 120]))]
        lines += self.at_limits() + [self.event() for _ in range(10)]
        for line in (self.ask_line(), self.ask_line(), b"keys", b"dump"):
            lines.append(line)
        end = b"" if self.chance(0.3) else b"\n"
        return b"\n".join(line.replace(b"\n", b" ") for line in lines) + end


def script(seed):
    """The script of a seed, as octets, and the entries of its certificate directory."""
    generator = Generator(seed)
    return generator.script(), generator.entries
