"""Each command's line, written and read."""

import unittest

from tukyamid import Claim, ClaimedStep, Label, commands, read_command

A, B, N = "aa" * 20, "bb" * 20, "11" * 32


class Lines(unittest.TestCase):
    def test_commands_have_their_lines(self):
        table = [
            (commands.Import(b"\x00\xff"), b"import 00ff"), (commands.Import(b""), b"import "),
            (commands.Load("trust-root"), b"load trust-root"), (commands.Load(A), b"load " + A.encode()),
            (commands.Store(A), b"store " + A.encode()), (commands.Drop(A.upper()), b"drop " + A.encode()),
            (commands.Good(N, A), f"verdict {N} good {A}".encode()), (commands.Bad(N), f"verdict {N} bad".encode()),
            (commands.Unjudge(N), f"verdict {N} none".encode()),
            (commands.Time("v-_9", 2**32 - 1), b"view v-_9 time 4294967295"),
            (commands.Root("v", A, 0), f"view v root {A} 0".encode()), (commands.Close("v"), b"view v close"),
            (commands.Ask("v", A, 1, ""), f"ask v {A} 1 ".encode()),
            (commands.Ask("v", A, 1, "Zo\u00eb\\ "), f"ask v {A} 1 Zo\\xc3\\xab\\\\ ".encode()),
            (commands.List("v", 240), b"list v 240"),
            (commands.Explain("v", A, b"\n"), f"explain v {A} \\x0a".encode()),
            (commands.Pending(), b"pending"), (commands.Keys(), b"keys"), (commands.Export(A), b"export " + A.encode()),
            (commands.Dump(), b"dump"),
            (commands.Absence("v", A, 9, "Al"), f"absence v {A} 9 Al".encode()),
            (commands.Check("v", A, [Claim(40, (ClaimedStep(B, 7),))], [Label(B, 1)], " "),
             f"check v {A} 40/{B}.7 {B}=1  ".encode()),
            (commands.Check("v", A, (), (), ""), f"check v {A} - - ".encode()),
            (commands.CursorOver("c", "v", 1), b"cursor c over v 1"), (commands.CursorNext("c", 9), b"cursor c next 9"),
            (commands.CursorClose("c"), b"cursor c close"), (commands.WatchOff("w"), b"watch w off"),
            (commands.WatchOn("w", "v", A, 1, "a b"), f"watch w on v {A} 1 a b".encode()),
        ]
        types = {made for made in vars(commands).values() if isinstance(made, type) and "form" in vars(made)}
        self.assertEqual({type(command) for command, _ in table}, types)
        for command, line in table:
            with self.subTest(line):
                self.assertEqual(command.line(), line)
                self.assertEqual(read_command(line), command)

    def test_what_has_no_spelling_is_a_value_error(self):
        for make in (lambda: commands.Drop("aa"), lambda: commands.Drop(A + "\nkeys"), lambda: commands.Time("V", 1),
                     lambda: commands.Time("v", 2**32), lambda: commands.Root("v", A, 256),
                     lambda: commands.Ask("v", A, 0, ""),
                     lambda: commands.Bad("0"), lambda: commands.Time("v" * 33, 1), lambda: commands.Time("v", True),
                     lambda: commands.CursorNext("c", 0), lambda: commands.WatchOff(""),
                     lambda: read_command(b"keys now"), lambda: read_command(b"cursor c"),
                     lambda: read_command(b"verdict 0 worse"), lambda: read_command(b"nonsense"),
                     lambda: read_command(b"ask v " + A.encode() + rb" 1 \q")):
            self.assertRaises(ValueError, make)
