"""The client's `Engine`: framing, refusals, long listings, threads, the program's end."""

import io
import os
import signal
import threading
import unittest

from outside import FAKE_ENGINE, folder
from tukyamid import (Accepted, Answer, Binding, Claim, ClaimedStep, Done, Engine, EngineEnded, EngineMissing,
                      Explanation, Gone, Key, Label, Missed, Path, PendingSignature, ProtocolError, Reached, Reason,
                      Rejected, Stale, Step, Taken, Watched, commands)
from tukyamid.protocol import refusals
from tukyamid.protocol.reasons import ReasonWord, TargetWord
from tukyamid.protocol.replies import Exported

A, B, N = "aa" * 20, "bb" * 20, "11" * 32


class Framing(unittest.TestCase):
    """The calls and their replies. `test_client` runs these tests over its own connections."""
    ended = EngineEnded

    def open(self):
        return Engine(FAKE_ENGINE)

    def setUp(self):
        self.engine = self.open()
        self.addCleanup(self.engine.close)

    def test_each_reply_is_its_type(self):
        engine = self.engine
        self.assertEqual(engine.import_certificates(b"\5"), Taken(1, 2, 3))
        self.assertEqual(engine.do(commands.Drop(B)), Done())
        self.assertEqual(engine.store(A), 4194304)
        self.assertEqual(list(engine.keys()), [Key(A, 1, 2), Key(B, 0, 0), Key(A, 2**64 - 1, 3)])
        self.assertEqual(list(engine.pending()), [PendingSignature(N, A, B), PendingSignature(N, A, "0123456789abcdef"),
                                                  PendingSignature(N, B, None)])
        self.assertEqual(list(engine.list("v", 120)), [Binding(120, A, b"Alice"), Binding(250, B, b"B\\ob \n")])
        self.assertEqual(list(engine.list("v", 121)), [])
        self.assertEqual(engine.explain("v", A, "Alice"), Explanation(
            "ok", (Reason(N, "edge", B, 255, 120), Reason(N, "issuer-hard"), Reason(N, "older"))))
        self.assertEqual(engine.explain("v", A, ""), Explanation("uid", ()))
        words = [engine.explain("v", A, word) for word in (*TargetWord, *ReasonWord)]
        self.assertEqual([word for told in words for word in (told.word, *(reason.word for reason in told.reasons))],
                         [*TargetWord, *(word for reason in ReasonWord for word in ("ok", reason))])
        self.assertEqual(engine.ask("v", A, 120, ""), Answer(0, ()))
        self.assertEqual(engine.ask("v", A, 120, "Alice"), Answer(120, (
            Path(40, B, (Step(B, A, 0, 40, b"Alice"),)),
            Path(80, B, (Step(B, B, 1, 80, b""), Step(B, A, 0, 120, b"Alice and more"))))))
        self.assertEqual(list(engine.dump()), [b"import ", b"verdict " + N.encode() + b" bad"])
        self.assertEqual(engine.do(commands.Export(A)), Exported(b"\xaa" * 20))

    def test_claims_of_absence(self):
        engine = self.engine
        paths, table = (Claim(40, (ClaimedStep(B, 0), ClaimedStep(A, 1))),), (Label(A, 2), Label(B, 1))
        self.assertEqual(engine.absence("v", A, 120, "Alice"), Missed(40, paths, table))
        self.assertEqual(engine.absence("v", A, 120, ""), Missed(0, (), ()))
        self.assertEqual(engine.absence("v", A, 40, "Alice"), Reached(40))
        self.assertEqual(engine.check("v", A, paths, table, "Alice"), Accepted(40))
        self.assertEqual(engine.check("v", A, (), table[1:], "Alice"), Rejected("table"))
        claim = Claim(255, (ClaimedStep(B, 2**32 - 1),))
        self.assertEqual(engine.check("v", A, [claim], (), "Alice"), Rejected("paths"))
        for wrong in ((), (table[1], table[0])), ((Claim(0, paths[0].steps),), ()), ((Claim(1, ()),), ()):
            self.assertRaises(ValueError, engine.check, "v", A, *wrong, "Alice")
        self.assertRaises(ProtocolError, engine.absence, "v", A, 120, "no claim")

    def test_a_list_in_pieces_begins_anew_where_it_went_stale(self):
        alice, bob = Binding(120, A, b"Alice"), Binding(120, B, b"Bob")
        told = list(self.engine.list_in_pieces("c", "v", 120, count=2))
        self.assertEqual(told, [alice, bob, Stale("keyring", 3, 4), Binding(60, B, b"Bob")])
        self.assertEqual(self.engine.next_piece("c", 2), Stale("view", 5, 2**64 - 1))

    def test_watches_are_told(self):
        engine = self.engine
        self.assertEqual(engine.told(), [])
        for watch in "uwx":
            self.assertEqual(engine.watch(watch, "v", A, 120, "Alice"), 120)
        self.assertRaises(ValueError, engine.feed, [b"keys"])
        engine.unwatch("w")
        self.assertEqual([key.fpr for key in engine.keys()], [A, B, A])
        self.assertEqual(engine.told(), [Watched("u", 2**32 - 1), Gone("x")])
        self.assertEqual(engine.told(), [])
        self.assertRaises(ValueError, engine.restore, io.BytesIO(b"import 05\n"))
        self.assertRaises(ProtocolError, engine.watch, "z", "v", A, 1, "")

    def test_no_watch_begins_among_many_lines(self):
        with self.open() as engine:
            self.assertRaises(ValueError, engine.feed, [b"keys", b"watch u on v %s 120 Alice" % A.encode()])

    def test_each_refusal_is_its_exception(self):
        engine = self.engine
        table = [
            (lambda: engine.import_certificates(b""), refusals.RefusedEmpty, {}),
            (lambda: engine.import_certificates(b"\1"), refusals.RefusedPacket, {"kind": 1, "at": 0}),
            (lambda: engine.import_certificates(b"\2"), refusals.RefusedKind, {"type": 9, "at": 7}),
            (lambda: engine.import_certificates(b"\3"), refusals.RefusedOrder, {"at": 5}),
            (lambda: engine.import_certificates(b"\4"), refusals.RefusedFull, {"limit": "certificates"}),
            (lambda: engine.begin_cursor("d", "v", 120), refusals.RefusedFull, {"limit": "cursors"}),
            (lambda: engine.next_piece("d", 1), refusals.RefusedCursor, {}),
            (lambda: engine.watch("y", "v", A, 1, ""), refusals.RefusedFull, {"limit": "watches"}),
            (lambda: engine.unwatch("x"), refusals.RefusedWatch, {}),
            (lambda: engine.import_certificates(b"\6"), refusals.RefusedClash, {}),
            (lambda: engine.import_certificates(b"\7"), refusals.RefusedSecret, {}),
            (lambda: engine.import_certificates(b"\x08"), refusals.RefusedCompressed, {}),
            (lambda: engine.load(A), refusals.RefusedMisfiled, {}),
            (lambda: engine.load("trust-root"), refusals.ShelfFault, {}),
            (lambda: engine.drop(A), refusals.RefusedAbsent, {}),
            (lambda: engine.close_view("v"), refusals.RefusedView, {}),
            (lambda: engine.explain("w", A, ""), refusals.RefusedView, {}),
            (lambda: engine.explain("v", B, ""), refusals.RefusedAbsent, {}),
            (lambda: engine.list("w", 1), refusals.RefusedView, {}),
            (lambda: engine.send_line(b"nonsense"), refusals.RefusedLine, {}),
        ]
        for call, kind, fields in table:
            with self.subTest(kind.__name__), self.assertRaises(kind) as caught:
                call()
            self.assertEqual({name: getattr(caught.exception, name) for name in fields}, fields)
        self.assertEqual(engine.do(commands.Drop(B)), Done())

    def test_a_listing_is_read_on_demand_and_kept_for_later(self):
        first, second = self.engine.keys(), self.engine.keys()
        self.assertEqual(next(second).fpr, A)
        self.engine.drop(B)
        self.assertEqual([key.fpr for key in first], [A, B, A])
        self.assertEqual([key.fpr for key in second], [B, A])
        self.assertEqual(first.count, 3)

    def test_what_is_no_reply_is_told(self):
        for wrong in (lambda engine: engine.close_view("w"), lambda engine: engine.close_view("x"),
                      lambda engine: engine.explain("v", A, "no target's word"),
                      lambda engine: engine.explain("v", A, "no reason's word"),
                      lambda engine: engine.explain("v", A, "an edge alone")):
            with self.open() as engine:
                self.assertRaises(ProtocolError, wrong, engine)
                self.assertRaises(ProtocolError, engine.keys)

    def test_lines_without_a_reply(self):
        self.assertIsNone(self.engine.send_line(b"# a comment"))
        self.assertIsNone(self.engine.send_line(b""))
        self.assertRaises(ValueError, self.engine.send_line, b"keys\nkeys")
        replies = list(self.engine.run([b"#\n", b"\n", b"import 05\n", b"drop " + A.encode()]))
        self.assertEqual(replies[0], Taken(1, 2, 3))
        self.assertIsInstance(replies[1], refusals.RefusedAbsent)

    def test_many_lines_at_once(self):
        lines = [b"# begin", b"import 05\n", b"", b"keys", b"import 06"] * 4_000
        refused = self.engine.feed(iter(lines))
        self.assertEqual([one.position for one in refused], [5 * place for place in range(1, 4_001)])
        self.assertEqual({type(one) for one in refused}, {refusals.RefusedClash})

    def test_lines_that_fail_while_they_are_fed(self):
        def lines():
            yield b"import 05"
            raise OSError("the disk is gone")
        self.assertRaises(OSError, self.engine.feed, lines())
        self.assertEqual(self.engine.import_certificates(b"\5"), Taken(1, 2, 3))

    def test_a_dump_as_it_stands(self):
        ok = b"import 05\nverdict " + b"0" * 50_000 + b"\nimport 05\n" + b"verdict " + b"1" * 999_970 + b"\n"
        ok *= 5
        self.assertTrue(self.engine.restore(io.BytesIO(ok)))
        self.assertTrue(self.engine.restore(io.BytesIO(b"")))
        self.assertEqual(self.engine.import_certificates(b"\5"), Taken(1, 2, 3))
        for damaged in ok + b"import 06\n", b"import 06\n" + ok, b"keys\n", ok + b"import 06\nimport 05\n":
            with self.subTest(damaged[-20:]), self.open() as engine:
                self.assertFalse(engine.restore(io.BytesIO(damaged)))
                self.assertRaises((ProtocolError, self.ended), engine.keys)
        for silent in b"# a comment\n" + ok, ok + b"\n", ok[:-1] + b"\n\n\n":
            with self.subTest(silent[-20:]), self.open() as engine:
                self.assertRaises(ValueError, engine.restore, io.BytesIO(silent))
        with self.open() as engine, self.assertRaises(self.ended):
            engine.restore(io.BytesIO(ok + b"view end close\n" + ok))

    def test_threads_get_their_own_replies(self):
        wrong = []

        def ask(octet):
            for _ in range(100):
                fpr = f"{octet:02x}" * 20
                if self.engine.export(fpr) != bytes([octet]) * 20 or len(list(self.engine.keys())) != 3:
                    wrong.append(fpr)

        threads = [threading.Thread(target=ask, args=(octet,)) for octet in range(8)]
        for thread in threads:
            thread.start()
        for thread in threads:
            thread.join()
        self.assertEqual(wrong, [])


class Octets(unittest.TestCase):
    """What only the plain client has: a dump as the octets that the program wrote, not cut into lines."""

    def test_a_dump_in_pieces(self):
        with Engine(FAKE_ENGINE) as engine:
            self.assertEqual(b"".join(engine.dump().octets()), b"import \nverdict " + N.encode() + b" bad\n")


class End(unittest.TestCase):
    def setUp(self):
        self.engine = Engine(FAKE_ENGINE)
        self.addCleanup(self.engine.close)

    def test_the_end_of_the_program(self):
        with self.assertRaises(EngineEnded) as caught:
            self.engine.close_view("end")
        self.assertEqual(caught.exception.status, 5)
        self.assertRaises(EngineEnded, self.engine.keys)
        self.assertEqual(self.engine.close(), 5)
        killed = Engine(FAKE_ENGINE)
        os.kill(killed._process.pid, signal.SIGKILL)
        with self.assertRaises(EngineEnded) as caught:
            killed.feed([b"import 05"] * 100_000)
        self.assertEqual(caught.exception.status, -signal.SIGKILL)
        killed.close()

    def test_what_the_program_has_of_this_process(self):
        """No open file but the standard ones, and no signal that Python ignores."""
        path = folder() / "started"
        inherited = os.dup(0)
        self.addCleanup(os.close, inherited)
        os.set_inheritable(inherited, True)
        script = f"ls /proc/self/fd > {path}; grep SigIgn /proc/self/status >> {path}; exec cat > /dev/null"
        self.assertEqual(Engine(["/bin/sh", "-c", script, "sh"]).close(), 0)
        *files, _, ignored = path.read_text(encoding="ascii").split()
        self.assertEqual(files, ["0", "1", "2", "3"])  # `ls` has the third one open itself.
        self.assertFalse(int(ignored, 16) & (1 << signal.SIGPIPE - 1 | 1 << signal.SIGXFSZ - 1))

    def test_a_program_that_is_not_there(self):
        self.assertRaises(EngineMissing, Engine, [str(folder() / "no-such-engine")])

    def test_closing(self):
        self.assertEqual(self.engine.close(), 0)
        self.assertRaises(EngineEnded, self.engine.keys)
        other = Engine(FAKE_ENGINE, arguments=("wrong",))
        self.assertEqual(other.close(), 2)
