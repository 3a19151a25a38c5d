"""Excerpts of the keyring, over a small world of which everything is known."""

import test_lines
from outside import alone, needs_engine


def led_to(world, found):
    """These keys, and those that trust signatures lead to from them."""
    depths = world.depths
    while more := {target for (issuer, target), depth in depths.items() if issuer in found and depth} - found:
        found = found | more
    return found


@needs_engine
class Excerpts(test_lines.Lines):
    def setUp(self):
        self.start()

    def test_excerpt(self):
        """The lines make exactly the certificates that are wanted, with their verdicts, as the world's depths say."""
        depths, fprs = self.world.depths, self.world.fprs

        def leading(found):
            while more := {issuer for (issuer, target), depth in depths.items() if target in found and depth} - found:
                found = found | more
            return found
        whole = dict(zip(fprs, alone([*self.world.lines(), *(b"export " + fpr for fpr in fprs)])[-len(fprs):]))
        for fpr in fprs:
            issuers = {issuer for issuer, target in depths if target == fpr}
            slice_of = led_to(self.world, {fpr})
            for word, wanted in [(b"key", {fpr}), (b"from", slice_of), (b"about", {fpr} | issuers),
                                 (b"reach", slice_of | {target for issuer, target in depths if issuer in slice_of}),
                                 (b"to", {fpr} | leading(issuers))]:
                lines = self.ask(b"service excerpt %s %s" % (word, fpr.upper()))
                replies = alone([*lines, b"keys", b"pending", *(b"export " + one for one in sorted(wanted))])
                self.assertEqual(replies[-len(wanted):], [whole[one] for one in sorted(wanted)], word)
                self.assertTrue(replies[len(lines)].startswith(b"keys %d\n" % len(wanted)), word)
                self.assertEqual(replies[len(lines) + 1].rstrip(), b"pending 0", word)
        both, *alone_each = (self.ask(b"service excerpt key " + keys) for keys in (
            b" ".join([fprs[0], b"0" * 40, fprs[1]]), fprs[0], fprs[1]))
        self.assertEqual(sorted(both), sorted(line for lines in alone_each for line in lines))
        self.assertEqual(self.ask(b"service excerpt from " + b"0" * 40), [])


@needs_engine
class Questions(test_lines.Lines):
    """Excerpts for questions, over a network in which few are introducers."""

    def setUp(self):
        self.start(count=40, depths=(0, 0, 0, 0, 1))

    def test_question(self):
        """The target has all of its signatures. The others have all that one of them has made, and no other. An engine
        of these answers as one of the whole world does."""
        fprs, made, amounts = self.world.fprs, self.world.verdicts, set()
        on = {fpr: made[6 * place:6 * place + 6] for place, fpr in enumerate(fprs)}
        for place, target in enumerate(fprs):
            root = fprs[place - 1]
            there = led_to(self.world, {root}) | {target}
            lines = [line.rstrip() for line in self.ask(b"service excerpt question %s %s" % (target, root))]
            wanted = [b"verdict %s good %s" % one for fpr in there for one in on[fpr]
                      if fpr == target or one[1] in there]
            self.assertEqual(sorted(line for line in lines if line.startswith(b"verdict ")), sorted(wanted))
            asked = [b"view v time 5000", b"view v root %s 120" % root,
                     b"ask v %s 120 %s" % (target, self.world.user_ids[place])]
            replies, whole = alone([*lines, b"pending", *asked]), alone([*self.world.lines(), *asked])
            self.assertEqual(replies[len(lines)].rstrip(), b"pending 0")
            self.assertEqual(replies[-1], whole[-1])
            amounts.add(replies[-1].split()[1])
        self.assertGreater(len(amounts), 2)
        self.assertEqual(self.ask(b"service excerpt question " + fprs[0]), self.ask(b"service excerpt key " + fprs[0]))
