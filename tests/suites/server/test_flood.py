"""One user's thousands of costly questions, and what they cost another."""

import contextlib
import statistics
import threading
import time

import test_quotas
from outside import PATIENCE, needs_engine
from world import World


@needs_engine
class Flood(test_quotas.Shares):
    """A user's thousands of costly questions. Another's question should take less than 100 ms, and a change less than a
    second. On a machine that has much else to do a single one may take longer, so half of them are looked at."""

    def flood(self, options, seconds=6):
        self.begin(*options)
        end, threads = time.monotonic() + seconds, []
        strangers = [self.stranger() for _ in range(60)]

        def ask(client, first):
            """Each question is about a time of its own, and so costs a view."""
            with contextlib.suppress(OSError):
                for at in range(first, first + 100_000):
                    if time.monotonic() > end:
                        return
                    client.send(b"view q time %d" % at, b"view q root %s 120" % self.world.fprs[at % 12],
                                *[self.ask(place, b"q") for place in range(12)])

        def read(client):
            with contextlib.suppress(OSError):
                while client.socket.recv(1 << 16):
                    pass

        for place, client in enumerate(strangers):
            threads += [threading.Thread(target=ask, args=(client, 10_000 * place), daemon=True),
                        threading.Thread(target=read, args=(client,), daemon=True)]
        for thread in threads:
            thread.start()
        time.sleep(1.5)
        asked, changed = [], []
        while time.monotonic() < end:
            asked.append(self.seconds(self.ask()))
            changed.append(self.seconds(b"verdict %064x bad" % time.monotonic_ns()))
            time.sleep(0.02)
        for client in strangers:
            with contextlib.suppress(OSError):
                client.socket.shutdown(2)
        for thread in threads:
            thread.join(PATIENCE)
        print(f"\n  worst question {max(asked):.3f} s, change {max(changed):.3f} s, of {len(asked)}")
        self.assertLess(statistics.median(asked), 1)
        self.assertLess(statistics.median(changed), 2)

    def test_of_engines_that_hold_everything(self):
        self.flood(("--engines", "2"))

    def test_of_slices(self):
        self.world = World(count=12, depths=(0,))  # Nobody is an introducer, so slices are small.
        self.flood(("--budget", "6"))
