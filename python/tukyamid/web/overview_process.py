"""Makes an overview: `python3 -m tukyamid.web.overview_process SOCKET`, with a standpoint as JSON on standard input.
Writes lines of JSON: how far it is, with the tables that are there so far, and at last all of them."""

import json
import os
import sys
from collections import defaultdict
from collections.abc import Callable, Iterable, Iterator
from time import monotonic as clock
from typing import Any, BinaryIO, cast

from ..client import connect
from ..client.engine import Engine
from ..client.listing import Listing
from ..protocol.refusals import ServiceEnded, ServiceMissing, TukyamidError
from . import overview_tables
from .facts_summary import Counts, FactsProcess

FULL, PARTIAL, ANY = 120, 40, 1
VIEW = "overview"
ORDER = "bindings", "introducers", "ending", "hashes", "islands"
MOST_INTRODUCERS = 200
# The bindings that are asked about one by one. Of more, a list of all bindings costs less.
MOST_ASKED = 500
# As many bindings are listed in the time that a question about one takes.
LISTED_PER_ASKED = 8
PAUSE = 0.3

Binding = tuple[str, bytes]


def say(**said: Any) -> None:
    sys.stdout.write(json.dumps(said) + "\n")
    sys.stdout.flush()


class Copied:
    """A dump as a file that the engine is filled from. What is read goes to the facts' process too."""

    def __init__(self, dump: Listing[bytes], facts: FactsProcess) -> None:
        self._pieces, self._facts = dump.octets(), facts
        self._lines, self._copied, self._said_at = dump.count, 0, clock()

    def read(self, size: int) -> bytes:
        """The next piece, of any size; none at the end."""
        piece = next(self._pieces, b"")
        self._facts.write(piece)
        self._copied += piece.count(b"\n")
        if clock() - self._said_at > PAUSE:
            self._said_at = clock()
            say(progress=f"copying the keyring, {100 * self._copied // self._lines} %")
        return piece


class Overview:
    """A copy of the service's keyring in an engine of its own, from which keys can be taken out one after another."""

    def __init__(self, engine: Engine, facts: FactsProcess, time: int, roots: dict[str, int]) -> None:
        self._engine, self._facts, self._roots = engine, facts, roots
        self._tables: dict[str, overview_tables.Table] = {}
        self._progress = "looking for what depends on whom"
        self._said_at = 0.0
        self._about: dict[str, Any] = {"time": time, "roots": roots}
        engine.open_view(VIEW, time)
        for fpr, amount in roots.items():
            engine.set_root(VIEW, fpr, amount)

    def every_table(self) -> Iterator[overview_tables.Table]:
        """The tables, in an order in which what takes longest comes last. A later one takes the place of one of its
        name."""
        counts = self._facts.counts()
        self._about["keys"] = counts.keys
        full, partial, some = self._levels(counts)
        yield _table_of_counts(counts, full, partial, some)
        summary = self._facts.summary()
        yield from summary.tables
        yield overview_tables.islands(summary.groups, summary.names, summary.created, frozenset(fpr for fpr, _ in some))
        yield from self._introducers(summary.names, full, some)

    def gather(self) -> None:
        """Makes the tables, and says those that are there so far whenever one is."""
        say(progress="counting the bindings")
        for table in self.every_table():
            self._tables[table["name"]] = table
            tables = sorted(self._tables.values(), key=lambda one: ORDER.index(one["name"]))
            say(**{"progress": self._progress} if self._progress else {}, tables=tables, **self._about)
            self._said_at = clock()

    def _reached(self, amount: int) -> set[Binding]:
        return {(one.fpr, one.user_id) for one in self._engine.list(VIEW, amount)}

    def _levels(self, counts: Counts) -> tuple[set[Binding], set[Binding], set[Binding]]:
        """The bindings that are authenticated fully, partly and to any amount."""
        some = self._reached(ANY)
        if len(some) * LISTED_PER_ASKED > counts.bindings:
            return self._reached(FULL), self._reached(PARTIAL), some
        amounts = self._amounts(some)
        return ({one for one in some if amounts[one] >= FULL}, {one for one in some if amounts[one] >= PARTIAL}, some)

    def _amounts(self, bindings: Iterable[Binding]) -> dict[Binding, int]:
        return {one: self._engine.ask(VIEW, one[0], FULL, one[1]).amount for one in bindings}

    def _introducers(self, names: dict[str, str], full: set[Binding],
                     some: set[Binding]) -> Iterator[overview_tables.Table]:
        """What would be lost without each key that is on a path, as the engine answers when it is taken out: the table
        as far as it is, with those first that are on most paths, and at last all of it."""
        on_paths = self._on_paths(some)
        asked = sorted(on_paths, key=lambda fpr: -len(on_paths[fpr]))[:MOST_INTRODUCERS]
        rows: list[tuple[str, str, int, int, int, str]] = []
        for fpr in asked:
            lost_full, lost = self._lost_without(fpr, on_paths[fpr], full, some)
            rows.append((names.get(fpr, ""), "root" if fpr in self._roots else "introducer", len(on_paths[fpr]),
                         lost_full, lost, fpr))
            if len(rows) < len(asked) and self._is_due():
                self._progress = f"left out introducer {len(rows)} of {len(asked)}"
                yield _table_of_introducers(rows)
        self._progress = ""
        yield _table_of_introducers(rows)

    def _is_due(self) -> bool:
        """Whether what is there so far was last said a while ago."""
        return clock() - self._said_at > PAUSE

    def _on_paths(self, bindings: Iterable[Binding]) -> dict[str, list[Binding]]:
        """The bindings of others that have each issuer on a path."""
        found: defaultdict[str, list[Binding]] = defaultdict(list)
        for fpr, user_id in sorted(bindings):
            paths = self._engine.ask(VIEW, fpr, FULL, user_id).paths
            for issuer in {step.issuer for path in paths for step in path.steps} - {fpr}:
                found[issuer].append((fpr, user_id))
        return found

    def _lost_without(self, fpr: str, carried: list[Binding], full: set[Binding],
                      some: set[Binding]) -> tuple[int, int]:
        """How many bindings of others aren't full without a key, and how many have no path. An answer whose paths don't
        have the key stays the same without it, so that only the others are asked about. Without the only root, no path
        begins."""
        if set(self._roots) == {fpr}:
            return sum(one[0] != fpr for one in full), sum(one[0] != fpr for one in some)
        octets = self._engine.export(fpr)
        self._engine.drop(fpr)
        try:
            left_full, left = self._still_reached(carried)
        finally:
            self._engine.import_certificates(octets)
        return (sum(one in full and one not in left_full for one in carried), sum(one not in left for one in carried))

    def _still_reached(self, carried: list[Binding]) -> tuple[set[Binding], set[Binding]]:
        """Which of these bindings are full, and which have a path, as the keyring is now."""
        if len(carried) > MOST_ASKED:
            return self._reached(FULL), self._reached(ANY)
        amounts = self._amounts(carried)
        return ({one for one, amount in amounts.items() if amount >= FULL},
                {one for one, amount in amounts.items() if amount >= ANY})


def _table_of_counts(counts: Counts, full: set[Binding], partial: set[Binding],
                     some: set[Binding]) -> overview_tables.Table:
    rows = [("full", f"{FULL} or more", len(full)), ("partial", f"{PARTIAL} to {FULL - 1}", len(partial - full)),
            ("less", f"1 to {PARTIAL - 1}", len(some - partial - full)),
            ("none", "0", counts.bindings - len(some | partial | full))]
    return overview_tables.table("bindings", "Bindings by their amounts",
                                 "How far the user IDs of all keys are authenticated, from these roots and at this "
                                 "time.", ("reach", "amount", "bindings"), rows)


def _table_of_introducers(rows: list[tuple[str, str, int, int, int, str]]) -> overview_tables.Table:
    rows.sort(key=lambda row: (-row[3], -row[4], -row[2]))
    return overview_tables.table("introducers", "Introducers, by what depends on them",
                                 "How many bindings of others have the key on a path, wouldn't reach full amount "
                                 "without it, and wouldn't be reached at all.",
                                 ("user ID", "as", "on a path of", "no longer full", "no path left", "key"), rows)


def main(words: list[str]) -> int:
    asked = json.loads(sys.stdin.read())
    return saying(lambda: _survey(words[0], asked["time"], asked["roots"]))


def saying(work: Callable[[], None]) -> int:
    """Does what takes long, and says it if it fails; with `lost`, if the service has ended meanwhile."""
    os.nice(5)
    try:
        work()
    except BrokenPipeError:
        os.dup2(os.open(os.devnull, os.O_WRONLY), 1)  # The page has ended, so nobody wants the answer.
    except TukyamidError as error:
        say(error=str(error), lost=isinstance(error, ServiceEnded | ServiceMissing))
    return 0


def _survey(socket: str, time: int, roots: dict[str, int]) -> None:
    with Engine() as engine, FactsProcess(time) as facts:
        say(progress="copying the keyring")
        with connect(socket) as client:
            is_whole = engine.restore(cast(BinaryIO, Copied(client.dump(), facts)))
        if not is_whole:
            raise ServiceEnded("the keyring couldn't be copied")
        Overview(engine, facts, time, roots).gather()


if __name__ == "__main__":
    sys.exit(main(sys.argv[1:]))
