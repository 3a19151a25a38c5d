"""Checks a claim of absence (docs/PROFILE.md, "Proofs of absence") by itself: no engine is asked, nothing is searched.

The network and the roots are handed in: a `Network`, and the roots' amounts by
fingerprint. Fingerprints are octets.
"""

from collections.abc import Iterable, Mapping, Sequence
from typing import Protocol

MOST_LABEL = 255

Steps = Sequence[tuple[bytes, int]]
Table = Mapping[bytes, int]


class Edge(Protocol):
    """A usable edge of the network."""
    issuer: bytes
    target: bytes
    place: int | None
    depth: int
    amount: int

    def in_scope(self, user_id: bytes, /) -> bool:
        """Whether the edge may lead to a path for this user ID."""


class Network(Protocol):
    """The network that a claim is checked over."""

    def edges(self, fpr: bytes, /) -> Sequence[Edge]:
        """The usable edges into a key."""

    def is_target(self, fpr: bytes, user_id: bytes, /) -> bool:
        """Whether the key is a valid target for the user ID."""

    def place(self, fpr: bytes, user_id: bytes, /) -> int | None:
        """The place of the user ID among the key's, or None."""


class Auditor:
    """One question, and the amounts that the claimed paths so far have used."""

    def __init__(self, network: Network, roots: Mapping[bytes, int], target: bytes, user_id: bytes) -> None:
        self._network = network
        self._roots = roots
        self._target = target
        self._user_id = user_id
        self._used_pairs: dict[tuple[bytes, bytes], int] = {}
        self._used_roots: dict[bytes, int] = {}

    def check(self, paths: Iterable[tuple[int, Steps]], table: Table) -> tuple[str, str | int]:
        """The words of the reply to `check`. `paths` are pairs of an amount and a list of (issuer, place), `table` is a
        dictionary of labels."""
        for amount, steps in paths:
            if not self._take(amount, steps):
                return "no", "paths"
        if not self._shows(table):
            return "no", "table"
        return "yes", sum(amount for amount, _ in paths)

    def _take(self, amount: int, steps: Steps) -> bool:
        """Whether a claimed path is a valid one of just this amount. It is used then."""
        edges = self._named(steps)
        if edges is None or not self._is_valid(edges):
            return False
        root = edges[0].issuer
        if amount < 1 or amount != min(self._left_of_root(root), *(self._left(edge) for edge in edges)):
            return False
        self._used_roots[root] = self._used_roots.get(root, 0) + amount
        for pair in {(edge.issuer, edge.target) for edge in edges}:
            self._used_pairs[pair] = self._used_pairs.get(pair, 0) + amount
        return True

    def _named(self, steps: Steps) -> list[Edge] | None:
        """The edges that steps name, or None."""
        edges = []
        for number, (issuer, place) in enumerate(steps, 1):
            into = steps[number][0] if number < len(steps) else self._target
            found = [edge for edge in self._network.edges(into) if (edge.issuer, edge.place) == (issuer, place)]
            if not found:
                return None
            edges.append(found[0])
        return edges

    def _is_valid(self, edges: list[Edge]) -> bool:
        """Whether edges, each into the issuer of the next, keep the rules of a path."""
        issuers = [edge.issuer for edge in edges]
        return (self._network.is_target(self._target, self._user_id)
                and edges[-1].place == self._network.place(self._target, self._user_id)
                and len(issuers) == len(set(issuers))
                and self._roots.get(issuers[0], 0) > 0
                and all(self._leads_on(edge, behind)
                        for behind, edge in enumerate(reversed(edges)) if behind))

    def _leads_on(self, edge: Edge, behind: int) -> bool:
        """Whether an edge may have this many edges after it."""
        return edge.depth >= behind and edge.issuer != self._target and edge.in_scope(self._user_id)

    def _shows(self, table: Table) -> bool:
        """Whether a table shows that nothing is left: the three points, or the key is no valid target."""
        if not self._network.is_target(self._target, self._user_id):
            return True
        return self._ends_are_labelled(table) and self._labels_close(table) and not any(map(self._left_of_root, table))

    def _ends_are_labelled(self, table: Table) -> bool:
        place = self._network.place(self._target, self._user_id)
        return all(table.get(edge.issuer) == 1 for edge in self._open_edges(self._target) if edge.place == place)

    def _labels_close(self, table: Table) -> bool:
        return all(table.get(edge.issuer, MOST_LABEL + 1) <= label + 1
                   for fpr, label in table.items() if label < MOST_LABEL
                   for edge in self._open_edges(fpr) if self._leads_on(edge, label))

    def _open_edges(self, fpr: bytes) -> list[Edge]:
        return [edge for edge in self._network.edges(fpr) if self._left(edge) > 0]

    def _left(self, edge: Edge) -> int:
        return max(0, edge.amount - self._used_pairs.get((edge.issuer, edge.target), 0))

    def _left_of_root(self, fpr: bytes) -> int:
        return max(0, self._roots.get(fpr, 0) - self._used_roots.get(fpr, 0))
