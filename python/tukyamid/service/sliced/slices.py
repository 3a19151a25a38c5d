"""The slices of a keyring: from a view's roots, whoever is reached by trust signatures.

A law of the engine (docs/PROOF.md, sentence 4) says that the answer about a certificate rests on a slice and that
certificate alone. A slice that has more members than needed is one all the same.
"""

from __future__ import annotations

from collections import OrderedDict
from collections.abc import Collection

from ..storage.partial_reads import Parts

Roots = tuple[bytes, ...]
_MOST_KEPT = 1024


class Slice:
    """The members, which may be more than `most`: then they are some of them, one too many."""
    __slots__ = ("roots", "members", "is_whole")

    def __init__(self, roots: Roots, members: set[bytes], most: int) -> None:
        self.roots = roots
        self.members = members
        self.is_whole = len(members) <= most


class Slices:
    """Slices that were asked for, kept up to date. One thread uses them at a time."""

    def __init__(self, most: int) -> None:
        self._most = most
        self._kept: OrderedDict[Roots, Slice] = OrderedDict()
        self._introducers: dict[bytes, frozenset[bytes]] = {}

    def kept(self, roots: Roots) -> Slice | None:
        """The slice of these roots, if it was asked for before."""
        return self._kept.get(roots)

    def of(self, roots: Roots, parts: Parts) -> Slice:
        found = self._kept.get(roots)
        if found is None:
            most = self._most + len(roots)  # Roots that aren't kept take no room in an engine.
            found = self._kept[roots] = Slice(roots, parts.slice_of(roots, most) | set(roots), most)
            if len(self._kept) > _MOST_KEPT:
                self._kept.popitem(last=False)
        self._kept.move_to_end(roots)
        return found

    def change(self, touched: Collection[bytes], parts: Parts) -> list[Roots]:
        """These certificates, or verdicts on their signatures, have changed: gives the roots whose slice has others
        now, or has one of them."""
        reached: list[Roots] = []
        if not self._kept:
            return reached
        introducers = {fpr: parts.introducers(fpr) for fpr in touched}
        for one in list(self._kept.values()):
            within = [fpr for fpr in touched if fpr in one.members]
            onward = [fpr for fpr, by in introducers.items()
                      if fpr not in one.members and not by.isdisjoint(one.members)]
            if within or onward:
                reached.append(one.roots)
            if any(self._introducers.get(fpr) != introducers[fpr] for fpr in within):
                del self._kept[one.roots]
            elif onward:
                self._extend(one, onward, parts)
        if len(self._introducers) > self._most:
            self._introducers.clear()
        self._introducers.update(introducers)
        return reached

    def _extend(self, one: Slice, onward: list[bytes], parts: Parts) -> None:
        most = self._most + len(one.roots)
        members = one.members | parts.slice_of(onward, most)
        self._kept[one.roots] = Slice(one.roots, members, most)
