"""A network as it is drawn: the roots, whom they vouch for, and so on. A few dozen keys are each drawn; of more, those
that vouch for others are, and the rest is in groups with counts, which are opened one by one."""

from __future__ import annotations

from collections import Counter, defaultdict
from collections.abc import Collection, Iterator
from typing import Any

from ..openpgp.addresses import address_of
from .network import FULL, Network

MOST_SHOWN = 40
MOST_OF_ONE = 12
PIECE = 40
MOST_DOMAINS = 24
Node = dict[str, Any]


class Tree:
    """Each key below the one through which it is nearest to a root."""

    def __init__(self, network: Network) -> None:
        self.network = network
        self.roots = list(network.standpoint.roots)
        self.parent: dict[str, str] = {}
        self.children: defaultdict[str, list[str]] = defaultdict(list)
        self.size: Counter[str] = Counter()
        self.links = network.links.copy()  # More of them may come meanwhile.
        order = self._breadth_first(self.links)
        for fpr in reversed(order):
            self.size[fpr] += 1
            if fpr in self.parent:
                self.size[self.parent[fpr]] += self.size[fpr]
        for own in self.children.values():
            own.sort(key=self._rank)

    def _breadth_first(self, links: dict[tuple[str, str], Any]) -> list[str]:
        into: defaultdict[str, list[tuple[int, str]]] = defaultdict(list)
        for (issuer, target), link in links.items():
            into[issuer].append((-link.amount, target))
        order, row = list(self.roots), list(self.roots)
        seen = set(order)
        while row:
            nearest = sorted((amount, fpr, target) for fpr in row for amount, target in into[fpr] if target not in seen)
            row = []
            for _, fpr, target in nearest:
                if target not in seen:
                    seen.add(target)
                    self.parent[target] = fpr
                    self.children[fpr].append(target)
                    row.append(target)
            order += row
        return order

    def _rank(self, fpr: str) -> tuple[int, int, bytes]:
        reached = self.network.keys.get(fpr)
        return -self.size[fpr], 0 if reached is None else -reached.amount, b"" if reached is None else reached.user_id

    def below(self, fprs: Collection[str]) -> Iterator[str]:
        """These keys, and all that are below them."""
        left = list(fprs)
        while left:
            fpr = left.pop()
            yield fpr
            left += self.children[fpr]


class Picture:
    """What is drawn of a tree. `opened` names the groups that are open."""

    def __init__(self, tree: Tree, opened: Collection[str]) -> None:
        self._tree, self._network, self._opened = tree, tree.network, frozenset(opened)
        self._nodes: list[Node] = []
        self._is_small = len(self._tree.parent) + len(self._tree.roots) <= MOST_SHOWN

    def drawn(self) -> dict[str, Any]:
        row = self._tree.roots[:PIECE]
        for fpr in row:
            self._nodes.append(self._key(fpr, None, 0))
        layer = 0
        while row:
            layer += 1
            row = [child for fpr in row for child in self._children(fpr, layer)]
        shown = {node["id"]: node for node in self._nodes if node["sort"] == "key"}
        links = [{"from": issuer, "to": target, "amount": link.amount, "depth": link.depth,
                  "tree": self._tree.parent.get(target) == issuer}
                 for (issuer, target), link in self._tree.links.items() if issuer in shown and target in shown]
        return {"nodes": self._nodes, "links": links}

    def _key(self, fpr: str, parent: str | None, layer: int) -> Node:
        reached = self._network.keys.get(fpr)
        node = {"id": fpr, "sort": "key", "parent": parent, "layer": layer, "name": self._network.name(fpr),
                "amount": 0 if reached is None else reached.amount, "root": self._network.standpoint.roots.get(fpr),
                "through": self._tree.size[fpr] - 1}
        return node

    def _children(self, fpr: str, layer: int) -> list[str]:
        """Adds those below a key that are shown, and a group for the rest. Returns the keys."""
        own = self._tree.children[fpr]
        shown = own[:self._room(fpr, own, layer)]
        self._nodes += [self._key(one, fpr, layer) for one in shown]
        rest = own[len(shown):]
        if rest:
            shown = shown + self._group(fpr, rest, layer)
        return shown

    def _room(self, fpr: str, own: list[str], layer: int) -> int:
        """How many of a key's own are shown one by one: all if there are few, else those that vouch for others. Below a
        root there are some others too, so that a picture has more than one group."""
        if self._is_small:
            return len(own)
        left = max(0, MOST_SHOWN - len(self._nodes))
        if len(own) <= min(left, MOST_OF_ONE):
            return len(own)
        introducers = sum(bool(self._tree.children[one]) for one in own)
        if fpr in self._opened:
            return min(introducers, PIECE)
        return min(MOST_OF_ONE, left) if layer == 1 else min(introducers, MOST_OF_ONE, left)

    def _group(self, fpr: str, rest: list[str], layer: int) -> list[str]:
        """A group for keys below another; if it is open, the keys themselves, or groups by their domains."""
        is_open = fpr in self._opened
        self._nodes.append(self._of_group(fpr, fpr, rest, layer, is_open, None))
        if not is_open:
            return []
        if len(rest) <= PIECE:
            return self._pieces(fpr, fpr, rest, layer + 1)
        shown: list[str] = []
        by_domain: defaultdict[str, list[str]] = defaultdict(list)
        for one in rest:
            by_domain[self._domain(one)].append(one)
        domains = sorted(by_domain, key=lambda domain: (-len(by_domain[domain]), domain))
        few = [one for domain in domains[MOST_DOMAINS:] for one in by_domain[domain]]
        for domain in domains[:MOST_DOMAINS]:
            shown += self._domain_group(f"{fpr}@{domain}", fpr, by_domain[domain], layer + 1, domain)
        return shown + (self._domain_group(f"{fpr}@", fpr, few, layer + 1, "other domains") if few else [])

    def _domain_group(self, name: str, fpr: str, keys: list[str], layer: int, label: str) -> list[str]:
        is_open = name in self._opened
        self._nodes.append(self._of_group(name, f"group {fpr}", keys, layer, is_open, label))
        return self._pieces(name, name, keys, layer + 1) if is_open else []

    def _pieces(self, name: str, group: str, keys: list[str], layer: int) -> list[str]:
        """As many of a group's keys as were asked for, and a node that shows more of them."""
        most = PIECE
        while f"{name}+{most}" in self._opened:
            most += PIECE
        self._nodes += [self._key(one, f"group {group}", layer) for one in keys[:most]]
        if len(keys) > most:
            self._nodes.append(self._of_group(f"{name}+{most}", f"group {group}", keys[most:], layer, False, "more"))
        return keys[:most]

    def _of_group(self, name: str, parent: str, keys: list[str], layer: int, is_open: bool,
                  label: str | None) -> Node:
        everyone = list(self._tree.below(keys))
        amounts = [self._network.keys[one].amount for one in everyone if one in self._network.keys]
        return {"id": f"group {name}", "sort": "group", "opens": name, "open": is_open, "parent": parent,
                "layer": layer, "count": len(everyone), "full": sum(amount >= FULL for amount in amounts),
                "label": label}

    def _domain(self, fpr: str) -> str:
        reached = self._network.keys.get(fpr)
        address = None if reached is None else address_of(reached.user_id)
        return address.rpartition("@")[2] if address else "no address"
