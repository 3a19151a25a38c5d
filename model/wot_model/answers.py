"""Paths and answers. Two searches for the next path: one lists all valid paths, one goes by layers."""

from collections import Counter
from dataclasses import dataclass

MOST_EDGES = 255


@dataclass(frozen=True)
class Path:
    amount: int
    edges: tuple

    @property
    def root(self):
        return self.edges[0].issuer

    def rank(self):
        """The next path is the one of the least rank: fewest edges, greatest amount, least list."""
        return len(self.edges), -self.amount, [edge.triple() for edge in self.edges]


class Used:
    """What earlier paths used of each root and of each pair of issuer and target."""

    def __init__(self):
        self.of_root = Counter()
        self.of_pair = Counter()

    def add(self, path):
        self.of_root[path.root] += path.amount
        for pair in {edge.pair() for edge in path.edges}:
            self.of_pair[pair] += path.amount

    def left_of_root(self, roots, fingerprint):
        return max(0, roots.get(fingerprint, 0) - self.of_root[fingerprint])

    def left_of(self, edge):
        return max(0, edge.amount - self.of_pair[edge.pair()])


class Question:
    """A question about a network, from roots with amounts."""

    def __init__(self, network, roots, target, user_id):
        self.network = network
        self.roots = roots
        self.target = target
        self.user_id = user_id

    def may_end(self):
        """The edges that may end a path."""
        if not self.network.is_target(self.target, self.user_id):
            return []
        return [edge for edge in self.network.usable_edges(self.target) if edge.user_id == self.user_id]

    def may_precede(self, issuer, behind):
        """The edges to this issuer that may have this many edges after them."""
        return [
            edge
            for edge in self.network.usable_edges(issuer)
            if edge.issuer != self.target and edge.depth >= behind and edge.is_scope(self.user_id)
        ]


def next_path_by_listing(question, used):
    """The next path, as it is defined: the least of all valid paths of positive amount. For small networks."""
    lists = [(edge,) for edge in question.may_end()]
    for length in range(1, MOST_EDGES + 1):
        found = [path for path in (path_of(question, used, edges) for edges in lists) if path.amount > 0]
        if found:
            return min(found, key=Path.rank)
        lists = [(edge, *edges) for edges in lists for edge in may_lengthen(question, edges, length)]
    return None


def may_lengthen(question, edges, length):
    """The edges that may come before a list of edges in which no issuer occurs twice."""
    issuers = {edge.issuer for edge in edges}
    return [edge for edge in question.may_precede(edges[0].issuer, length) if edge.issuer not in issuers]


def path_of(question, used, edges):
    left = [used.left_of(edge) for edge in edges]
    return Path(min(used.left_of_root(question.roots, edges[0].issuer), *left), edges)


def next_path_by_layers(question, used):
    """The same path. Layer n has, for each issuer that is first met there, the greatest amount that n edges can carry
    from it to the target. A path of fewest edges meets each of its issuers in its first layer, since otherwise a
    shorter one would do."""
    layers = []
    met = set()
    edges = question.may_end()
    while edges and len(layers) < MOST_EDGES:
        layers.append(layer_of(question, used, layers, [edge for edge in edges if edge.issuer not in met]))
        met |= set(layers[-1])
        amounts = [min(used.left_of_root(question.roots, issuer), width) for issuer, (width, _) in layers[-1].items()]
        if max(amounts, default=0) > 0:
            return least_path(question, used, layers, max(amounts))
        edges = [edge for issuer in layers[-1] for edge in question.may_precede(issuer, len(layers))]
    return None


def layer_of(question, used, layers, edges):
    """For each issuer of these edges: the greatest amount, and its edges into the layer before."""
    layer = {}
    for edge in edges:
        rest = layers[-1][edge.target][0] if layers else edge.amount
        amount = min(used.left_of(edge), rest)
        if amount > 0:
            width, firsts = layer.get(edge.issuer, (0, []))
            layer[edge.issuer] = max(width, amount), firsts + [edge]
    return layer


def least_path(question, used, layers, amount):
    """The least list of edges that carries this amount from a root through all layers."""
    fits = [
        issuer
        for issuer, (width, _) in layers[-1].items()
        if width >= amount and used.left_of_root(question.roots, issuer) >= amount
    ]
    at = min(fits)
    edges = []
    for place in range(len(layers) - 1, -1, -1):
        rest = layers[place - 1] if place else None
        fitting = [
            edge
            for edge in layers[place][at][1]
            if used.left_of(edge) >= amount and (rest is None or rest[edge.target][0] >= amount)
        ]
        edges.append(min(fitting, key=lambda edge: edge.triple()))
        at = edges[-1].target
    return Path(amount, tuple(edges))


def answer(question, wanted, next_path):
    """The paths of an answer: next paths until their sum reaches the wanted amount, or none is left."""
    used = Used()
    paths = []
    while sum(path.amount for path in paths) < wanted:
        path = next_path(question, used)
        if path is None:
            break
        used.add(path)
        paths.append(path)
    return paths
