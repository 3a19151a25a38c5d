"""Proofs of absence: tables of labels after the paths of an answer, and the check of such a proof."""

from .answers import MOST_EDGES, Path, Used

GREATEST_LABEL = 255


def used_by(paths):
    used = Used()
    for path in paths:
        used.add(path)
    return used


def least_table(question, paths):
    """The least table after these paths: for each issuer, with how few edges it may lead to the target, by depth, scope
    and what is left of the edges."""
    used = used_by(paths)
    table = {}
    edges = question.may_end()
    for label in range(1, GREATEST_LABEL + 1):
        issuers = {edge.issuer for edge in edges if used.left_of(edge) > 0} - table.keys()
        table.update(dict.fromkeys(issuers, label))
        edges = [edge for issuer in issuers for edge in question.may_precede(issuer, label)]
    return table


def shows_absence(question, paths, table):
    """Whether a table shows that no path is left after these."""
    used = used_by(paths)
    if not question.network.is_target(question.target, question.user_id):
        return True
    last = all(table.get(edge.issuer) == 1 for edge in question.may_end() if used.left_of(edge) > 0)
    others = all(
        table.get(edge.issuer, GREATEST_LABEL + 1) <= label + 1
        for fingerprint, label in table.items()
        if label < GREATEST_LABEL
        for edge in question.may_precede(fingerprint, label)
        if used.left_of(edge) > 0
    )
    roots = all(used.left_of_root(question.roots, fingerprint) == 0 for fingerprint in table)
    return last and others and roots


def claim_of(network, path):
    """A path as a line spells it: its amount, and for each edge the issuer and the place of its user ID."""
    return path.amount, [(edge.issuer, place_of(network, edge)) for edge in path.edges]


def place_of(network, edge):
    return sorted(network.certificates[edge.target].user_ids).index(edge.user_id)


def claimed_paths(question, claims):
    """The paths that these spell, each after those before it; None if one of them isn't a path."""
    paths = []
    for amount, steps in claims:
        path = claimed_path(question, used_by(paths), amount, steps)
        if path is None:
            return None
        paths.append(path)
    return paths


def claimed_path(question, used, amount, steps):
    edges = claimed_edges(question, steps)
    if edges is None or not is_valid(question, edges):
        return None
    left = min(used.left_of_root(question.roots, edges[0].issuer), *map(used.left_of, edges))
    return Path(amount, edges) if 0 < left == amount else None


def claimed_edges(question, steps):
    """The usable edges that the steps name; None if one names no edge."""
    targets = [issuer for issuer, _ in steps[1:]] + [question.target]
    edges = []
    for (issuer, place), target in zip(steps, targets):
        network = question.network
        named = [
            edge
            for edge in network.usable_edges(target)
            if edge.issuer == issuer and place_of(network, edge) == place
        ]
        if not named:
            return None
        edges.extend(named)
    return tuple(edges)


def is_valid(question, edges):
    """Whether usable edges, each to the issuer of the next, are a valid path."""
    issuers = [edge.issuer for edge in edges]
    return (
        1 <= len(edges) <= MOST_EDGES
        and edges[-1] in question.may_end()
        and all(edge in question.may_precede(edge.target, len(edges) - k) for k, edge in enumerate(edges[:-1], 1))
        and len(set(issuers)) == len(issuers)
        and question.roots.get(issuers[0], 0) > 0
    )
