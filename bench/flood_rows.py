"""The floods that `bench/floods` tries: each takes a size, and says what every step took."""

import random
from collections.abc import Callable, Iterable, Iterator

from developer import number, packet
from flooding import Flood, Seen, ask, keys, view
from small import MADE, Certificate, all_good, good, signature

FULL = bytes([3, 5, 255, 120])
Row = Callable[[int], Seen]


def faked(draw: random.Random, certificate: Certificate, size: int, issuers: int) -> Iterator[bytes]:
    """Signatures of 68 octets on a user ID, made by nobody."""
    for turn in range(size):
        issuer = draw.randbytes(20) if issuers > 1 else certificate.fpr
        body = signature(0x10, MADE + turn % 1000, issuer) + draw.randbytes(25)
        yield packet(2, body)


def head(certificate: Certificate) -> bytes:
    return packet(6, certificate.key) + packet(13, certificate.user_id)


def imported(octets: bytes) -> bytes:
    return b"import " + octets.hex().encode() + b"\n"


def at_once(size: int, issuers: int) -> Seen:
    draw, flood = random.Random(size), Flood()
    target, root = keys(draw, 2)
    line = imported(head(target) + b"".join(faked(draw, target, size, issuers)))
    read = flood.tell([line, root.line(), good(root.direct), *view([root])])
    asked = flood.tell([ask(target)])
    again = flood.tell([line])
    return {"read": read, "asked": asked, "read again": again}, flood.end()


def one_by_one(size: int, issuers: int) -> Seen:
    draw, flood = random.Random(size), Flood()
    target, root = keys(draw, 2)
    read = flood.tell(imported(head(target) + each) for each in faked(draw, target, size, issuers))
    asked = flood.tell([root.line(), good(root.direct), *view([root]), ask(target)])
    return {"read": read, "asked": asked}, flood.end()


def many_issuers(size: int, behind: bool = False) -> Seen:
    """64 roots are issuers themselves, or each stands behind an equal part of the issuers."""
    draw, flood = random.Random(size), Flood()
    (stranger, *roots), (target, *issuers) = keys(draw, 65), keys(draw, size)
    for index, issuer in enumerate(issuers):
        target.certify(MADE + 1, issuer.fpr, FULL)
        if behind:
            issuer.certify(MADE + 1, roots[index % 64].fpr, FULL)
    certificates = [stranger, *roots, target, *issuers]
    flood.tell(each.line() for each in certificates)
    flood.tell(all_good(certificates))
    roots = roots if behind else issuers[:64]
    flood.tell(view(roots, 1))
    first = flood.tell([ask(target, 64)])
    more = flood.tell([b"view v root %s 0\n" % roots[0].fpr.hex().encode(), ask(target, 63)])
    none = flood.tell([b"view v close\n", *view([stranger], 1), ask(target, 1)])
    return {"the first question": first, "one after a change": more, "a new view, no path": none}, flood.end()


def linked(
    size: int, edges: Iterable[tuple[int, int]], depths: bytes = FULL
) -> tuple[list[Certificate], Flood]:
    """Certificates of which some certify others, by (issuer, target)."""
    draw, flood = random.Random(size), Flood()
    certificates = keys(draw, size)
    for issuer, target in edges:
        certificates[target].certify(MADE + 1, certificates[issuer].fpr, depths)
    flood.tell(each.line() for each in certificates)
    flood.tell(all_good(certificates))
    flood.tell(view(certificates[:1]))
    return certificates, flood


def questions(certificates: list[Certificate], flood: Flood, targets: list[int]) -> Seen:
    first, *others = (flood.tell([ask(certificates[target])]) for target in targets)
    return {"the first question": first, "another": sum(others) / max(len(others), 1)}, flood.end()


def cycle(size: int) -> Seen:
    certificates, flood = linked(size, ((index, (index + 1) % size) for index in range(size)))
    return questions(certificates, flood, [1, min(200, size - 1), size // 2, size - 1])


def clique(size: int) -> Seen:
    certificates, flood = linked(size, ((a, b) for a in range(size) for b in range(size) if a != b))
    return questions(certificates, flood, [1, 2, size // 2, size - 1])


def chain(size: int) -> Seen:
    certificates, flood = linked(size + 1, ((index, index + 1) for index in range(size)))
    return questions(certificates, flood, [size, size - 1])


def numbers_of_nothing(size: int) -> Seen:
    draw, flood = random.Random(size), Flood()
    root = keys(draw, 1)[0]
    issuer = root.fpr.hex().encode()
    read = flood.tell(b"verdict %s good %s\n" % (draw.randbytes(32).hex().encode(), issuer) for _ in range(size))
    asked = flood.tell([root.line(), good(root.direct), *view([root]), ask(root)])
    return {"read": read, "asked": asked}, flood.end()


def layers(size: int) -> Seen:
    """Layers of two, each of which certifies both of the next: twice as many paths with each layer."""
    edges = [(0, 1), (0, 2)]
    for first in range(1, 2 * size - 1, 2):
        edges += [(first + a, first + 2 + b) for a in (0, 1) for b in (0, 1)]
    edges += [(2 * size - 1, 2 * size + 1), (2 * size, 2 * size + 1)]
    certificates, flood = linked(2 * size + 2, edges)
    return questions(certificates, flood, [2 * size + 1, 2 * size - 1])


def expressions(size: int) -> Seen:
    """A chain of ten certifications, each with a tenth of the regular expressions; none matches a user ID."""
    each = b"".join(bytes([5, 6]) + b"x%03d" % (turn % 1000) for turn in range(size // 10))
    certificates, flood = linked(11, ((index, index + 1) for index in range(10)), FULL + each)
    return questions(certificates, flood, [10, 9, 8, 10])


def long_user_id(size: int) -> Seen:
    draw, flood = random.Random(size), Flood()
    root, target = keys(draw, 2)
    target.user_id = b"u" * size
    target.certify(MADE + 1, root.fpr, FULL)
    read = flood.tell([root.line(), target.line(), *all_good([root, target]), *view([root])])
    return {"read": read, "asked": flood.tell([ask(target)]), "asked again": flood.tell([ask(target)])}, flood.end()


def many_readings(size: int) -> Seen:
    """Expressions that match a long user ID of `a` in very many ways, or fail to; the second one matches."""
    draw, flood = random.Random(size), Flood()
    root, introducer, target = keys(draw, 3)
    target.user_id = b"a" * size
    scopes = b"".join(bytes([len(each) + 1, 6]) + each for each in (b"(a|aa|aaa)*b", b"^(a*)*$"))
    introducer.certify(MADE + 1, root.fpr, FULL + scopes)
    target.certify(MADE + 1, introducer.fpr, FULL)
    certificates = [root, introducer, target]
    flood.tell([*(each.line() for each in certificates), *all_good(certificates), *view([root])])
    return {"asked": flood.tell([ask(target)])}, flood.end()


def subpackets(size: int) -> Seen:
    """Sixty signatures whose hashed areas are full of the shortest subpackets: the most that fit a certificate."""
    draw, flood = random.Random(size), Flood()
    target, root = keys(draw, 2)
    octets = head(target)
    for _ in range(60):
        octets += packet(2, signature(0x10, MADE, root.fpr, b"\x01\x65" * (size // 2 - 20)) + draw.randbytes(25))
    read = flood.tell([imported(octets), root.line(), good(root.direct), *view([root])])
    return {"read": read, "asked": flood.tell([ask(target)])}, flood.end()


def lines_at_limits(draw: random.Random, size: int, made: list[Certificate]) -> Iterator[bytes]:
    """Certificates of 16 signatures, 256 octets each, and two verdicts for each signature."""
    for index in range(size):
        certificate = Certificate(draw, index)
        made.append(certificate)
        issuers = [made[draw.randrange(index + 1)].fpr for _ in range(14)]
        verdicts = [certificate.direct]
        octets = packet(6, certificate.key) + certificate.direct[0] + packet(13, certificate.user_id)
        for issuer in [*issuers, certificate.fpr]:
            trust = bytes([3, 5, draw.randrange(4), draw.randrange(60, 121)])
            body = signature(0x10, MADE + 1, issuer, trust) + draw.randbytes(205)
            octets += packet(2, body)
            verdicts.append((b"", number(certificate.key, 1, certificate.user_id, body), issuer))
        yield imported(octets)
        yield from map(good, verdicts)
        for _ in range(16):
            yield b"verdict %s bad\n" % draw.randbytes(32).hex().encode()


def at_limits(size: int) -> Seen:
    """All limits at once, and sixteen views."""
    draw, flood = random.Random(size), Flood()
    made: list[Certificate] = []
    read = flood.tell(lines_at_limits(draw, size, made))
    asked = 0.0
    for turn in range(16):
        name = b"v%d" % turn
        flood.tell(line.replace(b"view v", b"view " + name) for line in view(made[turn : turn + 1]))
        asked += flood.tell([ask(made[size // 2 + turn]).replace(b"ask v", b"ask " + name)])
    dumped, dump = flood.tell_whole(b"dump\n")
    held, other = flood.end(), Flood()
    again = other.tell(dump)
    other.end()
    return {"read": read, "16 views asked": asked, "dumped": dumped, "read again": again}, held


ROWS: dict[str, tuple[Row, list[int]]] = {
    "one certificate, faked signatures by one issuer": (lambda size: at_once(size, 1), [30000, 60000]),
    "one certificate, faked signatures by as many issuers": (lambda size: at_once(size, size), [30000, 60000]),
    "faked signatures by one issuer, one a line": (lambda size: one_by_one(size, 1), [20000, 60000]),
    "faked signatures by as many issuers, one a line": (lambda size: one_by_one(size, size), [20000, 60000]),
    "issuers of one user ID, 64 of them roots of amount 1": (many_issuers, [16384, 65000]),
    "issuers of one user ID, 64 roots before them": (lambda size: many_issuers(size, behind=True), [16384, 65000]),
    "a cycle": (cycle, [16384, 65536]),
    "a clique": (clique, [250, 500]),
    "a chain": (chain, [255, 256]),
    "verdicts on unknown signatures": (numbers_of_nothing, [262144, 1048576]),
    "layers of two": (layers, [30, 120]),
    "regular expressions on one chain": (expressions, [25000, 100000]),
    "expressions with many matches": (many_readings, [20000, 200000]),
    "subpackets of sixty signatures": (subpackets, [16384, 65536]),
    "octets of a user ID": (long_user_id, [1000000, 4000000]),
    "certificates at all limits": (at_limits, [16384, 65536]),
}
