"""The edges to a certificate at a time, which of them are usable, and which targets are valid."""

from dataclasses import dataclass

from .patterns import is_in_scope
from .standing import View, newest, valid_certifications

SELF_DEPTH, SELF_AMOUNT = 0, 120


@dataclass(frozen=True)
class Edge:
    issuer: bytes
    target: bytes
    user_id: bytes
    made: int
    depth: int
    amount: int
    patterns: tuple

    def triple(self):
        return self.issuer, self.target, self.user_id

    def pair(self):
        return self.issuer, self.target

    def is_scope(self, user_id):
        return is_in_scope(self.patterns, user_id)


class Network(View):
    """The certification network of certificates and verdicts at one time."""

    def __init__(self, certificates, verdicts, time):
        super().__init__(certificates, verdicts, time)
        self.into = {}

    def usable_edges(self, target):
        """The usable edges to a key, in the order of issuer and user ID."""
        if target not in self.into:
            self.into[target] = sorted(self.find_edges(target), key=Edge.triple)
        return self.into[target]

    def find_edges(self, target):
        certificate = self.certificates.get(target)
        for user_id in certificate.user_ids if certificate else ():
            certifications = valid_certifications(self.on_user_id(certificate, user_id), self.time)
            for issuer in {each.issuer for each in certifications}:
                edge = edge_of(target, user_id, newest(each for each in certifications if each.issuer == issuer))
                if self.is_usable(edge):
                    yield edge

    def is_usable(self, edge):
        standing = self.standing(edge.issuer)
        return standing is not None and standing.may_issue(edge.made)

    def is_target(self, target, user_id):
        """Whether the key is a valid target for this user ID."""
        standing = self.standing(target)
        if standing is None or not standing.may_be_target(self.time):
            return False
        certificate = self.certificates[target]
        return user_id in certificate.user_ids and not self.is_user_id_revoked(certificate, user_id)


def edge_of(target, user_id, certification):
    facts = certification.facts
    if certification.issuer == target:
        return Edge(target, target, user_id, facts.made, SELF_DEPTH, SELF_AMOUNT, ())
    return Edge(certification.issuer, target, user_id, facts.made, facts.depth, facts.amount, facts.patterns)
