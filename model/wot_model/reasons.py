"""Why a key is or isn't a valid target for a user ID, and why a certification is or isn't a usable edge."""

from .certificates import USER_ID
from .edges import edge_of
from .signatures import read_signature
from .standing import BAD, Counting, is_unrevoked, newest, valid_certifications


def first_of(reasons, otherwise):
    """The first word that applies."""
    return next((word for word, applies in reasons if applies), otherwise)


def target_word(network, certificate, user_id):
    standing, time = network.standing(certificate.fingerprint), network.time
    return first_of([
        ("standing", not standing.has),
        ("young", standing.created > time),
        ("ended", standing.end is not None and standing.end <= time),
        ("hard", standing.compromised),
        ("soft", standing.retired is not None),
        ("uid", network.is_user_id_revoked(certificate, user_id)),
    ], "ok")


def certifications(certificate, user_id):
    """The bodies of the parseable certifications of a user ID, in order."""
    facts = ((body, read_signature(body)) for body in sorted(certificate.user_ids[user_id]))
    return [body for body, said in facts if said is not None and said.is_certification()]


class Certification:
    """A certification of a user ID, at the time of a network."""

    def __init__(self, network, certificate, user_id, body):
        self.network = network
        self.certificate = certificate
        self.user_id = user_id
        self.body = body
        self.facts = read_signature(body)
        self.number = certificate.number(USER_ID, user_id, body)
        self.verdict = network.verdicts.get(self.number)

    def reason(self):
        """Its word, and its edge if the word is `edge`."""
        word = self.of_itself() or self.of_its_time() or self.of_its_issuer()
        if word:
            return word, None
        return "edge", edge_of(self.certificate.fingerprint, self.user_id, self.signature())

    def signature(self):
        return Counting(self.verdict, self.number, self.body, self.facts)

    def of_itself(self):
        return first_of([
            ("unsound", not self.facts.sound),
            ("unjudged", self.verdict is None),
            ("bad", self.verdict == BAD),
            ("foreign", self.facts.issuer not in (None, self.verdict)),
            ("policy", not self.facts.is_admitted()),
        ], None)

    def of_its_time(self):
        time, signature = self.network.time, self.signature()
        beside = self.network.on_user_id(self.certificate, self.user_id)
        others = [each for each in valid_certifications(beside, time) if each.issuer == self.verdict]
        return first_of([
            ("early", self.facts.made > time),
            ("expired", not self.facts.is_live(time)),
            ("revoked", not is_unrevoked(signature, beside, time)),
            ("older", newest(others) != signature),
        ], None)

    def of_its_issuer(self):
        issuer, made = self.network.standing(self.verdict), self.facts.made
        if issuer is None:
            return "issuer-absent"
        return first_of([
            ("issuer-standing", not issuer.has),
            ("issuer-young", issuer.created > made),
            ("issuer-ended", issuer.end is not None and issuer.end <= made),
            ("issuer-hard", issuer.compromised),
            ("issuer-soft", issuer.retired is not None and issuer.retired <= made),
        ], None)
