"""When a signature counts, and what a key's own signatures say about it at a time."""

from dataclasses import dataclass

from .certificates import USER_ID
from .signatures import CERTIFICATION_REVOCATION, DIRECT_KEY, KEY_REVOCATION, read_signature

# The verdict that no key made a signature. Any other verdict is the fingerprint of the key that made it.
BAD = "bad"


@dataclass(frozen=True)
class Counting:
    """A signature that counts, with its issuer."""

    issuer: bytes
    number: bytes
    body: bytes
    facts: object

    def newness(self):
        return self.facts.made, self.number, self.body


@dataclass(frozen=True)
class Standing:
    """What a key is at a time. `end` is None if it has no end, `retired` if no soft revocation holds."""

    has: bool
    created: int
    end: int | None
    compromised: bool
    retired: int | None

    def may_issue(self, made):
        """Whether a certification by this key that was created then is usable."""
        before_end = self.end is None or made < self.end
        before_retired = self.retired is None or made < self.retired
        return self.has and self.created <= made and before_end and not self.compromised and before_retired

    def may_be_target(self, time):
        before_end = self.end is None or time < self.end
        return self.has and self.created <= time and before_end and not self.compromised and self.retired is None


def counting(certificate, verdicts, kind, component, signatures):
    """The signatures at a place that count, each with the issuer by which it does."""
    found = []
    for body in signatures:
        number = certificate.number(kind, component, body)
        issuer = verdicts.get(number)
        facts = read_signature(body)
        judged = issuer not in (None, BAD) and facts is not None and facts.sound and facts.is_admitted()
        if judged and facts.issuer in (None, issuer):
            found.append(Counting(issuer, number, body, facts))
    return found


def is_unrevoked(signature, beside, time):
    """Whether no live revocation of that issuer takes it back, among those that count at the same place."""
    if not signature.facts.revocable:
        return True
    return not any(
        other.facts.kind == CERTIFICATION_REVOCATION
        and other.issuer == signature.issuer
        and other.facts.is_live(time)
        and other.facts.made >= signature.facts.made
        for other in beside
    )


def valid(beside, time, is_wanted):
    """Those of the wanted signatures that are live and unrevoked."""
    wanted = (signature for signature in beside if is_wanted(signature.facts))
    return [each for each in wanted if each.facts.is_live(time) and is_unrevoked(each, beside, time)]


def valid_certifications(beside, time):
    return valid(beside, time, lambda facts: facts.is_certification())


def newest(signatures):
    return max(signatures, key=Counting.newness, default=None)


def own(certificate, signatures):
    return [signature for signature in signatures if signature.issuer == certificate.fingerprint]


class View:
    """Certificates and verdicts at one time. It finds each thing once, and each question makes its own."""

    def __init__(self, certificates, verdicts, time):
        self.certificates = certificates
        self.verdicts = verdicts
        self.time = time
        self.standings = {}
        self.places = {}

    def at(self, certificate, kind, component, signatures):
        """The signatures that count at a place."""
        place = certificate.fingerprint, kind, component
        if place not in self.places:
            self.places[place] = counting(certificate, self.verdicts, kind, component, signatures)
        return self.places[place]

    def on_user_id(self, certificate, user_id):
        return self.at(certificate, USER_ID, user_id, certificate.user_ids[user_id])

    def standing(self, fingerprint):
        """The standing of a key; None where its certificate isn't in the keyring."""
        if fingerprint not in self.certificates:
            return None
        if fingerprint not in self.standings:
            self.standings[fingerprint] = self.find_standing(self.certificates[fingerprint])
        return self.standings[fingerprint]

    def find_standing(self, certificate):
        on_key = own(certificate, self.at(certificate, None, b"", certificate.direct))
        governing = newest(valid(on_key, self.time, lambda facts: facts.kind == DIRECT_KEY))
        governing = governing or self.governing_certification(certificate)
        lasts = governing.facts.key_lasts if governing else 0
        revocations = [each.facts for each in on_key if each.facts.kind == KEY_REVOCATION]
        soft = [facts.made for facts in revocations if not facts.is_hard() and facts.is_live(self.time)]
        return Standing(
            has=governing is not None,
            created=certificate.created,
            end=certificate.created + lasts if lasts else None,
            compromised=any(facts.is_hard() for facts in revocations),
            retired=min(soft, default=None),
        )

    def governing_certification(self, certificate):
        """The newest self-certification of each user ID, and of these the greatest by primary mark and newness."""
        found = []
        for user_id in certificate.user_ids:
            on_it = own(certificate, self.on_user_id(certificate, user_id))
            found.append(newest(valid_certifications(on_it, self.time)))
        present = [signature for signature in found if signature]
        return max(present, key=lambda each: (each.facts.primary, each.newness()), default=None)

    def is_user_id_revoked(self, certificate, user_id):
        """Whether the key itself took its user ID back."""
        on_it = own(certificate, self.on_user_id(certificate, user_id))
        kinds = [each.facts.kind for each in on_it if each.facts.is_live(self.time)]
        return CERTIFICATION_REVOCATION in kinds and not valid_certifications(on_it, self.time)
