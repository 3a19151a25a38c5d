"""A case: people and what they say, a question, the answer by the rules, and the rule that decides it.

A person whom a case names has a certificate with its first user ID, certified by itself when the key was made, unless
the case says something else about that (`bare`, `absent`, or a self-certification of that user ID in the case).
"""

import base64
from collections.abc import Callable, Sequence
from dataclasses import dataclass, field

from octets import PUBLIC_KEY, SIGNATURE, USER_ID, packet
from people import NOW, Binding, Person, Statement, binding_of, day
from rules import PROFILE, Rule

@dataclass(frozen=True)
class Bare:
    """This person doesn't certify its first user ID itself."""

    person: Person


@dataclass(frozen=True)
class Absent:
    """The case has no certificate of this person."""

    person: Person


@dataclass(frozen=True)
class Named:
    """A user ID that stands in the certificate, whether anybody certifies it or not."""

    binding: Binding


@dataclass(frozen=True)
class Altered:
    """This person's certificate isn't as it would be: `how` changes its octets."""

    person: Person
    how: Callable[[bytes], bytes]


@dataclass(frozen=True)
class Entry:
    """Octets that stand among the certificates as they are, after those of the people."""

    octets: bytes


Part = Statement | Bare | Absent | Named | Altered | Entry


@dataclass(frozen=True)
class Path:
    """A path of an answer: its amount, and the people from the root to the target."""

    amount: int
    people: tuple[Person, ...]


def path(amount: int, *people: Person) -> Path:
    return Path(amount, people)


@dataclass(frozen=True)
class Choice:
    """Another answer, or the profile's own: who gives it, and why. Sequoia is its library and its command alike."""

    answer: int
    who: str
    why: str


@dataclass(frozen=True)
class Case:
    """`answer` is the paths, if the rules fix them, or else the amount. With `choices` engines may differ.

    A certificate has the user IDs that the parts name, and the person's first one.
    """

    name: str
    title: str
    parts: Sequence[Part]
    ask: Person | Binding
    answer: Sequence[Path] | int
    rule: Rule
    roots: Sequence[tuple[Person, int]] = ()
    wanted: int = 120
    at: str = NOW
    choices: Sequence[Choice] = field(default=())

    @property
    def fixed_by(self) -> str:
        """What fixes the answer: the standard, Sequoia's specification, which the profile follows, or a choice."""
        if self.choices:
            return "choice"
        return "specification" if self.rule.source == PROFILE else "standard"

    def object(self, group: str) -> dict[str, object]:
        """The case as it is written."""
        binding = binding_of(self.ask)
        written: dict[str, object] = {
            "name": self.name,
            "group": group,
            "title": self.title,
            "certificates": [base64.b64encode(octets).decode() for octets in certificates(self)],
            "roots": [{"fingerprint": hexadecimal(person), "amount": amount} for person, amount in self.roots],
            "time": day(self.at),
            "question": {"fingerprint": hexadecimal(binding.person), **spelled(binding.user_id),
                         "amount": self.wanted},  # fmt: skip
            "expected": expected(self.answer),
            "rule": {"source": self.rule.source, "sentence": self.rule.sentence},
            "class": self.fixed_by,
        }
        if self.choices:
            written["choices"] = [{"answer": each.answer, "who": each.who.replace("Sequoia", "Sequoia (sq-wot)"),
                                   "why": each.why} for each in self.choices]  # fmt: skip
        return written


def expected(answer: Sequence[Path] | int) -> dict[str, object]:
    if isinstance(answer, int):
        return {"amount": answer}
    paths = [{"amount": each.amount, "certificates": list(map(hexadecimal, each.people))} for each in answer]
    return {"amount": sum(each.amount for each in answer), "paths": paths}


def spelled(user_id: bytes) -> dict[str, str]:
    """A user ID as text, or in digits if it isn't UTF-8."""
    try:
        return {"user_id": user_id.decode()}
    except UnicodeDecodeError:
        return {"user_id_hex": user_id.hex().upper()}


def hexadecimal(person: Person) -> str:
    return person.key.fingerprint.hex().upper()


def certificates(case: Case) -> list[bytes]:
    """The certificates of the people whom a case names, in the order in which it names them."""
    absent = [part.person for part in case.parts if isinstance(part, Absent)]
    entries = [part.octets for part in case.parts if isinstance(part, Entry)]
    return [altered(person, case.parts) for person in people(case) if person not in absent] + entries


def altered(person: Person, parts: Sequence[Part]) -> bytes:
    octets = certificate(person, parts)
    for part in parts:
        if isinstance(part, Altered) and part.person == person:
            octets = part.how(octets)
    return octets


def people(case: Case) -> list[Person]:
    named = [person for person, _ in case.roots]
    for part in case.parts:
        named += [part.issuer, part.stands_on[0]] if isinstance(part, Statement) else []
        named += [part.binding.person] if isinstance(part, Named) else []
    return list(dict.fromkeys([*named, binding_of(case.ask).person]))


def certificate(person: Person, parts: Sequence[Part]) -> bytes:
    """A key, the signatures on it, and its user IDs, each with the signatures on it."""
    own = [*by_default(person, parts), *(part for part in parts if isinstance(part, Statement))]
    about = [statement for statement in own if statement.stands_on[0] == person]
    named = [part.binding for part in parts if isinstance(part, Named)]
    names = [person.user_id, *(binding.user_id for binding in named if binding.person == person)]
    names += [each.stands_on[1] for each in about if each.stands_on[1] is not None]
    octets = packet(PUBLIC_KEY, person.key.body) + signatures_on(None, about)
    for user_id in dict.fromkeys(names):
        octets += packet(USER_ID, user_id) + signatures_on(user_id, [each for each in about if not each.is_apart])
    for each in about:
        if each.is_apart:
            octets += packet(USER_ID, each.user_id or b"") + packet(SIGNATURE, each.body())
    return octets


def signatures_on(user_id: bytes | None, statements: Sequence[Statement]) -> bytes:
    return b"".join(packet(SIGNATURE, each.body()) for each in statements if each.stands_on[1] == user_id)


def by_default(person: Person, parts: Sequence[Part]) -> list[Statement]:
    """What a person says about its own key, unless the case says it: a certification of the first user ID, and in
    version 6 a direct key signature."""
    said = [(part.user_id, part.kind) for part in parts
            if isinstance(part, Statement) and part.issuer == part.target == person]  # fmt: skip
    if Bare(person) in parts:
        return []
    statements = []
    usual = [person.certifies_itself()] if person.version == 4 else [person.signs_own_key(), person.certifies_itself()]
    for statement in usual:
        if (statement.user_id, statement.kind) not in said:
            statements.append(statement)
    return statements
