"""An answer with what people want to know about it: who, when, by which signature, and why others don't count."""

from __future__ import annotations

from ..fast_imports import TYPE_CHECKING, Protocol
from ..openpgp.certificates import Signature
from ..openpgp.lifetimes import Expired, expired_elsewhere
from ..protocol.reasons import MissingWord, ReasonWord, TargetWord
from ..protocol.replies import Binding, Explanation, Reason, Step
from ..records import Value
from .keyring import View

if TYPE_CHECKING:
    from collections.abc import Callable, Iterable, Mapping

    from ..planning.suppositions import Supposition


class Certification(Value):
    """A certification of a user ID. `number`, `made` and `ends` are None if the signature wasn't found. One that is
    `supposed` was made by nobody."""
    __slots__ = ("issuer", "target", "user_id", "depth", "amount", "number", "made", "ends", "scopes", "supposed")

    def __init__(self, issuer: str | None, target: str, user_id: bytes, depth: int, amount: int,
                 number: str | None = None, made: int | None = None, ends: int | None = None,
                 scopes: tuple[bytes, ...] = (), supposed: bool = False) -> None:
        self.issuer, self.target, self.user_id = issuer, target, user_id
        self.depth, self.amount, self.number = depth, amount, number
        self.made, self.ends, self.scopes, self.supposed = made, ends, scopes, supposed


class ShownPath(Value):
    """A path, with the certifications that are its steps."""
    __slots__ = ("amount", "root", "steps")

    def __init__(self, amount: int, root: str, steps: tuple[Certification, ...]) -> None:
        self.amount, self.root, self.steps = amount, root, steps


class Other(Value):
    """A certification on the user ID that is on no path, with the engine's word for it, and what that means here."""
    __slots__ = ("certification", "word", "meaning")

    def __init__(self, certification: Certification, word: ReasonWord, meaning: str) -> None:
        self.certification, self.word, self.meaning = certification, word, meaning


class Others(tuple[Other, ...]):
    """Certifications that are on no path. `written` keeps what was written about all of them."""
    written: str | None = None


class Assessment(Value):
    """An answer with what is said about it. `word` is the target's, `ok` if it is in order. `expired` says which other
    programs treat the key as expired, and `strict` that the answer then isn't reached. `brief` is for long lists:
    neither paths nor other certifications were asked for."""
    __slots__ = ("fpr", "user_id", "wanted", "amount", "paths", "word", "others", "expired", "strict", "brief")

    def __init__(self, fpr: str, user_id: bytes, wanted: int, amount: int, paths: tuple[ShownPath, ...],
                 word: TargetWord | MissingWord, others: tuple[Other, ...] = (), expired: Expired | None = None,
                 strict: bool = False, brief: bool = False) -> None:
        self.fpr, self.user_id, self.wanted, self.amount = fpr, user_id, wanted, amount
        self.paths, self.word, self.others = paths, word, others
        self.expired, self.strict, self.brief = expired, strict, brief

    @property
    def reached(self) -> bool:
        return self.amount >= self.wanted and not (self.strict and self.expired is not None)

    @property
    def percent(self) -> int:
        return self.amount * 100 // self.wanted


class Names(Protocol):
    """A user ID to say whose a key is, or None."""

    def get(self, fpr: str | None, /) -> bytes | None: ...


class Report(Value):
    """All that a question of the command came to, and what was supposed for it."""
    __slots__ = ("question", "wanted", "time", "roots", "assessments", "names", "notes", "supposed")

    def __init__(self, question: str, wanted: int, time: int, roots: Mapping[str, int],
                 assessments: tuple[Assessment, ...], names: Names, notes: tuple[str, ...] = (),
                 supposed: tuple[Supposition, ...] = ()) -> None:
        self.question, self.wanted, self.time, self.roots = question, wanted, time, roots
        self.assessments, self.names, self.notes, self.supposed = assessments, names, notes, supposed

    @property
    def reached(self) -> bool:
        return any(one.reached for one in self.assessments)


def elsewhere(view: View, fpr: str) -> Expired | None:
    """Which other programs treat a key as expired at the view's time."""
    return view.once(("elsewhere", fpr), lambda: _expired(view, fpr))


def _expired(view: View, fpr: str) -> Expired | None:
    certificate = view.keyring.certificate(fpr)
    if certificate is None:
        return None
    return expired_elsewhere(certificate, lambda number: view.keyring.index.issuer(fpr, number), view.time)


def brief(view: View, binding: Binding, wanted: int) -> Assessment:
    """A binding with its amount, as in a long list."""
    return Assessment(binding.fpr, binding.user_id, wanted, binding.amount, (), TargetWord.OK,
                      expired=elsewhere(view, binding.fpr), brief=True)


class Question:
    """A binding that was asked about: its answer, and what the engine says about each certification of the user ID.
    `explanation` is None if there is no such certificate or user ID."""

    def __init__(self, view: View, fpr: str, user_id: bytes, wanted: int) -> None:
        self.view, self.fpr, self.user_id, self.wanted = view, fpr, user_id, wanted
        answer = view.ask(fpr, wanted, user_id)
        explain = _Explanations(view).of
        self.amount = answer.amount
        self.paths = tuple(ShownPath(path.amount, path.root, tuple(_step(view, explain, step) for step in path.steps))
                           for path in answer.paths)
        self.used = {step.number for path in self.paths for step in path.steps}
        self.explanation = explain(fpr, user_id)

    @property
    def word(self) -> TargetWord | MissingWord:
        if self.explanation is not None:
            return self.explanation.word
        return MissingWord.ABSENT if self.view.keyring.certificate(self.fpr) is None else MissingWord.NO_UID

    def unused(self) -> list[Reason]:
        """The certifications of the user ID that are on no path."""
        reasons = self.explanation.reasons if self.explanation is not None else ()
        return [reason for reason in reasons if reason.number not in self.used]

    def others(self, reasons: Iterable[Reason]) -> Others:
        """What is said about these certifications."""
        if self.explanation is None:
            return Others()
        why = _WhyUnused(self.view, self.fpr, self.explanation.word, self.amount >= self.wanted)
        return Others(_other(self.view, self.fpr, self.user_id, reason, why, reason.number in self.used)
                      for reason in reasons)

    def all_others(self, every: bool) -> Others:
        """What is said about the certifications that are on no path, or about `every` one. It depends on what the paths
        use, and on whether the wanted amount is reached, not on the amounts."""
        of = "others", self.fpr, self.user_id, every, self.amount >= self.wanted, frozenset(self.used)
        return self.view.once(of, lambda: self.others(self.explanation.reasons if every and self.explanation else
                                                      self.unused()), lambda found: 2 * len(found))


def assess(view: View, fpr: str, user_id: bytes, wanted: int, every: bool = False) -> Assessment:
    """Asks about a binding, and gathers what is said about its answer. If `every` certification is wanted, those on its
    paths are among the others too."""
    asked = Question(view, fpr, user_id, wanted)
    if asked.explanation is None:
        return Assessment(fpr, user_id, wanted, asked.amount, asked.paths, asked.word)
    others = asked.all_others(every)
    expired = elsewhere(view, fpr) if asked.word is TargetWord.OK else None
    return Assessment(fpr, user_id, wanted, asked.amount, asked.paths, asked.word, others, expired)


def _step(view: View, explain: Callable[[str, bytes], Explanation | None], step: Step) -> Certification:
    """A step, with the signature that it is."""
    explanation = explain(step.target, step.user_id)
    for reason in explanation.reasons if explanation is not None else ():
        if (reason.issuer, reason.depth, reason.amount) == (step.issuer, step.depth, step.amount):
            signature = _signature(view, step.target, step.user_id, reason.number)
            return certification_of(step.issuer, step.target, step.user_id, reason, signature,
                                    reason.number in view.keyring.supposed)
    return Certification(step.issuer, step.target, step.user_id, step.depth, step.amount)


def _signature(view: View, fpr: str, user_id: bytes, number: str) -> Signature | None:
    certificate = view.keyring.certificate(fpr)
    return certificate.signature(user_id, number) if certificate is not None else None


def certification_of(issuer: str | None, target: str, user_id: bytes, reason: Reason, signature: Signature | None,
                     supposed: bool = False) -> Certification:
    """What is said about a signature; depth and amount are its own if the engine doesn't report them."""
    if signature is None:
        return Certification(issuer, target, user_id, reason.depth or 0, reason.amount or 0, reason.number)
    said = signature.said
    made, ends = (said.made, said.ends) if said.sound else (None, None)
    return Certification(issuer, target, user_id, said.depth if reason.depth is None else reason.depth,
                         said.amount if reason.amount is None else reason.amount, reason.number, made, ends,
                         tuple(said.patterns), supposed)


def _other(view: View, fpr: str, user_id: bytes, reason: Reason, why: "_WhyUnused", used: bool) -> Other:
    signature = _signature(view, fpr, user_id, reason.number)
    issuer = reason.issuer or view.keyring.index.issuer(fpr, reason.number)
    if issuer is None and signature is not None:
        issuer = signature.said.issuer or signature.said.key_id  # It proves nothing whom a signature names.
    meaning = why.meaning(issuer, used) if reason.word is ReasonWord.EDGE else reason.word.meaning
    if reason.word is ReasonWord.UNSOUND and signature is not None and signature.said.unknown:
        meaning = f"it has a critical {signature.said.unknown[0]}, which the engine doesn't know"
    certification = certification_of(issuer, fpr, user_id, reason, signature, reason.number in view.keyring.supposed)
    return Other(certification, reason.word, meaning)


class _Explanations:
    """What the engine says about user IDs, each of which is asked about once."""

    def __init__(self, view: View) -> None:
        self._view = view
        self._kept: dict[tuple[str, bytes], Explanation | None] = {}

    def of(self, fpr: str, user_id: bytes) -> Explanation | None:
        if (fpr, user_id) not in self._kept:
            self._kept[fpr, user_id] = self._view.explain(fpr, user_id)
        return self._kept[fpr, user_id]


class _WhyUnused:
    """Why certifications that count are on no path."""

    def __init__(self, view: View, target: str, word: TargetWord, reached: bool) -> None:
        self._view, self._target, self._word, self._reached = view, target, word, reached

    def meaning(self, issuer: str | None, used: bool) -> str:
        if used:
            return "counts: it is on a path above"
        if self._word is not TargetWord.OK:
            return f"counts, but no path may end here: {self._word.meaning}"
        if issuer == self._target:
            return "counts: the key's own, which only extends paths that lead to this key"
        if self._reached:
            return "counts: the wanted amount was reached without it"
        if issuer is not None and (issuer in self._view.roots or self._view.reaches(issuer)):
            return ("counts, but its issuer isn't trusted this far: a depth, a scope or what is left of an "
                    "amount doesn't allow it")
        return "counts, but no path from a root goes through its issuer"
