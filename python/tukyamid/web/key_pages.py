"""A key's own place on the page: its user IDs with their amounts, who vouches for it, whom it vouches for, and its
times. The engine says what counts and how much; this module sorts and counts it."""

from __future__ import annotations

from collections import defaultdict
from collections.abc import Iterator
from typing import Any, NamedTuple

from ..client import Client
from ..keyrings.assessment import Question, certification_of
from ..keyrings.keyring import Keyring, View
from ..keyrings.service_keyring import served_keyring
from ..openpgp.certificates import CERTIFICATIONS, Certificate, Signature, key_id
from ..protocol.reasons import MissingWord, ReasonWord, TargetWord
from ..protocol.replies import Reason
from ..protocol.spelling import for_people, write_user_id
from .names import Names
from .page_requests import Standpoint
from .said import said_of

MOST_USER_IDS = 50
MOST_RANKED = 2000
FULL = 120
VIEW = "key"


class _Vouched(NamedTuple):
    """A certification of a user ID of the key, what the engine says about it, and what it adds to an answer."""
    issuer: str | None
    question: Question
    reason: Reason
    worth: int

    def rank(self) -> tuple[int, bool, int, int]:
        return -self.worth, self.reason.word is not ReasonWord.EDGE, -(self.reason.depth or 0), -(
            self.reason.amount or 0)


class KeyPage:
    """A key, as it looks from a standpoint."""

    def __init__(self, client: Client, fpr: str, standpoint: Standpoint) -> None:
        self._client, self._fpr, self._standpoint = client, fpr, standpoint
        self._keyring: Keyring = served_keyring(client)
        self._view: View = self._keyring.view(standpoint.time, standpoint.roots, VIEW)
        self._names = Names(self._keyring)

    def summary(self) -> dict[str, Any]:
        """The key and its user IDs."""
        certificate = self._keyring.certificate(self._fpr)
        self._names.note(self._fpr)
        if certificate is None:
            return {"fingerprint": self._fpr, "there": False, "name": "", "root": self._standpoint.roots.get(self._fpr),
                    "word": MissingWord.ABSENT, "meaning": MissingWord.ABSENT.meaning}
        questions = [Question(self._view, self._fpr, user_id, FULL)
                     for user_id in list(certificate.user_ids)[:MOST_USER_IDS]]
        word = questions[0].word if questions else TargetWord.OK
        whole = word if word is not TargetWord.UID else TargetWord.OK
        return {
            "fingerprint": self._fpr, "there": True, "name": self._names.found.get(self._fpr, ""),
            "created": certificate.created, "root": self._standpoint.roots.get(self._fpr), "word": whole,
            "meaning": whole.meaning, "user_ids": [_user_id(one) for one in questions],
            "more_user_ids": max(0, len(certificate.user_ids) - MOST_USER_IDS),
        }

    def vouched_for_by(self, begin: int, most: int) -> dict[str, Any]:
        """Who vouches for the key, those first whose certifications are worth most; a key of several user IDs at each
        of them."""
        certificate = self._keyring.certificate(self._fpr)
        if certificate is None:
            return {"count": 0, "begin": begin, "items": [], "names": {}, "worth": 0, "ranked": 0}
        questions = [Question(self._view, self._fpr, user_id, FULL)
                     for user_id in list(certificate.user_ids)[:MOST_USER_IDS]]
        sought = self._vouched(certificate, questions)
        shown = sorted(sought, key=lambda issuer: min(one.rank() for one in sought[issuer]))[begin:begin + most]
        items = []
        for issuer in shown:
            known = self._names.note(issuer if len(issuer) >= 40 else None)
            said = [self._said(certificate, one) for one in sorted(sought[issuer], key=_Vouched.rank)]
            items.append({"key": issuer, "known": known, "certifications": said})
        return {"count": len(sought), "begin": begin, "items": items, "names": self._names.found,
                "worth": sum(any(one.worth for one in said) for said in sought.values()), "ranked": len(sought)}

    def _vouched(self, certificate: Certificate, questions: list[Question]) -> dict[str, list[_Vouched]]:
        """The certifications by others, by who made them: the key, or what the signature names."""
        found: defaultdict[str, list[_Vouched]] = defaultdict(list)
        for question in questions:
            worth = _worths(question)
            for reason in question.explanation.reasons if question.explanation is not None else ():
                issuer = reason.issuer or self._keyring.index.issuer(self._fpr, reason.number)
                if issuer == self._fpr:
                    continue
                named = issuer or self._named(certificate, question.user_id, reason.number)
                if named != self._fpr and named != key_id(self._fpr):
                    found[named].append(_Vouched(issuer, question, reason, worth.get(reason.number, 0)))
        return found

    @staticmethod
    def _named(certificate: Certificate, user_id: bytes, number: str) -> str:
        """Whom a signature names as its issuer, which proves nothing."""
        signature = certificate.signature(user_id, number)
        return (signature.said.issuer or signature.said.key_id or "") if signature is not None else ""

    def vouches_for(self, begin: int, most: int) -> dict[str, Any]:
        """Whom the key vouches for, those first that get most through it, then those that have most, and of these the
        introducers that it makes. Of very many the first are sorted so."""
        signed = list(self._client.certified(self._fpr))
        worth = {one.fpr: self._through_the_key(one.fpr) for one in signed[:MOST_RANKED]}
        signed[:MOST_RANKED] = sorted(signed[:MOST_RANKED], reverse=True, key=lambda one: (*worth[one.fpr], one.depth))
        items = []
        for one in signed[begin:begin + most]:
            certificate = self._keyring.certificate(one.fpr)
            if certificate is not None:
                self._names.note(one.fpr)
                items.append({"key": one.fpr, "known": True, "certifications": list(self._by_the_key(certificate))})
        return {"count": len(signed), "begin": begin, "items": items, "names": self._names.found,
                "worth": sum(through > 0 for through, _ in worth.values()), "ranked": min(len(signed), MOST_RANKED)}

    def _through_the_key(self, fpr: str) -> tuple[int, int]:
        """The greatest amount that a user ID of another key gets through a certification by this one, and at all."""
        answers = [self._view.ask(fpr, FULL, one.user_id) for one in self._client.find("key", fpr)]
        through = max((sum(path.amount for path in answer.paths
                           if any(step.issuer == self._fpr and step.target == fpr for step in path.steps))
                       for answer in answers), default=0)
        return through, max((answer.amount for answer in answers), default=0)

    def _by_the_key(self, certificate: Certificate) -> Iterator[dict[str, Any]]:
        """What this key has said about another one's user IDs, that first which is worth most."""
        found = []
        for user_id, signatures in certificate.user_ids.items():
            theirs = {one.number for one in _naming(signatures, self._fpr)
                      if self._keyring.index.issuer(certificate.fpr, one.number) == self._fpr}
            question = Question(self._view, certificate.fpr, user_id, FULL) if theirs else None
            if question is None or question.explanation is None:
                continue
            worth = _worths(question)
            found += [_Vouched(self._fpr, question, reason, worth.get(reason.number, 0))
                      for reason in question.explanation.reasons if reason.number in theirs]
        for one in sorted(found, key=_Vouched.rank):
            yield {**self._said(certificate, one), "reached": one.question.amount}

    @staticmethod
    def _said(certificate: Certificate, vouched: _Vouched) -> dict[str, Any]:
        """What a certification says, and why it adds nothing if it doesn't."""
        user_id, reason = vouched.question.user_id, vouched.reason
        one = certification_of(vouched.issuer, certificate.fpr, user_id, reason,
                               certificate.signature(user_id, reason.number))
        meaning = reason.word.meaning if vouched.worth else vouched.question.others([reason])[0].meaning
        return {**said_of(one), "word": reason.word, "meaning": meaning, "worth": vouched.worth}


def _worths(question: Question) -> dict[str, int]:
    """What each certification of the user ID adds to the answer, by its number."""
    worth: defaultdict[str, int] = defaultdict(int)
    for path in question.paths:
        for step in path.steps:
            if step.target == question.fpr and step.number is not None:
                worth[step.number] += path.amount
    return worth


def _user_id(question: Question) -> dict[str, Any]:
    return {"user_id": for_people(question.user_id), "spelled": write_user_id(question.user_id),
            "amount": question.amount, "wanted": FULL, "reached": question.amount >= FULL, "word": question.word,
            "meaning": question.word.meaning}


def _naming(signatures: list[Signature], fpr: str) -> list[Signature]:
    """The certifications that may be by a key: those that name it, or nobody."""
    hint = bytes.fromhex(key_id(fpr))
    return [one for one in signatures if hint in one.body and one.said.kind in CERTIFICATIONS
            and one.said.may_be_by(fpr)]
