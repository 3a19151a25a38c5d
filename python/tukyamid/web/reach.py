"""How far an answer gets that isn't reached: chains of certifications from the roots to the key, and where each of them
breaks. The engine says it, over each chain alone."""

from __future__ import annotations

from collections import deque
from collections.abc import Iterator
from typing import Any

from ..client import Client
from ..keyrings.assessment import Question, certification_of
from ..keyrings.chain import Chain, ChainStep
from ..keyrings.keyring import Keyring
from ..keyrings.service_keyring import served_keyring
from ..protocol.reasons import TargetWord
from .names import Names
from .page_requests import Subject
from .said import said_of

MOST_EXPANDED = 250
MOST_CERTIFIERS = 40
MOST_CHAINS = 4
VIEW = "reach"


class Reach:
    """The chains to a binding from a standpoint."""

    def __init__(self, client: Client, subject: Subject) -> None:
        self._client, self._subject = client, subject
        self._keyring: Keyring = served_keyring(client)
        self._view = self._keyring.view(subject.standpoint.time, subject.standpoint.roots, VIEW)
        self._names = Names(self._keyring)

    def reply(self) -> dict[str, Any]:
        """Where it breaks, those chains first that break least. `target` says what is wrong with the key itself, and
        `certifiers` how many keys have certified the user ID."""
        subject = self._subject
        question = Question(self._view, subject.fpr, subject.user_id, subject.wanted)
        certifiers = list(self._certifiers(question))
        chains = [] if question.word is not TargetWord.OK else self._chains(certifiers)
        shown = [{"keys": keys, "from_root": is_whole, "steps": [self._step(one) for one in steps]}
                 for keys, is_whole, steps in chains[:MOST_CHAINS]]
        self._names.note(subject.fpr, *subject.standpoint.roots)
        return {"amount": question.amount, "wanted": subject.wanted,
                "target": None if question.word is TargetWord.OK else question.word.meaning,
                "certifiers": len(certifiers), "more": max(0, len(chains) - MOST_CHAINS), "chains": shown,
                "names": self._names.found}

    def _certifiers(self, question: Question) -> Iterator[str]:
        """The keys that have certified the user ID, but are on no path of the answer."""
        seen = {self._subject.fpr}
        for reason in question.unused():
            issuer = reason.issuer or self._keyring.index.issuer(question.fpr, reason.number)
            if issuer is not None and issuer not in seen:
                seen.add(issuer)
                yield issuer

    def _chains(self, certifiers: list[str]) -> list[tuple[list[str], bool, list[ChainStep]]]:
        """A chain for each certifier: from a root if one leads to it, else from the certifier on."""
        before = self._forward(set(certifiers))
        found = []
        for certifier in certifiers[:MOST_CERTIFIERS]:
            keys, is_whole = [certifier, self._subject.fpr], certifier in before
            while is_whole and (issuer := before[keys[0]]) is not None:
                keys.insert(0, issuer)
            if len(set(keys)) == len(keys):
                found.append((keys, is_whole))
        found.sort(key=lambda one: (not one[1], len(one[0])))
        asked = [(keys, is_whole, self._steps(keys)) for keys, is_whole in found[:2 * MOST_CHAINS]]
        asked.sort(key=lambda one: (not one[1], sum(step.broken is not None for step in one[2]), len(one[0])))
        return asked + [(keys, is_whole, []) for keys, is_whole in found[2 * MOST_CHAINS:]]

    def _forward(self, sought: set[str]) -> dict[str, str | None]:
        """Whom the roots lead to, by certifications of any kind, each key with the one before it. It ends once all that
        is sought is found, or after a few hundred keys."""
        before: dict[str, str | None] = dict.fromkeys(self._subject.standpoint.roots)
        left = deque(before)
        missing = sought.difference(before)
        for _ in range(MOST_EXPANDED):
            if not left or not missing:
                break
            issuer = left.popleft()
            for one in self._client.certified(issuer):
                if one.fpr not in before and one.fpr != self._subject.fpr:
                    before[one.fpr] = issuer
                    left.append(one.fpr)
                    missing.discard(one.fpr)
        return before

    def _steps(self, keys: list[str]) -> list[ChainStep]:
        with self._keyring.along(keys) as along:
            return list(Chain(self._view, along, keys, self._subject.user_id).steps())

    def _step(self, step: ChainStep) -> dict[str, Any]:
        self._names.note(step.issuer, step.target)
        said = []
        for link in step.links:
            one = certification_of(step.issuer, step.target, link.user_id, link.reason, link.signature)
            said.append({**said_of(one), "word": link.reason.word, "meaning": link.reason.word.meaning})
        return {"issuer": step.issuer, "target": step.target, "certifications": said,
                "broken": None if step.broken is None else step.broken.word,
                "why": None if step.broken is None else step.broken.text}
