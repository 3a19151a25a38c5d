"""Answers as the page shows them: paths, why other certifications don't count, and what changed between two times."""

from collections import Counter
from collections.abc import Iterator
from contextlib import contextmanager
from typing import Any

from ..formats.phrases import said_elsewhere
from ..keyrings.assessment import Certification, Question, elsewhere
from ..keyrings.keyring import Keyring
from ..keyrings.unverified import is_looked_at
from ..planning.scratch import supposing
from ..planning.supposition_forms import as_object
from ..protocol.reasons import ReasonWord, TargetWord
from ..protocol.replies import Reason
from .names import Names
from .page_requests import Standpoint, Subject
from .said import said_of

MOST_SHOWN = 50
MOST_CHANGES = 200


@contextmanager
def over(keyring: Keyring, subject: Subject) -> Iterator[Keyring]:
    """The keyring that a question is asked over: the service's, or one in which something is supposed."""
    if not subject.supposed:
        yield keyring
        return
    for one in subject.added:
        for fpr in one.issuer, one.target:
            if keyring.certificate(fpr) is None:
                raise ValueError(f"the key {fpr} isn't in the keyring, so nothing can be supposed of it")
    with supposing(keyring, subject.supposed, subject.standpoint.time) as copy:
        yield copy


def question(keyring: Keyring, subject: Subject, time: int | None = None, name: str = "page") -> Question:
    standpoint = subject.standpoint
    view = keyring.view(standpoint.time if time is None else time, standpoint.roots, name)
    return Question(view, subject.fpr, subject.user_id, subject.wanted)


def answer(keyring: Keyring, subject: Subject) -> dict[str, Any]:
    """An answer with its paths, and the others counted by their reasons."""
    waiting = keyring.index.waiting()
    with over(keyring, subject) as asked:
        found, names = question(asked, subject), Names(keyring)
        expired = elsewhere(found.view, subject.fpr) if found.word is TargetWord.OK else None
        paths = [{"amount": path.amount, "root": path.root, "steps": [_step(one, names) for one in path.steps]}
                 for path in found.paths]
        names.note(subject.fpr, *subject.standpoint.roots)
        return {
            "amount": found.amount, "wanted": subject.wanted, "reached": found.amount >= subject.wanted,
            "word": found.word, "meaning": found.word.meaning, "paths": paths, "others": _counted(found.unused()),
            "expired_elsewhere": None if expired is None else said_elsewhere(expired), "names": names.found,
            "supposed": [as_object(one, names.of) for one in subject.supposed],
            "waiting": None if waiting is None else str(waiting),
            "certain": waiting is None or found.amount >= subject.wanted and is_looked_at(keyring, _on_paths(found)),
        }


def _on_paths(found: Question) -> set[str]:
    """The keys that an answer rests on."""
    steps = [step for path in found.paths for step in path.steps]
    return {found.fpr, *(path.root for path in found.paths), *(step.target for step in steps)}


def reasons(keyring: Keyring, subject: Subject, word: str, begin: int) -> dict[str, Any]:
    """Some of the certifications that are on no path for one reason, each with what is said about it."""
    with over(keyring, subject) as asked:
        found, names = question(asked, subject), Names(keyring)
        sought = [reason for reason in found.unused() if reason.word == word]
        shown = found.others(sought[begin:begin + MOST_SHOWN])
        items = [{**_step(one.certification, names), "word": one.word, "meaning": one.meaning} for one in shown]
        return {"count": len(sought), "begin": begin, "items": items, "names": names.found}


def changes(keyring: Keyring, subject: Subject, since: int) -> dict[str, Any]:
    """What is otherwise at the question's time than at an earlier or later one."""
    with over(keyring, subject) as asked:
        before, after = question(asked, subject, since, "before"), question(asked, subject, None, "after")
        then, now = _words(before), _words(after)
        changed = [number for number in {**then, **now} if then.get(number) != now.get(number)]
        names = Names(keyring)
        items = [_changed(before, number, then.get(number), now.get(number), names)
                 for number in changed[:MOST_CHANGES]]
        return {"since": since, "before": before.amount, "after": after.amount, "word_before": before.word,
                "word_after": after.word, "meaning_before": before.word.meaning, "meaning_after": after.word.meaning,
                "paths_before": len(before.paths), "paths_after": len(after.paths), "count": len(changed),
                "items": items, "names": names.found}


def _words(asked: Question) -> dict[str, str]:
    """What each certification comes to, by its number."""
    all_reasons = asked.explanation.reasons if asked.explanation is not None else ()
    return {reason.number: "path" if reason.number in asked.used else reason.word for reason in all_reasons}


def _changed(asked: Question, number: str, then: str | None, now: str | None, names: Names) -> dict[str, Any]:
    issuer = asked.view.keyring.index.issuer(asked.fpr, number)
    names.note(issuer)
    return {"signature": number, "issuer": issuer, "before": _meaning(then), "after": _meaning(now)}


def _meaning(word: str | None) -> str:
    if word is None:
        return "isn't there"
    return "is on a path" if word == "path" else ReasonWord(word).meaning


def _counted(unused: list[Reason]) -> list[dict[str, Any]]:
    """How many there are of each reason; those that count come first."""
    counts = Counter(reason.word for reason in unused)
    return [{"word": word, "meaning": word.meaning, "count": counts[word]} for word in ReasonWord if counts[word]]


def _step(one: Certification, names: Names) -> dict[str, Any]:
    names.note(one.issuer, one.target)
    return {"issuer": one.issuer, "target": one.target, **said_of(one)}


def standpoint(keyring: Keyring, view: Standpoint) -> dict[str, Any]:
    """The roots, with their names."""
    names = Names(keyring)
    names.note(*view.roots)
    roots = [{"fingerprint": fpr, "amount": amount, "name": names.found.get(fpr, ""),
              "there": keyring.certificate(fpr) is not None} for fpr, amount in view.roots.items()]
    return {"roots": roots, "time": view.time}
