"""What an engine's answer to a case comes to: whether it is the expected one, and if not, why it differs.

The reason comes from the case, if one of its choices is this answer by this engine. Otherwise it comes from the tables
of what is known about engines, `known/*.json`. At last it is a choice of the case that is this answer, by a reading of
the rules or a kind of engine.
"""

from __future__ import annotations

import fnmatch
import json
import re
from dataclasses import dataclass
from enum import Enum
from pathlib import Path

from case_files import HERE, Case, Path_
from engines import Answer

KNOWN = HERE / "known"
# What the choices of cases call an engine, besides the name of its adapter.
CALLED: dict[str, list[str]] = {
    "tukyamid": [], "sq-wot": ["Sequoia"], "sequoia": ["Sequoia", "sq-wot"], "gpg": ["GnuPG"],
    "gpg-classic": ["gpg", "GnuPG"],
}


class Verdict(Enum):
    """How an answer compares with the expected one. The value is the word in tables."""

    SAME = "same"
    OTHER_PATHS = "paths"
    OTHER_AMOUNT = "amount"
    DIFFERENT = "differs"
    UNSUPPORTED = "can't"
    FAILED = "failed"

    @property
    def meaning(self) -> str:
        return MEANINGS[self]

    @property
    def needs_reason(self) -> bool:
        return self not in (Verdict.SAME, Verdict.UNSUPPORTED)


MEANINGS = {
    Verdict.SAME: "the expected amount",
    Verdict.OTHER_PATHS: "the expected amount, by other paths",
    Verdict.OTHER_AMOUNT: "another amount, but the same decision: the wanted amount is reached or not, as expected",
    Verdict.DIFFERENT: "the opposite decision",
    Verdict.UNSUPPORTED: "the engine can't be asked this",
    Verdict.FAILED: "no answer",
}


@dataclass(frozen=True)
class Outcome:
    """An engine's answer to a case, what it comes to, and why it differs, which is empty if nobody knows."""

    answer: Answer
    verdict: Verdict
    why: str

    @property
    def is_explained(self) -> bool:
        return not self.verdict.needs_reason or bool(self.why)


@dataclass(frozen=True)
class Reason:
    """Something that is known about engines: the engines, a sentence, and patterns of the cases in which it shows. With
    `introduced` only those in which introducers between a root and the target decide. `variants` has the mutations
    that change the engines' answers for this reason."""

    engines: tuple[str, ...]
    why: str
    cases: tuple[str, ...]
    introduced: bool = False
    variants: tuple[str, ...] = ()

    def covers(self, engine: str, case: Case) -> bool:
        is_named = engine in self.engines and any(fnmatch.fnmatchcase(case.place, pattern) for pattern in self.cases)
        return is_named and (not self.introduced or needs_introducers(case))


def needs_introducers(case: Case) -> bool:
    """Whether each path of the expected answer has somebody between the root and the target."""
    return case.expected > 0 and all(len(path.certificates) > 2 for path in case.paths or ())


def read_known(folder: Path = KNOWN) -> list[Reason]:
    """All that is known about engines."""
    reasons = []
    for file in sorted(folder.glob("*.json")):
        for one in json.loads(file.read_text(encoding="utf-8")):
            reasons.append(Reason(tuple(one["engines"]), one["why"], tuple(one["cases"]), one.get("introduced", False),
                                  tuple(one.get("variants", ()))))
    return reasons


def verdict_of(case: Case, answer: Answer) -> Verdict:
    if answer.failed:
        return Verdict.FAILED
    if answer.unsupported:
        return Verdict.UNSUPPORTED
    if answer.least <= case.expected <= answer.most:
        has_paths = case.paths is not None and answer.paths is not None
        return Verdict.OTHER_PATHS if has_paths and answer.paths != case.paths else Verdict.SAME
    reaches = answer.least >= case.wanted
    return Verdict.OTHER_AMOUNT if reaches == (case.expected >= case.wanted) else Verdict.DIFFERENT


def names_engine(who: str, engine: str) -> bool:
    """Whether the words of a choice name this engine."""
    names = "|".join(map(re.escape, [engine, *CALLED.get(engine, [])]))
    return re.search(rf"(?<![\w-])(?:{names})(?![\w-])", who, re.IGNORECASE) is not None


def judge(case: Case, engine: str, answer: Answer, known: list[Reason]) -> Outcome:
    """What an engine's answer to a case comes to."""
    verdict = verdict_of(case, answer)
    if verdict is Verdict.UNSUPPORTED:
        return Outcome(answer, verdict, answer.unsupported)
    if not verdict.needs_reason:
        return Outcome(answer, verdict, "")
    fitting = [one for one in case.choices if answer.is_answer and answer.least <= one.answer <= answer.most]
    reasons = [one.why for one in fitting if names_engine(one.who, engine)]
    reasons += [one.why for one in known if one.covers(engine, case)]
    reasons += [f"{one.who}: {one.why}" for one in fitting if not any(names_engine(one.who, name) for name in CALLED)]
    return Outcome(answer, verdict, sentence(reasons[0]) if reasons else "")


def sentence(text: str) -> str:
    """Text as a sentence. A name such as gpg stays as it is."""
    begin = text[:1] if text.startswith(tuple(CALLED)) else text[:1].upper()
    return begin + text[1:] + ("" if text.endswith(".") else ".")


def described(paths: tuple[Path_, ...]) -> str:
    """Paths in a line: the amount of each, and the first digits of its certificates."""
    shown = (f"{path.amount} by {' > '.join(name[:8] for name in path.certificates)}" for path in paths)
    return "; ".join(shown) or "no path"
