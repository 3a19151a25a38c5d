"""A run of the suite: engines asked about cases, and about variants of the cases that must not change the answer."""

from __future__ import annotations

from dataclasses import dataclass, field

from case_files import Case
from engines import Answer, Engine
from judging import Outcome, Reason, judge


@dataclass(frozen=True)
class Changed:
    """A variant of a case that an engine answers otherwise than the case."""

    case: Case
    before: Answer
    after: Answer


@dataclass
class Mutated:
    """What an engine made of one mutation: how many cases have such a variant, and which changed the answer."""

    count: int = 0
    changed: list[Changed] = field(default_factory=list)


@dataclass
class Results:
    """What all engines answered. Outcomes are by engine and then in the order of the cases."""

    cases: list[Case]
    engines: list[Engine]
    outcomes: dict[str, list[Outcome]]
    mutated: dict[str, dict[str, Mutated]]

    def unexplained(self, engine: str) -> list[tuple[Case, Outcome]]:
        """The differences of an engine that neither the case nor the table of the engine explains."""
        return [(case, one) for case, one in zip(self.cases, self.outcomes[engine]) if not one.is_explained]

    def groups(self) -> dict[str, list[int]]:
        """The places of the cases of each group, in order."""
        found: dict[str, list[int]] = {}
        for at, case in enumerate(self.cases):
            found.setdefault(case.group, []).append(at)
        return found


def run(cases: list[Case], engines: list[Engine], known: list[Reason], jobs: int, variants: int) -> Results:
    """Asks all engines about all cases, and about this many variants of each."""
    results = Results(cases, engines, {}, {})
    for engine in engines:
        answers = engine.ask_all([case.asked for case in cases], jobs)
        results.outcomes[engine.name] = [judge(case, engine.name, answer, known)
                                         for case, answer in zip(cases, answers)]
        if variants:
            results.mutated[engine.name] = mutate(cases, answers, engine, jobs, variants)
    return results


def mutate(cases: list[Case], answers: list[Answer], engine: Engine, jobs: int, most: int) -> dict[str, Mutated]:
    """Asks an engine about variants of the cases that it answers."""
    import mutations  # It needs a package that nothing else needs.
    found = {name: Mutated() for name in mutations.NAMES}
    asked = [(case, answer, name, variant) for case, answer in zip(cases, answers) if answer.is_answer
             for name, variant in mutations.variants(case, most)]
    after = engine.ask_all([{**case.asked, "certificates": mutations.encoded(variant)}
                            for case, _, _, variant in asked], jobs)
    for (case, before, name, _), now in zip(asked, after):
        found[name].count += 1
        if (now.least, now.most, now.failed) != (before.least, before.most, before.failed):
            found[name].changed.append(Changed(case, before, now))
    return found
