"""The results of a run as text, for a terminal."""

from __future__ import annotations

import sys
from collections import Counter
from collections.abc import Iterator

from case_files import Case
from engines import Answer
from judging import Outcome, Verdict, described
from suite import Results

COUNTED = (Verdict.SAME, Verdict.OTHER_PATHS, Verdict.OTHER_AMOUNT, Verdict.DIFFERENT, Verdict.UNSUPPORTED,
           Verdict.FAILED)


def amount_of(answer: Answer) -> str:
    """An amount as an engine reports it, which may be a level."""
    if answer.unsupported:
        return "-"
    if answer.failed:
        return "!"
    if answer.least == answer.most:
        return str(answer.least)
    return f"{answer.least}+" if answer.most > 30000 else f"{answer.least}..{answer.most}"


def cell(outcome: Outcome) -> str:
    """An answer with a mark: = as expected, ~ the same decision, # the opposite one."""
    marks = {Verdict.SAME: "=", Verdict.OTHER_PATHS: "/", Verdict.OTHER_AMOUNT: "~", Verdict.DIFFERENT: "#"}
    return f"{marks.get(outcome.verdict, '')}{amount_of(outcome.answer)}"


def aligned(rows: list[list[str]]) -> Iterator[str]:
    """Rows with their columns aligned, the first to the left."""
    widths = [max(len(row[at]) for row in rows) for at in range(len(rows[0]))]
    for row in rows:
        cells = [text.ljust(width) if at == 0 else text.rjust(width)
                 for at, (text, width) in enumerate(zip(row, widths))]
        yield "  ".join(cells).rstrip()


def is_shown(results: Results, at: int, everything: bool) -> bool:
    return everything or any(results.outcomes[one.name][at].verdict.needs_reason for one in results.engines)


def by_case(results: Results, everything: bool) -> Iterator[str]:
    """A row for each case: those in which an engine differs, or all."""
    rows = [["case", "expected", *(engine.name for engine in results.engines)]]
    for at, case in enumerate(results.cases):
        if is_shown(results, at, everything):
            rows.append([case.place, str(case.expected),
                         *(cell(results.outcomes[engine.name][at]) for engine in results.engines)])
    if len(rows) > 1:
        yield from aligned(rows)
        yield "= as expected   / other paths   ~ other amount   # opposite decision   - can't be asked   ! no answer"
        yield ""


def counts(results: Results) -> Iterator[str]:
    """A row for each engine, and what its answers come to."""
    rows = [["engine", *(verdict.value for verdict in COUNTED), "unexplained"]]
    for engine in results.engines:
        count = Counter(one.verdict for one in results.outcomes[engine.name])
        rows.append([engine.name, *(str(count[verdict]) for verdict in COUNTED),
                     str(len(results.unexplained(engine.name)))])
    yield from aligned(rows)


def why(results: Results) -> Iterator[str]:
    """The differences that nothing explains."""
    for engine in results.engines:
        for case, outcome in results.unexplained(engine.name):
            yield f"{engine.name} {case.place}: {said(case, outcome)}"


def said(case: Case, outcome: Outcome) -> str:
    """What an engine says instead of what is expected."""
    answer = outcome.answer
    if answer.failed:
        return f"no answer ({answer.failed}), expected {case.expected}"
    if outcome.verdict is Verdict.OTHER_PATHS:
        return f"{described(answer.paths or ())}, expected {described(case.paths or ())}"
    return f"{amount_of(answer)}, expected {case.expected} of {case.wanted}"


def mutated(results: Results) -> Iterator[str]:
    """What the mutations changed."""
    if not results.mutated:
        return
    names = list(next(iter(results.mutated.values())))
    rows = [["mutation", *(engine.name for engine in results.engines)]]
    for name in names:
        found = [results.mutated[engine.name][name] for engine in results.engines]
        rows.append([name, *(f"{len(one.changed)} of {one.count}" for one in found)])
    yield ""
    yield "answers that a mutation changed:"
    yield from aligned(rows)
    for engine in results.engines:
        for name in names:
            for one in results.mutated[engine.name][name].changed:
                after = one.after.failed or amount_of(one.after)
                yield f"{engine.name} {name} {one.case.place}: {amount_of(one.before)}, then {after}"


def summary(results: Results) -> str:
    """The last line."""
    left = sum(len(results.unexplained(engine.name)) for engine in results.engines)
    changed = sum(len(one.changed) for mutated in results.mutated.values() for one in mutated.values())
    asked = sum(one.count for mutated in results.mutated.values() for one in mutated.values())
    more = f", {changed} of {asked} variants changed an answer" if results.mutated else ""
    return f"{len(results.engines)} engines, {len(results.cases)} cases: {left} differences without a reason{more}"


def write(results: Results, everything: bool) -> None:
    """Prints everything."""
    parts = (by_case(results, everything), counts(results), why(results), mutated(results))
    for part in parts:
        sys.stdout.writelines(f"{line}\n" for line in part)
