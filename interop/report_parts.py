"""Parts of the page: what each engine's answers come to, why they differ, and what the mutations changed."""

from __future__ import annotations

import html
from collections import Counter
from collections.abc import Iterator

from case_files import Case
from judging import Verdict, read_known
from suite import Mutated, Results
from table import COUNTED, amount_of

HEADS = {
    Verdict.SAME: "as expected", Verdict.OTHER_PATHS: "other paths", Verdict.OTHER_AMOUNT: "other amount",
    Verdict.DIFFERENT: "opposite decision", Verdict.UNSUPPORTED: "can't be asked", Verdict.FAILED: "no answer",
}


def escaped(text: str) -> str:
    return html.escape(text, quote=True)


def titled(group: str) -> str:
    """A group's name as a heading."""
    return group.replace("-", " ").capitalize()


def link(case: Case) -> str:
    # The space before the bracket lets the line break there.
    return f'<a href="#c-{escaped(case.group)}-{escaped(case.name)}" >{escaped(case.place)}</a>'


def totals(results: Results) -> Iterator[str]:
    """A row for each engine."""
    used = [verdict for verdict in COUNTED
            if any(one.verdict is verdict for outcomes in results.outcomes.values() for one in outcomes)]
    heads = "".join(f'<th class="n" scope="col">{escaped(HEADS[verdict])}</th>' for verdict in used)
    yield f'<div class="wide"><table><thead><tr><th scope="col">engine</th>{heads}</tr></thead><tbody>'
    for engine in results.engines:
        count = Counter(one.verdict for one in results.outcomes[engine.name])
        cells = "".join(f'<td class="n">{count[verdict] or ""}</td>' for verdict in used)
        yield f'<tr><th scope="row">{escaped(engine.name)}<br><span class="name">{escaped(engine.version)}</span></th>'
        yield f"{cells}</tr>"
    yield "</tbody></table></div>"


def by_group(results: Results) -> Iterator[str]:
    """A row for each group: how many of its cases each engine answers as expected."""
    heads = "".join(f'<th class="n" scope="col">{escaped(engine.name)}</th>' for engine in results.engines)
    yield "<h2>By subject</h2><p>How many cases each engine answers as expected, of those that it can be asked.</p>"
    yield f'<div class="wide"><table><thead><tr><th scope="col">subject</th>{heads}</tr></thead><tbody>'
    for group, places in results.groups().items():
        yield f'<tr><th scope="row"><a href="#g-{escaped(group)}">{escaped(titled(group))}</a></th>'
        for engine in results.engines:
            verdicts = [results.outcomes[engine.name][at].verdict for at in places]
            asked = sum(one is not Verdict.UNSUPPORTED for one in verdicts)
            same = sum(not one.needs_reason for one in verdicts) - (len(verdicts) - asked)
            name = "cant" if not asked else "same" if same == asked else "amount"
            text = "&ndash;" if not asked else f"{same} of {asked}"
            yield f'<td class="n"><span class="v {name}">{text}</span></td>'
        yield "</tr>"
    yield "</tbody></table></div>"


def reasons(results: Results) -> Iterator[str]:
    """Why each engine differs, and what it can't be asked."""
    yield "<h2>Why they differ</h2>"
    for engine in results.engines:
        differs: dict[str, list[Case]] = {}
        unasked: Counter[str] = Counter()
        for case, one in zip(results.cases, results.outcomes[engine.name]):
            if one.verdict is Verdict.UNSUPPORTED:
                unasked[one.why] += 1
            elif one.verdict.needs_reason:
                differs.setdefault(one.why or "Nobody has said why.", []).append(case)
        yield f"<h3>{escaped(engine.name)}</h3>"
        if not differs and not unasked:
            yield "<p>It answers every case as expected.</p>"
        for why, cases in sorted(differs.items(), key=lambda item: -len(item[1])):
            links = ", ".join(map(link, cases))
            yield f'<details><summary>{escaped(why)} <span class="soft">{counted(len(cases))}</span></summary>'
            yield f'<p class="name">{links}</p></details>'
        if unasked:
            told = "; ".join(f"{why} ({counted(number)})" for why, number in unasked.most_common())
            yield f'<p class="soft">Not asked: {escaped(told)}.</p>'


def counted(number: int) -> str:
    return "1 case" if number == 1 else f"{number} cases"


def mutations(results: Results) -> Iterator[str]:
    """Which mutations changed whose answers."""
    if not results.mutated:
        return
    yield "<h2>Variants that must not change an answer</h2>"
    yield ("<p>Each case is asked again in variants that say the same: packets and certificates in another order, "
           "parts twice, other packet formats, other unhashed areas, forged copies, strangers among the certificates. "
           "The table has how many variants changed an engine's own answer.</p>")
    heads = "".join(f'<th class="n" scope="col">{escaped(engine.name)}</th>' for engine in results.engines)
    yield f'<div class="wide"><table><thead><tr><th scope="col">variant</th>{heads}</tr></thead><tbody>'
    for name in next(iter(results.mutated.values())):
        found = [results.mutated[engine.name][name] for engine in results.engines]
        cells = "".join(f'<td class="n">{changed_of(one)}</td>' for one in found)
        yield f'<tr><th scope="row">{escaped(name.replace("-", " "))}</th>{cells}</tr>'
    yield "</tbody></table></div>"
    for engine in results.engines:
        yield from changed_answers(engine.name, results.mutated[engine.name])


def changed_of(one: Mutated) -> str:
    if not one.count:
        return '<span class="v cant">&ndash;</span>'
    word = "differs" if one.changed else "same"
    return f'<span class="v {word}">{len(one.changed)} of {one.count}</span>'


def changed_answers(engine: str, mutated: dict[str, Mutated]) -> Iterator[str]:
    """The answers of an engine that mutations changed, behind a line that opens them."""
    count = sum(len(one.changed) for one in mutated.values())
    if not count:
        return
    whys = [one.why for one in read_known() if engine in one.engines and any(mutated[name].changed
                                                                             for name in one.variants)]
    yield f'<details><summary>{escaped(engine)}: {count} answers changed. {escaped(" ".join(whys))}</summary>'
    yield '<ul class="name">'
    for name, one in mutated.items():
        for changed in one.changed:
            after = "no answer" if changed.after.failed else amount_of(changed.after)
            yield f"<li>{escaped(name)}, {link(changed.case)}: {amount_of(changed.before)}, then {after}</li>"
    yield "</ul></details>"
