"""The results of a run as a page: which engine answers which case how, and why it differs. The page needs nothing else:
no script, no other file."""

from __future__ import annotations

import html
import textwrap
from collections.abc import Iterator

import report_parts
from case_files import CLASSES, HERE, Case
from engines import Engine
from judging import MEANINGS, Outcome, Verdict
from suite import Results
from table import amount_of, said

VERSION = (HERE / "VERSION").read_text(encoding="utf-8").strip()
NAMES = {Verdict.UNSUPPORTED: "cant"}
WIDTH = 118


def escaped(text: str) -> str:
    return html.escape(text, quote=True)


def name_of(verdict: Verdict) -> str:
    """A verdict's class in the style sheet."""
    return NAMES.get(verdict, verdict.value)


def page(results: Results) -> str:
    """The page."""
    style = (HERE / "page.css").read_text(encoding="utf-8")
    parts = [f'<style>\n{style}{"".join(rules(results))}</style>', *body(results)]
    lines = [line for part in parts for line in (part.splitlines() if part.startswith("<style>") else wrapped(part))]
    head = ['<!doctype html>', '<html lang="en">', '<meta charset="utf-8">',
            '<meta name="viewport" content="width=device-width, initial-scale=1">',
            '<title>Engines of the web of trust compared</title>']
    return "\n".join([*head, *lines, "</html>"]) + "\n"


def wrapped(text: str) -> list[str]:
    """A piece of the page in lines that a person can read: it is broken at spaces only."""
    return textwrap.wrap(text, WIDTH, break_long_words=False, break_on_hyphens=False)


def filters(results: Results) -> list[tuple[str, str, str]]:
    """What can be shown: an id, a label, and the class of the rows."""
    several = [("f-all", "all cases", ""), ("f-any", "an engine differs", "any"),
               ("f-opposite", "an engine decides the opposite", "opposite")]
    return several + [(f"f-{at}", f"{one.name} differs", f"e{at}") for at, one in enumerate(results.engines)]


def rules(results: Results) -> Iterator[str]:
    """The rules that make the filters work: rows without the class are hidden, and so are groups without such rows."""
    for name, _, shown in filters(results):
        if shown:
            yield (f"body:has(#{name}:checked) :is(.cases tbody tr:not(.{shown}), section.group:not(:has(.{shown})))\n"
                   "  { display: none; }\n")


def body(results: Results) -> Iterator[str]:
    yield "<h1>Engines of the web of trust compared</h1>"
    yield (f"<p>An engine of the web of trust says how confident one can be that a user ID belongs to an OpenPGP key, "
           f"given the keys that one trusts. This page shows how engines answer {len(results.cases)} cases, and where "
           f"they differ. The cases have real signatures. Each expected answer comes from the rules, and the case "
           f"quotes the sentence that decides it. Suite version {escaped(VERSION)}.</p>")
    yield "<h2>Engines</h2>"
    yield from report_parts.totals(results)
    yield ('<p class="soft">An engine can differ for good reasons: the rules leave much open, and each case says what '
           "they fix. A case that an engine has no way to be asked says nothing about the engine.</p>")
    yield from report_parts.by_group(results)
    yield from report_parts.reasons(results)
    yield from report_parts.mutations(results)
    yield '<h2 id="cases">Cases</h2>'
    yield from legend()
    yield '<fieldset class="filter"><legend>Show</legend>'
    for at, (name, label, _) in enumerate(filters(results)):
        checked = " checked" if at == 0 else ""
        yield f'<label><input type="radio" name="f" id="{name}"{checked}> {escaped(label)}</label>'
    yield "</fieldset>"
    for group, places in results.groups().items():
        yield f'<section class="group"><h3 id="g-{escaped(group)}">{escaped(report_parts.titled(group))}</h3>'
        yield from cases_table(results, places)
        yield "</section>"


def legend() -> Iterator[str]:
    yield "<p>An amount of 120 is full trust. Colours show how an answer compares with the expected one:"
    for verdict in (Verdict.SAME, Verdict.OTHER_AMOUNT, Verdict.DIFFERENT, Verdict.UNSUPPORTED, Verdict.FAILED):
        sign = {Verdict.UNSUPPORTED: "&ndash;", Verdict.FAILED: "!"}.get(verdict, "120")
        yield f'<span class="v {name_of(verdict)}">{sign}</span> {escaped(MEANINGS[verdict])};'
    yield ('<b>120+</b> is a level that means at least 120, and <b>1&ndash;119</b> one that means less. Open a case to '
           "see the sentence that decides it.</p>")


def cases_table(results: Results, places: list[int]) -> Iterator[str]:
    heads = "".join(f'<th class="n" scope="col">{escaped(engine.name)}</th>' for engine in results.engines)
    yield '<div class="wide"><table class="cases"><thead>'
    yield f'<tr><th scope="col">case</th><th class="n" scope="col">expected</th>{heads}</tr></thead><tbody>'
    for at in places:
        outcomes = [(engine, results.outcomes[engine.name][at]) for engine in results.engines]
        yield from case_row(results.cases[at], outcomes)
    yield "</tbody></table></div>"


def case_row(case: Case, outcomes: list[tuple[Engine, Outcome]]) -> Iterator[str]:
    classes = [f"e{at}" for at, (_, one) in enumerate(outcomes) if one.verdict.needs_reason]
    opposite = any(one.verdict in (Verdict.DIFFERENT, Verdict.FAILED) for _, one in outcomes)
    classes += ["any"] * bool(classes) + ["opposite"] * opposite
    yield f'<tr id="{escaped(anchor(case))}" class="{" ".join(classes)}">'
    yield f'<td><details><summary>{escaped(case.title)}</summary>'
    yield f'<p class="rule"><q>{escaped(case.sentence)}</q> &mdash; {escaped(case.source)};'
    yield f'{escaped(CLASSES[case.decided_by])}</p>'
    for choice in case.choices:
        yield f'<p class="rule">{choice.answer}: {escaped(choice.who)}. {escaped(choice.why)}</p>'
    yield f'<p class="name">{escaped(case.place)}</p></details>'
    for why, names in reasons_of(case, outcomes).items():
        yield f'<span class="why"><b>{escaped(", ".join(names))}</b>: {escaped(why)}</span>'
    of = "" if case.wanted == 120 else f'<br><span class="soft">of {case.wanted}</span>'
    yield f'</td><td class="n">{case.expected}{of}</td>'
    for _, one in outcomes:
        yield f'<td class="n"><span class="v {name_of(one.verdict)}">{shown(one)}</span></td>'
    yield "</tr>"


def reasons_of(case: Case, outcomes: list[tuple[Engine, Outcome]]) -> dict[str, list[str]]:
    """Why engines differ in a case, and which. The amounts are in their columns."""
    found: dict[str, list[str]] = {}
    for engine, one in outcomes:
        if one.verdict.needs_reason:
            is_in_column = one.verdict in (Verdict.OTHER_AMOUNT, Verdict.DIFFERENT)
            what = "" if is_in_column else f"{said(case, one)}. "
            found.setdefault(what + (one.why or "Nobody has said why."), []).append(engine.name)
    return found


def shown(outcome: Outcome) -> str:
    """An answer in a cell."""
    return {Verdict.UNSUPPORTED: "&ndash;", Verdict.FAILED: "!"}.get(
        outcome.verdict, amount_of(outcome.answer).replace("..", "&ndash;"))


def anchor(case: Case) -> str:
    return f"c-{case.group}-{case.name}"
