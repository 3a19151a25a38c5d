"""One self-contained page for an auditor: the paths drawn, each certification, and why others don't count."""

from collections.abc import Iterable, Sequence
from html import escape

from ..keyrings.assessment import Assessment, Certification, Report
from ..protocol.spelling import for_people
from .phrases import count, day, moment, name, no_path, result, said_elsewhere, scopes, supposed
from .svg_drawing import draw

Cell = str | int
Row = tuple[Cell, ...]

_CSS = """
:root { --ink: #1d2733; --soft: #5b6b7a; --line: #d5dce3; --paper: #fff; --panel: #f6f8fa;
        --yes: #1b7f3b; --no: #b3261e; }
body { font: 15px/1.5 system-ui, sans-serif; color: var(--ink); background: var(--paper); margin: 2rem auto;
       max-width: 1200px; padding: 0 1rem; }
h1 { font-size: 1.5rem; margin: 0 0 .3rem } h2 { font-size: 1.2rem; margin: 2.2rem 0 .2rem } h3 { font-size: 1rem }
code { font: .85em ui-monospace, monospace; overflow-wrap: anywhere }
.soft { color: var(--soft) } .yes { color: var(--yes); font-weight: 600 } .no { color: var(--no); font-weight: 600 }
.meter { height: .5rem; max-width: 24rem; background: var(--line); border-radius: 9px; overflow: hidden;
         margin: .4rem 0 }
.meter div { height: 100% } .meter .yes { background: var(--yes) } .meter .no { background: var(--no) }
table { border-collapse: collapse; width: 100%; margin: .6rem 0 1.4rem; font-size: .88rem }
th, td { text-align: left; vertical-align: top; padding: .4rem .5rem; border-bottom: 1px solid var(--line) }
table.few { width: auto }
th { color: var(--soft); font-weight: 600 } td.n { text-align: right } time { white-space: nowrap }
figure { margin: .6rem 0; overflow-x: auto; background: var(--panel); border: 1px solid var(--line);
         border-radius: 8px }
@media print { body { margin: 0; max-width: none } }
"""


def show(report: Report) -> str:
    outcome = '<span class="yes">reached</span>' if report.reached else '<span class="no">not reached</span>'
    listed = [one for one in report.assessments if one.brief]
    parts = [
        "<!DOCTYPE html>", '<html lang="en"><head><meta charset="utf-8">',
        '<meta name="viewport" content="width=device-width, initial-scale=1">',
        f"<title>Tukyamid: {escape(report.question)}</title><style>{_CSS}</style></head><body>",
        f"<h1>{escape(report.question.capitalize())}: amount {report.wanted} {outcome}</h1>",
        f'<p class="soft">As of {moment(report.time)}.</p>',
        *(f'<p class="no">Supposed: {_name(said)}.</p>' for said in supposed(report)), _roots(report),
        *([_list(listed)] if listed else []),
        *(_binding(report, one) for one in report.assessments if not one.brief),
        *(["<p>Nothing was found.</p>"] if not report.assessments else []),
        *(f'<p class="soft">Note: {escape(note)}</p>' for note in report.notes), "</body></html>",
    ]
    return "\n".join(parts) + "\n"


def _name(text: str) -> str:
    """A text of others', which may be written from right to left, and mustn't change the direction of its
    neighbours."""
    return f"<bdi>{escape(text)}</bdi>" if text else ""


def _roots(report: Report) -> str:
    rows = [(_key(report, fpr), amount) for fpr, amount in report.roots.items()]
    return _table("Trust roots", ("key", "amount"), rows, "few") if rows else ""


def _list(listed: list[Assessment]) -> str:
    rows = [(one.amount, _name(for_people(one.user_id)), f"<code>{one.fpr}</code>", _elsewhere(one)) for one in listed]
    return _table(count(len(listed), "binding").capitalize(), ("amount", "user ID", "key", "note"), rows)


def _elsewhere(one: Assessment) -> str:
    return "" if one.expired is None else f'<span class="no">{escape(said_elsewhere(one.expired))}.</span>'


def _binding(report: Report, one: Assessment) -> str:
    kind = "yes" if one.reached else "no"
    why = no_path(one)
    parts = [
        f"<section><h2>{_name(for_people(one.user_id))}</h2><code>{one.fpr}</code>",
        f'<p>Amount {one.amount} of {one.wanted} ({one.percent}%): <span class="{kind}">{result(one)}</span></p>',
        f'<div class="meter"><div class="{kind}" style="width: {min(100, one.percent)}%"></div></div>',
        *([f"<p>{_elsewhere(one)}</p>"] if one.expired is not None else []),
        *([f'<p class="no">{escape(why[:1].upper() + why[1:])}.</p>'] if why is not None else []),
    ]
    if one.paths:
        parts += [f"<figure>{draw(report, one)}</figure>", _steps(report, one)]
    if one.others:
        parts.append(_others(report, one))
    return "\n".join(parts) + "</section>"


def _steps(report: Report, one: Assessment) -> str:
    head = ("path", "step", "issuer", "target", "amount", "depth", "made", "ends", "scope", "signature")
    rows = [_row(f"{at} (amount {path.amount})", place, _key(report, step.issuer), _target(step), *_facts(step))
            for at, path in enumerate(one.paths, 1) for place, step in enumerate(path.steps, 1)]
    return _table(count(len(one.paths), "path").capitalize(), head, rows)


def _others(report: Report, one: Assessment) -> str:
    head = ("why", "issuer", "amount", "depth", "made", "ends", "scope", "signature")
    rows = [_row(f"<b>{other.word}</b>: {escape(other.meaning)}", _key(report, other.certification.issuer),
                 *_facts(other.certification)) for other in one.others]
    where = "on this user ID" if report.question == "explain" else "on no path"
    return _table(f"Certifications {where}", head, rows) + '<p class="soft">Reasons by the engine.</p>'


def _facts(step: Certification) -> Row:
    ends = "never" if step.ends is None else f"<time>{day(step.ends)}</time>"
    scope = "<br>".join(map(_name, scopes(step))) or "all"
    made = "supposed" if step.supposed else f"<time>{day(step.made)}</time>"
    return (step.amount, step.depth, made, ends, scope,
            f"<code>{step.number or 'not found'}</code>")


def _key(report: Report, fpr: str | None) -> str:
    if fpr is None:
        return "not named"
    return f"{_name(name(report, fpr))}<br><code>{fpr}</code>"


def _target(step: Certification) -> str:
    return f"{_name(for_people(step.user_id))}<br><code>{step.target}</code>"


def _row(*cells: Cell) -> Row:
    return cells


def _table(title: str, head: Sequence[str], rows: Iterable[Row], size: str = "whole") -> str:
    """A table of cells that are HTML already; a number is aligned to the right."""
    heads = "".join(f'<th scope="col">{word}</th>' for word in head)
    body = "".join("<tr>" + "".join(f'<td class="n">{cell}</td>' if isinstance(cell, int) else f"<td>{cell}</td>"
                                    for cell in row) + "</tr>" for row in rows)
    return (f'<h3>{title}</h3><table class="{size}"><thead><tr>{heads}</tr></thead>'
            f"<tbody>{body}</tbody></table>")
