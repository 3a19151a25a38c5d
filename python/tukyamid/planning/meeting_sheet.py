"""The plan of a meeting as sheets to print, one for each person: HTML that loads nothing from anywhere."""

from __future__ import annotations

from html import escape
from typing import TYPE_CHECKING

from ..formats.phrases import count, cut, moment
from .meeting_text import grouped, note, said, steps_by

if TYPE_CHECKING:
    from .meeting import Meeting
    from .suppositions import Name

_CSS = """
body { font: 13px/1.45 system-ui, sans-serif; color: #1d2733; margin: 1.5rem auto; max-width: 60rem; padding: 0 1rem }
h1 { font-size: 1.4rem } h2 { font-size: 1.15rem; margin: 0 0 .3rem } .soft { color: #5b6b7a }
code { font: 1.05em ui-monospace, monospace; white-space: pre-wrap } section { margin: 2rem 0 }
table { border-collapse: collapse; width: 100% } th, td { text-align: left; vertical-align: top; padding: .35rem .5rem;
        border-bottom: 1px solid #d5dce3 } td.n { text-align: right } td.box { font-size: 1.3em }
@media print { body { margin: 0; max-width: none } section { break-before: page } tr { break-inside: avoid } }
"""


def show(meeting: Meeting, time: int, name: Name) -> str:
    """The sheets: the whole plan, and then a page for each person."""
    of_whom = "all" if meeting.depth else "those who come"
    parts = ["<!DOCTYPE html>", '<html lang="en"><head><meta charset="utf-8">',
             f"<title>Plan for a meeting</title><style>{_CSS}</style></head><body>", "<h1>Plan for a meeting</h1>",
             f'<p class="soft">As of {moment(time)}. Wanted amount {meeting.wanted}. Bindings of {of_whom} that reach '
             f"it: {meeting.before} now, {meeting.after} after {count(len(meeting.steps), 'certification')}.</p>",
             *([f"<p>{escape(text.capitalize())}.</p>"] if (text := note(meeting)) else []), _order(meeting, name),
             *(_sheet(meeting, fpr, name) for fpr in meeting.comers), "</body></html>"]
    return "\n".join(part for part in parts if part) + "\n"


def _name(text: str) -> str:
    """A text of others', which may be written from right to left."""
    return f"<bdi>{escape(text)}</bdi>"


def _order(meeting: Meeting, name: Name) -> str:
    total, rows = meeting.before, []
    for number, step in enumerate(meeting.steps, 1):
        total += len(step.gained)
        rows.append(f'<tr><td class="n">{number}</td><td>{_name(said(step, name))}</td>'
                    f'<td class="n">{len(step.gained)}</td><td class="n">{total}</td></tr>')
    if not rows:
        return ""
    heads = "".join(f'<th scope="col">{head}</th>' for head in ("step", "who certifies whom", "gains", "in all"))
    return f"<table><thead><tr>{heads}</tr></thead><tbody>{''.join(rows)}</tbody></table>"


def _sheet(meeting: Meeting, fpr: str, name: Name) -> str:
    """One person's page: what others compare, and whom the person certifies."""
    rows = "".join(
        f'<tr><td class="box">☐</td><td class="n">{number}</td><td>{_name(name(step.target))}<br>'
        f"<code>{grouped(step.target)}</code></td><td>"
        f"{'<br>'.join(_name(cut(one.user_id)) for one in step.certifications)}</td></tr>"
        for number, step in steps_by(meeting, fpr))
    heads = "".join(f'<th scope="col">{head}</th>' for head in ("done", "step", "compare", "user IDs"))
    table = f"<table><thead><tr>{heads}</tr></thead><tbody>{rows}</tbody></table>" if rows else (
        '<p class="soft">Certifies nobody by this plan.</p>')
    return (f"<section><h2>{_name(name(fpr))}</h2><p>Your fingerprint, for others to compare: "
            f"<code>{grouped(fpr)}</code></p>{table}</section>")
