"""What is fragile, as tables: for people, for programs, and for the page."""

from __future__ import annotations

from typing import TYPE_CHECKING, Any

from ..formats.phrases import count, cut, day
from ..protocol.spelling import for_people, write_user_id
from .supposition_forms import as_object as supposition

if TYPE_CHECKING:
    from collections.abc import Iterable, Sequence

    from .fragile import Carrier, Fall, Fragile
    from .suppositions import Name

    Table = dict[str, Any]

MOST_ROWS, MOST_NAMED = 500, 3


def tables(found: Fragile, name: Name) -> list[Table]:
    """The tables, in the form of the overview's."""
    keys = [(name(one.fpr), len(one.bindings), _which(one.bindings), _safer(one, name), one.fpr) for one in found.keys]
    made = [(name(one.fpr), for_people(one.edge[2]), len(one.bindings), _which(one.bindings), _safer(one, name),
             one.edge[1]) for one in found.certifications if one.edge is not None]
    falls = [(day(one.time), _ending(one, name), len(one.bindings), _which(one.bindings)) for one in found.falls]
    own = f" Another {count(found.own, 'binding')} rest on a root's own certification." if found.own else ""
    return [
        _table("keys", "Keys that bindings rest on alone", f"Without the key, as many of the {found.reached} bindings "
               f"would fall below {found.wanted}.", ("user ID", "bindings", "which", "safer with", "key"), keys,
               [_as_objects(one, name) for one in found.keys]),
        _table("certifications", "Certifications that bindings rest on alone",
               f"Without the certification, as many bindings would fall below {found.wanted}.{own}",
               ("by", "of", "bindings", "which", "safer with", "key"), made,
               [_as_objects(one, name) for one in found.certifications]),
        _table("falls", f"What falls within {count(found.days, 'day')}", "Bindings that fall when a key or a "
               "certification ends, unless somebody makes a new one.", ("day", "what ends", "bindings", "which"),
               falls),
    ]


def _table(name: str, title: str, about: str, columns: Iterable[str], rows: Sequence[tuple[object, ...]],
           safer: Sequence[dict[str, Any] | None] = ()) -> Table:
    return {"name": f"fragile-{name}", "title": title, "about": about, "columns": list(columns),
            "rows": [list(row) for row in rows[:MOST_ROWS]], "count": len(rows), "safer": list(safer[:MOST_ROWS])}


def _as_objects(one: Carrier, name: Name) -> dict[str, Any] | None:
    """What to suppose, and what to leave out, so that the first of the bindings shows that it is safe then."""
    if one.safer is None:
        return None
    fpr, user_id = one.safer.first
    return {"suppose": supposition(one.safer.certification, name),
            "without": [{"signature": number} for number in one.numbers] or [{"key": one.fpr}],
            "binding": {"fingerprint": fpr, "spelled": write_user_id(user_id), "user_id": for_people(user_id)}}


def _which(bindings: tuple[tuple[str, bytes], ...]) -> str:
    named = ", ".join(cut(user_id, 60) for _, user_id in bindings[:MOST_NAMED])
    return named if len(bindings) <= MOST_NAMED else f"{named} and {len(bindings) - MOST_NAMED} more"


def _safer(one: Carrier, name: Name) -> str:
    """The one certification that makes most of it safe."""
    if one.safer is None:
        return ""
    saved = "all" if one.safer.count == len(one.bindings) else f"{one.safer.count} of {len(one.bindings)}"
    return f"{one.safer.certification.said(name)}: {saved}"


def _ending(one: Fall, name: Name) -> str:
    said = "; ".join(each.said(name) for each in one.ending[:MOST_NAMED])
    return said if len(one.ending) <= MOST_NAMED else f"{said}; and {len(one.ending) - MOST_NAMED} more"


def as_text(found: Fragile, name: Name) -> str:
    """The tables for people."""
    lines = [f"{count(found.reached, 'binding')} reach {found.wanted}"]
    for table in tables(found, name):
        lines += ["", f"{table['title']} ({table['count']})", f"  {table['about']}"]
        lines += [f"  {_row(table['columns'], row)}" for row in table["rows"][:20]]
        lines += [f"  and {table['count'] - 20} more: --format json has all"] if table["count"] > 20 else []
    return "\n".join(lines) + "\n"


def _row(columns: list[str], row: list[object]) -> str:
    """A row as people read it: what the carrier is, how many bindings, which, and what would make them safe."""
    cells = dict(zip(columns, row))
    head = " - ".join(str(cells[column]) for column in ("day", "what ends", "user ID", "by", "of") if column in cells)
    safer = f"; safer with: {cells['safer with']}" if cells.get("safer with") else ""
    return f"{head}: {cells['bindings']} ({cells['which']}){safer}"
