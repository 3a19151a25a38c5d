"""Plans for a meeting: a list for each person, for people and for programs."""

from __future__ import annotations

from typing import TYPE_CHECKING, Any

from ..formats.phrases import count, cut
from ..protocol.spelling import for_people, write_user_id

if TYPE_CHECKING:
    from collections.abc import Iterator

    from .meeting import Meeting, Step
    from .suppositions import Name


def as_object(meeting: Meeting, name: Name) -> dict[str, Any]:
    """A plan as JSON has it."""
    total, steps = meeting.before, []
    for step in meeting.steps:
        total += len(step.gained)
        steps.append({
            "issuer": step.issuer, "target": step.target, "said": said(step, name),
            "user_ids": [write_user_id(one.user_id) for one in step.certifications], "depth": meeting.depth,
            "amount": step.certifications[0].amount, "gain": len(step.gained), "total": total,
            "gained": [{"fingerprint": fpr, "user_id": for_people(user_id), "user_id_spelled": write_user_id(user_id)}
                       for fpr, user_id in step.gained]})
    return {"wanted": meeting.wanted, "depth": meeting.depth, "before": meeting.before, "after": meeting.after,
            "comers": list(meeting.comers), "missing": list(meeting.missing),
            "steps": steps, "note": note(meeting)}


def said(step: Step, name: Name) -> str:
    return f"{name(step.issuer)} certifies {name(step.target)}"


def note(meeting: Meeting) -> str | None:
    """Why there is nothing to do; None if there is."""
    if meeting.steps:
        return None
    return ("no certification among those who come gains anything; what they certify counts only as far as they are "
            "roots or introducers here")


def grouped(fpr: str) -> str:
    """A fingerprint as people compare it.

    >>> grouped("8bb8574fecda267656835bc65cfa7d5c6b7e3ef1")
    '8BB8 574F ECDA 2676 5683  5BC6 5CFA 7D5C 6B7E 3EF1'
    """
    parts = [fpr[at:at + 4].upper() for at in range(0, len(fpr), 4)]
    middle = len(parts) // 2
    return " ".join(parts[:middle]) + "  " + " ".join(parts[middle:])


def as_text(meeting: Meeting, name: Name) -> str:
    """The plan for people: in its order, and then for each person."""
    of_whom = "all" if meeting.depth else "those who come"
    people = "1 person" if len(meeting.comers) == 1 else f"{len(meeting.comers)} people"
    lines = [f"{people}; wanted amount {meeting.wanted}",
             f"bindings of {of_whom} that reach it: {meeting.before} now, {meeting.after} after "
             f"{count(len(meeting.steps), 'certification')}", ""]
    total = meeting.before
    for number, step in enumerate(meeting.steps, 1):
        total += len(step.gained)
        lines.append(f"{number:4}. {said(step, name)}: {len(step.gained)} more, {total} in all")
    for fpr in meeting.comers:
        lines += _person(meeting, fpr, name)
    lines += [f"note: this key isn't in the keyring: {fpr}" for fpr in meeting.missing]
    text = note(meeting)
    return "\n".join(lines + ([f"note: {text}"] if text is not None else [])) + "\n"


def steps_by(meeting: Meeting, fpr: str) -> list[tuple[int, Step]]:
    """The steps of a person, with their numbers."""
    return [(number, step) for number, step in enumerate(meeting.steps, 1) if step.issuer == fpr]


def _person(meeting: Meeting, fpr: str, name: Name) -> Iterator[str]:
    own = steps_by(meeting, fpr)
    if not own:
        return
    yield ""
    yield f"{name(fpr)} certifies, after comparing:"
    for number, step in own:
        yield f"  [ ] {number:3}. {grouped(step.target)}"
        yield from (f"           {cut(one.user_id)}" for one in step.certifications)
