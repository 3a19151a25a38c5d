"""JSON for programs: one object, with keys that stay."""

import json
from collections.abc import Iterable, Mapping
from typing import Any

from ..keyrings.assessment import Assessment, Certification, Other, Others, Report
from ..protocol.spelling import for_people, write_user_id
from .phrases import called, said_elsewhere, scopes


def show(report: Report) -> str:
    return json.dumps(as_object(report), indent=2, ensure_ascii=False) + "\n"


def as_object(report: Report) -> dict[str, Any]:
    return _report(report, [_assessment(one, list(map(_other, one.others))) for one in report.assessments])


class Written(str):
    """JSON that is written already."""


_compact = json.JSONEncoder(ensure_ascii=False, separators=(",", ":")).encode


def compact(fields: Mapping[str, Any]) -> str:
    """An object in one line, of whose fields some may be written already."""
    return "{" + ",".join(f"{_compact(name)}:{value if type(value) is Written else _compact(value)}"
                          for name, value in fields.items()) + "}"


def as_written(report: Report) -> dict[str, Any]:
    """As `as_object`, for `compact`: what is said about certifications is written once for each tuple of them."""
    return _report(report, _listed(compact(_assessment(one, _others(one))) for one in report.assessments))


def _others(one: Assessment) -> Written:
    kept = one.others if isinstance(one.others, Others) else Others(one.others)
    if kept.written is None:
        kept.written = _listed(_compact(_other(other)) for other in kept)
    return Written(kept.written)


def _listed(texts: Iterable[str]) -> Written:
    return Written(f"[{','.join(texts)}]")


def _report(report: Report, bindings: object) -> dict[str, Any]:
    return {
        "question": report.question,
        "reached": report.reached,
        "wanted": report.wanted,
        "time": report.time,
        "roots": [{"fingerprint": fpr, "amount": amount} for fpr, amount in report.roots.items()],
        "bindings": bindings,
        "notes": list(report.notes),
        "supposed": _supposed(report) if report.supposed else [],
    }


def _supposed(report: Report) -> list[dict[str, Any]]:
    from ..planning.supposition_forms import as_object as supposition
    return [supposition(one, lambda fpr: called(report, fpr)) for one in report.supposed]


def _assessment(one: Assessment, others: object) -> dict[str, Any]:
    return {
        "fingerprint": one.fpr,
        "user_id": for_people(one.user_id),
        "user_id_spelled": write_user_id(one.user_id),
        "amount": one.amount,
        "reached": one.reached,
        "target": one.word,
        "expired_elsewhere": None if one.expired is None else {
            "programs": list(one.expired.programs), "since": one.expired.since, "meaning": said_elsewhere(one.expired)},
        "reasons_by": "engine",  # Keys of this form stay, also one that has a single value.
        "paths": [{"amount": path.amount, "root": path.root, "steps": [_certification(step) for step in path.steps]}
                  for path in one.paths],
        "others": others,
    }


def _other(other: Other) -> dict[str, Any]:
    return {**_certification(other.certification), "word": other.word, "meaning": other.meaning}


def _certification(one: Certification) -> dict[str, Any]:
    return {
        "issuer": one.issuer, "target": one.target,
        "user_id": for_people(one.user_id), "user_id_spelled": write_user_id(one.user_id),
        "depth": one.depth, "amount": one.amount, "signature": one.number,
        "made": one.made, "ends": one.ends, "scopes": scopes(one),
        "supposed": one.supposed,
    }
