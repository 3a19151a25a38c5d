"""A picture of the paths for Graphviz: `tukyamid --format dot .. | dot -Tsvg`."""

from ..keyrings.assessment import Assessment, Certification, Report
from .phrases import MOST_DRAWN, cut, day, name, supposed

_STYLE = """  rankdir=LR;
  node [shape=box, style="rounded,filled", fillcolor="#f4f6f8", color="#5b6b7a", fontname="sans-serif", fontsize=11];
  edge [color="#33658a", fontname="sans-serif", fontsize=10];
"""


def show(report: Report) -> str:
    return "digraph paths {\n" + _STYLE + _title(report) + "\n".join([*_nodes(report), *_edges(report)]) + "\n}\n"


def _title(report: Report) -> str:
    """What is supposed, above the picture."""
    said = "\n".join(f"supposed: {one}" for one in supposed(report))
    return f'  labelloc=t; fontname="sans-serif"; label={_quoted(said)};\n' if said else ""


def _targets(report: Report) -> dict[str, list[Assessment]]:
    """The answers of each key."""
    targets: dict[str, list[Assessment]] = {}
    for one in report.assessments:
        targets.setdefault(one.fpr, []).append(one)
    return targets


def _nodes(report: Report) -> list[str]:
    """A node for each root, each key on a path, and each key that was asked about, with all its user IDs."""
    targets = _targets(report)
    on_paths = [fpr for one in report.assessments for path in one.paths
                for fpr in (path.root, *(step.target for step in path.steps))]
    nodes = []
    for fpr in dict.fromkeys([*report.roots, *on_paths, *targets]):
        parts = [part for one in targets.get(fpr, ()) for part in _answer(one)] or [name(report, fpr, MOST_DRAWN)]
        root = [f"root, amount {report.roots[fpr]}"] if fpr in report.roots else []
        label = "\n".join(part for part in (*parts, _short(fpr), *root) if part)
        nodes.append(f"  {_quoted(fpr)} [label={_quoted(label)}{_fill(report, targets, fpr)}];")
    return nodes


def _answer(one: Assessment) -> list[str]:
    parts = [cut(one.user_id, MOST_DRAWN), f"amount {one.amount} of {one.wanted}"]
    return parts if one.expired is None else [*parts, f"expired for {one.expired.who} since {day(one.expired.since)}"]


def _edges(report: Report) -> list[str]:
    """An edge for each certification that is on a path, with the amounts of these paths."""
    several = {fpr for fpr, answers in _targets(report).items() if len(answers) > 1}
    used: dict[Certification, list[int]] = {}
    for one in report.assessments:
        for path in one.paths:
            for step in path.steps:
                used.setdefault(step, []).append(path.amount)
    return [f"  {_quoted(step.issuer or '')} -> {_quoted(step.target)} "
            f"[label={_quoted(_said(step, step.target in several, amounts))}"
            f"{', style=dashed' if step.supposed else ''}];" for step, amounts in used.items()]


def _said(step: Certification, named: bool, amounts: list[int]) -> str:
    """The label of an edge; it names the user ID if the key has several that were asked about."""
    parts = [f"amount {step.amount}, depth {step.depth}", "supposed" if step.supposed else day(step.made),
             f"path of amount {', '.join(map(str, amounts))}"]
    return "\n".join([cut(step.user_id, MOST_DRAWN), *parts] if named else parts)


def _short(fpr: str) -> str:
    return f"{fpr[:8]} … {fpr[-8:]}"


def _fill(report: Report, targets: dict[str, list[Assessment]], fpr: str) -> str:
    if fpr in report.roots:
        return ', fillcolor="#fff3cd"'
    if fpr in targets:
        return ', fillcolor="#d4edda"' if any(one.reached for one in targets[fpr]) else ', fillcolor="#f8d7da"'
    return ""


def _quoted(text: str) -> str:
    """A quoted text. Graphviz reads entities in it, as in HTML, and sequences that begin with a backslash."""
    for character, spelled in ("\\", "\\\\"), ('"', '\\"'), ("&", "&amp;"), ("\n", "\\n"):
        text = text.replace(character, spelled)
    return f'"{text}"'
