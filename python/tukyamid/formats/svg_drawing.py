"""The paths of an answer as inline SVG: a row for each path, its root at the left, the target at the right."""

from collections.abc import Iterator
from html import escape

from ..keyrings.assessment import Assessment, Certification, Report, ShownPath
from .phrases import MOST_DRAWN, count, cut, day, name

_DASHED = ' stroke-dasharray="6 4"'
_BOX, _HIGH, _GAP, _STEP, _MARGIN = 190, 46, 150, 92, 16


def draw(report: Report, one: Assessment) -> str:
    most = max(len(path.steps) for path in one.paths)
    width = 2 * _MARGIN + _BOX + most * (_BOX + _GAP)
    height = 2 * _MARGIN + _STEP * (len(one.paths) - 1) + 70
    parts = [f'<svg xmlns="http://www.w3.org/2000/svg" viewBox="0 0 {width} {height}" width="{width}" '
             f'height="{height}" role="img" font-family="sans-serif" font-size="11"><title>{_title(one)}</title>',
             '<defs><marker id="tip" viewBox="0 0 8 8" refX="7" refY="4" markerWidth="7" markerHeight="7" '
             'orient="auto"><path d="M0 0 8 4 0 8z" fill="#33658a"/></marker></defs>']
    for row, path in enumerate(one.paths):
        parts += _row(report, one, path, _MARGIN + row * _STEP, most)
    return "".join(parts) + "</svg>"


def _title(one: Assessment) -> str:
    return f"{count(len(one.paths), 'path')} to {escape(cut(one.user_id, MOST_DRAWN))}"


def _row(report: Report, one: Assessment, path: ShownPath, top: int, most: int) -> Iterator[str]:
    keys = [path.root, *(step.target for step in path.steps)]
    left = [_MARGIN + at * (_BOX + _GAP) for at in range(len(keys))]
    left[-1] = _MARGIN + most * (_BOX + _GAP)
    for place, fpr in enumerate(keys):
        is_root, is_target = place == 0, place == len(keys) - 1
        said = cut(path.steps[place - 1].user_id, MOST_DRAWN) if place else name(report, fpr)
        fill = "#fff3cd" if is_root else ("#d4edda" if one.reached else "#f8d7da") if is_target else "#ffffff"
        below = f"root, amount {report.roots[fpr]}" if is_root else f"{fpr[:8]} … {fpr[-8:]}"
        yield _box(left[place], top, fill, said, below, fpr)
    for place, step in enumerate(path.steps):
        yield _arrow(left[place] + _BOX, left[place + 1], top, step, f"path of amount {path.amount}")


def _box(x: int, y: int, fill: str, first: str, second: str, fpr: str) -> str:
    return (f'<g><title>{fpr}</title><rect x="{x}" y="{y}" width="{_BOX}" height="{_HIGH}" rx="7" fill="{fill}" '
            f'stroke="#5b6b7a"/><text x="{x + 9}" y="{y + 19}" fill="#1d2733">{escape(_cut(first))}</text>'
            f'<text x="{x + 9}" y="{y + 35}" fill="#5b6b7a">{escape(second)}</text></g>')


def _arrow(begin: int, end: int, top: int, step: Certification, path: str) -> str:
    y, middle = top + _HIGH // 2, (begin + end) // 2
    made, dashes = ("supposed", _DASHED) if step.supposed else (day(step.made), "")
    texts = ((y - 7, f"amount {step.amount}, depth {step.depth}"), (y + 15, made), (y + 29, path))
    labels = "".join(f'<text x="{middle}" y="{at}" text-anchor="middle" fill="#33658a">{text}</text>'
                     for at, text in texts)
    return (f'<g><title>signature {step.number or "not found"}</title><path d="M{begin} {y}H{end - 3}" '
            f'stroke="#33658a" stroke-width="1.6"{dashes} marker-end="url(#tip)"/>{labels}</g>')


def _cut(text: str, most: int = 29) -> str:
    return text if len(text) <= most else text[:most - 1] + "…"
