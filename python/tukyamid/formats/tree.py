"""A tree for people."""

from ..keyrings.assessment import Assessment, Other, Report, ShownPath
from .phrases import count, cut, dates, moment, name, no_path, result, said_elsewhere, scopes, supposed

MOST_OTHERS = 8  # More than these are counted by their reasons.
_GREEN, _RED, _BOLD, _RESET = "\x1b[32m", "\x1b[31m", "\x1b[1m", "\x1b[0m"


class Tree:
    """Shows reports as trees, in colour or without."""

    def __init__(self, colour: bool = False) -> None:
        self._colour = colour

    def show(self, report: Report) -> str:
        roots = f"{count(len(report.roots), 'root')}; " if report.roots else ""
        lines = [f"as of {moment(report.time)}; {roots}wanted amount {report.wanted}",
                 *(f"supposed: {said}" for said in supposed(report)), ""]
        for one in report.assessments:
            lines += self._brief(one) if one.brief else [*self._whole(report, one), ""]
        if not report.assessments:
            lines.append("nothing was found")
        lines += [f"note: {note}" for note in report.notes]
        return "\n".join(lines).rstrip("\n") + "\n"

    def _painted(self, text: str, colour: str) -> str:
        return f"{colour}{text}{_RESET}" if self._colour else text

    def _brief(self, one: Assessment) -> list[str]:
        amount = f"{one.amount:4}" if one.reached else self._painted("   ✗", _RED)
        lines = [f"{amount} {one.fpr} {cut(one.user_id)}"]
        if not one.reached:
            lines.append("     " + self._painted(result(one), _RED))
        if one.expired is not None:
            lines.append("     " + self._painted(said_elsewhere(one.expired), _RED))
        return lines

    def _whole(self, report: Report, one: Assessment) -> list[str]:
        colour = _GREEN if one.reached else _RED
        mark = self._painted("✓" if one.reached else "✗", colour)
        head = [f"[{mark}] {self._painted(cut(one.user_id), _BOLD)}", f"    {one.fpr}",
                f"    amount {one.amount} of {one.wanted} ({one.percent}%): {self._painted(result(one), colour)}"]
        branches = [[self._painted(said_elsewhere(one.expired), _RED)]] if one.expired is not None else []
        why = no_path(one)
        branches += [[why]] if why is not None and not one.paths else []
        branches += [_path(report, place, path) for place, path in enumerate(one.paths, 1)]
        if one.others:
            branches.append(_others(report, one))
        return head + ["    " + line for line in _hang(branches)]


def _hang(branches: list[list[str]]) -> list[str]:
    lines = []
    for place, branch in enumerate(branches, 1):
        first, rest = ("└─ ", "   ") if place == len(branches) else ("├─ ", "│  ")
        lines += [(rest if at else first) + line for at, line in enumerate(branch)]
    return lines


def _path(report: Report, place: int, path: ShownPath) -> list[str]:
    lines = [f"path {place}: amount {path.amount}, {count(len(path.steps), 'step')}",
             f"{path.root} {name(report, path.root)} (root, amount {report.roots[path.root]})"]
    for at, step in enumerate(path.steps):
        indent = "   " * at
        scope = "".join(f", for {pattern}" for pattern in scopes(step))
        lines.append(f"{indent}└─ certified with amount {step.amount}, depth {step.depth}, {dates(step)}{scope}")
        lines.append(f"{indent}   {step.target} {cut(step.user_id)}")
    return lines


def _others(report: Report, one: Assessment) -> list[str]:
    where = "on this user ID" if report.question == "explain" else "on no path"
    lines = [f"{where}: {count(len(one.others), 'certification')}"]
    if report.question == "explain" or len(one.others) <= MOST_OTHERS:
        return lines + _hang([_other(report, other) for other in one.others])
    alike: dict[str, int] = {}
    for other in one.others:
        alike[f"{other.word}: {other.meaning}"] = alike.get(f"{other.word}: {other.meaning}", 0) + 1
    said = [[f"{times} {what}"] for what, times in sorted(alike.items(), key=lambda item: -item[1])]
    return lines + _hang([*said, ["use `explain` to see each of them"]])


def _other(report: Report, other: Other) -> list[str]:
    who = other.certification.issuer or "an issuer that isn't named"
    known = name(report, who)
    return [f"by {who}{' ' + known if known else ''}, {dates(other.certification)}", f"{other.word}: {other.meaning}"]
