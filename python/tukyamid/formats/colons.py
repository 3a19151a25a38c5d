"""Lines of fields for programs, a colon between two fields; the first field is the kind of line. The form is stable:
later versions may add kinds of lines, and fields at the end of a line.

| kind | fields behind it |
|---|---|
| `tkd` | version of the form (1), question, wanted amount, time, `yes` or `no`: whether it is reached; `supposed` |
| `sup` | what is supposed, in words: then nothing that follows is so |
| `rot` | root, amount |
| `bnd` | fingerprint, user ID, amount, `yes` or `no`, word of the target |
| `exp` | since when another program treats the key as expired, and the names of these programs |
| `pth` | number of the path, amount, count of steps, root |
| `stp` | number of the path, number of the step, issuer, target, depth, amount, made, ends, signature, user ID |
| `oth` | word, issuer, target, depth, amount, made, ends, signature, user ID |
| `nte` | a note for people |

The lines of a binding follow its `bnd`. An unknown field is empty. In a field, all but printed ASCII, and the backslash
and the colon, are spelled as `\\xhh`.
"""

from __future__ import annotations

from ..fast_imports import TYPE_CHECKING
from ..keyrings.assessment import Assessment, Certification, Report
from .phrases import supposed

if TYPE_CHECKING:
    from collections.abc import Iterable, Iterator

Field = str | bytes | int | None
Line = tuple[Field, ...]


def show(report: Report) -> str:
    lines: list[Line] = [("tkd", 1, report.question, report.wanted, report.time, _yes(report.reached),
                          *(["supposed"] if report.supposed else []))]
    lines += [("sup", said) for said in supposed(report)]
    lines += [("rot", fpr, amount) for fpr, amount in report.roots.items()]
    lines += [line for one in report.assessments for line in _binding(one)]
    lines += [("nte", note) for note in report.notes]
    return written(lines)


def written(lines: Iterable[Line]) -> str:
    """Lines of fields as text."""
    return "".join(":".join(map(_field, line)) + "\n" for line in lines)


def _binding(one: Assessment) -> Iterator[Line]:
    yield "bnd", one.fpr, one.user_id, one.amount, _yes(one.reached), one.word
    if one.expired is not None:
        yield _line("exp", one.expired.since, *one.expired.programs)
    for at, path in enumerate(one.paths, 1):
        yield "pth", at, path.amount, len(path.steps), path.root
        for place, step in enumerate(path.steps, 1):
            yield _line("stp", at, place, *_certification(step))
    for other in one.others:
        yield _line("oth", other.word, *_certification(other.certification))


def _line(*fields: Field) -> Line:
    return fields


def _yes(value: bool) -> str:
    return "yes" if value else "no"


def _certification(one: Certification) -> Line:
    return (one.issuer, one.target, one.depth, one.amount, one.made, one.ends, one.number, one.user_id,
            *(["supposed"] if one.supposed else []))


def _field(value: Field) -> str:
    if value is None:
        return ""
    octets = value if isinstance(value, bytes) else str(value).encode("utf-8", "surrogateescape")
    return "".join(chr(o) if 0x20 <= o < 0x7F and o not in b"\\:" else f"\\x{o:02x}" for o in octets)
