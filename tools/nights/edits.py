"""Every wrong change of tests/edits and of the crates' must-fail folders: the prover must refuse it.

Edits of different functions of a crate are tried in one check of these functions alone. A refusal counts if the check
doesn't prove the edited function and names a place in it. What a shared check leaves open is tried alone, and then over
the whole crate, before it counts as not refused. The checks of a crate are made one after another, since each keeps
what the next doesn't have to check again.
"""

import re
import tempfile
from collections import defaultdict
from concurrent.futures import ThreadPoolExecutor
from dataclasses import dataclass
from pathlib import Path

from checks.edits import applied, written
from checks.finding import CannotRun
from checks.tree import Tree

from .functions import Function, changed_function
from .night import FAILED, PASSED, SKIPPED, Night, Part
from .rattle import Kit, verdicts

BATCH = 6
GONE = re.compile(r"has no field|is not in scope|was not admitted")


@dataclass(frozen=True)
class Edit:
    """A wrong change: where it is written, its crate, the changed texts and the function, if it is one."""

    place: str
    crate: str
    texts: dict[str, str]
    function: Function | None


def read(night: Night) -> tuple[list[Edit], list[str]]:
    """All edits, and those that can't be applied."""
    tree, found, bad = Tree(night.root), [], []
    for edit in written(tree):
        folder = night.root / "crates" / edit.crate
        texts, wrong = applied(edit.text, folder)
        if wrong:
            bad.append(f"{edit.place}: {wrong}")
        else:
            found.append(Edit(edit.place, edit.crate, texts, changed_function(edit.text, folder)))
    return found, bad


Batch = list[Edit]


def batches(edits: list[Edit]) -> dict[str, list[Batch]]:
    """For each crate its edits of different functions in different files, and each that changes more alone."""
    made: dict[str, list[Batch]] = defaultdict(list)
    for edit in edits:
        places = {*edit.texts}
        for batch in made[edit.crate]:
            taken = {path for other in batch for path in other.texts}
            if edit.function and len(batch) < BATCH and all(other.function for other in batch) and not places & taken:
                batch.append(edit)
                break
        else:
            made[edit.crate].append([edit])
    return made


def says(output: str, edit: Edit) -> str:
    """What a check says of an edit: 'refused', 'proved', or the empty text if that stays open."""
    assert edit.function
    name = edit.function.path
    told = [what for function, what in verdicts(output).items() if function.endswith("::" + name)]
    if not told:
        return ""
    if all(what == "proved" for what in told):
        return "proved"
    places = re.findall(re.escape(edit.function.file) + r":(\d+):\d+: (.*)", output)
    inside = [said for line, said in places if edit.function.first <= int(line) <= edit.function.last]
    folder = "proofs/" + name.replace("::", "/") + "/"
    inside += [line for line in output.splitlines() if folder in line and "error" in line]
    return "refused" if any(not GONE.search(said) for said in inside) else ""


def tried_alone(kit: Kit, edit: Edit, kept: Path) -> str:
    """What comes of one edit: first its function, then the whole crate. The empty text if it was refused."""
    if edit.function:
        _, output = kit.check(edit.crate, edit.texts, [edit.function.path], kept)
        if says(output, edit) == "refused":
            return ""
    status, output = kit.check(edit.crate, edit.texts, [], kept)
    if status == 1 and "logic=not-proved" in output:
        return ""
    if status == 0:
        return f"{edit.place}: NOT REFUSED: the crate is still proved with it"
    lines = [line for line in output.splitlines() if line.strip()]
    said = next((line for line in lines if "error" in line), lines[-1] if lines else "")
    return f"{edit.place}: no verdict (status {status}): {said:.300}"


def tried(kit: Kit, batch: Batch, kept: Path) -> list[str]:
    """Tries a batch; what is wrong with each of its edits that wasn't refused."""
    left = batch
    if len(batch) > 1:
        texts = {path: text for edit in batch for path, text in edit.texts.items()}
        _, output = kit.check(batch[0].crate, texts, [edit.function.path for edit in batch if edit.function], kept)
        left = [edit for edit in batch if says(output, edit) != "refused"]
    return [wrong for wrong in (tried_alone(kit, edit, kept) for edit in left) if wrong]


def tried_in_turn(kit: Kit, of_crate: list[Batch]) -> list[str]:
    """Tries the batches of one crate; what is wrong with each edit that wasn't refused."""
    with tempfile.TemporaryDirectory(prefix="wot-kept-") as kept:
        return [wrong for batch in of_crate for wrong in tried(kit, batch, Path(kept))]


def edits(night: Night) -> Part:
    """Every edit is refused."""
    try:
        kit = Kit.of(night.root, night.libraries)
    except CannotRun as error:
        return Part("edits", SKIPPED, str(error))
    found, wrong = read(night)
    if night.is_short:
        small = [edit for edit in found if not kit.below(edit.crate) and edit.function]
        found = night.drawn("edits").sample(small, min(4, len(small)))
    # Crates with many checks begin first, so that the last ones to end are short.
    work = sorted(batches(found).values(), key=len, reverse=True)
    with ThreadPoolExecutor(night.jobs) as pool:
        for lines in pool.map(lambda of_crate: tried_in_turn(kit, of_crate), work):
            wrong += lines
    count = sum(map(len, work))
    summary = f"{len(found)} edits in {count} checks: {len(found) - len(wrong)} refused, {len(wrong)} not"
    return Part("edits", FAILED if wrong else PASSED, summary, wrong)
