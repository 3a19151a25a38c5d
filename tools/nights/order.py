"""The parts of a night, and which of them run side by side."""

from collections.abc import Callable
from concurrent.futures import ThreadPoolExecutor

from .beside_model import mutants, scripts
from .benches import benches
from .cluster import cluster
from .edits import edits
from .fuzz import fuzz
from .interop import interop
from .injected import injected
from .memory import memory
from .night import Part, PartOf
from .planted import planted
from .readers import readers
from .service import service
from .slices import slices
from .suites import checks, gate, suites

# One step after another. The gate makes the programs for the others, and beside a bench nothing else may run.
STEPS: list[list[PartOf]] = [
    [gate], [checks],
    [suites, edits, planted, scripts, mutants, slices, interop, cluster, readers, fuzz, service, injected, memory],
    [benches],
]
PARTS: dict[str, PartOf] = {part.__name__: part for step in STEPS for part in step}


def steps_of(names: list[str], has_programs: bool) -> list[list[str]]:
    """The named parts in order, those together that run side by side. If there are programs, nothing waits for those of
    the gate, which takes the longest."""
    gates, checked, beside, alone = ([part.__name__ for part in step if part.__name__ in names] for step in STEPS)
    steps = [checked, [*gates, *beside], alone] if has_programs else [gates, checked, beside, alone]
    return [step for step in steps if step]


def side_by_side(names: list[str], run: Callable[[str], Part]) -> list[Part]:
    """Runs these parts at the same time."""
    with ThreadPoolExecutor(len(names)) as pool:
        return list(pool.map(run, names))
