"""The question `path`: is there a path along these certificates, and if not, which step breaks it and why?"""

from __future__ import annotations

from ..fast_imports import TYPE_CHECKING
from ..keyrings.assessment import assess
from ..keyrings.chain import Chain
from .exit_statuses import WrongWords
from .key_names import resolve
from .questions import Found, UserIds, key_of

if TYPE_CHECKING:
    from ..keyrings.keyring import View
    from .parsed_words import Given
    from .questions import Ask


def read_path(given: Given) -> Ask:
    if len(given.words) < 2:
        raise WrongWords("path takes: KEY.. USERID")
    keys, user_ids = [key_of(word) for word in given.words[:-1]], UserIds(given, given.words[-1])

    def ask(view: View) -> Found:
        fprs = [resolve(view.keyring, key) for key in keys]
        if len(set(fprs)) < len(fprs):
            raise WrongWords("a path goes through each certificate once, and one is given twice")
        roots = {resolve(view.keyring, key): amount for key, amount in given.root}
        root = {fprs[0]: roots.get(fprs[0], 120)}
        with view.keyring.along(fprs, [given.engine] if given.engine else None) as along:
            route = along.view(view.time, root)
            wanted = user_ids.of_key(view, fprs[-1])
            found = tuple(assess(route, fprs[-1], uid, given.amount).but(others=()) for uid in wanted)
            notes = tuple(note for uid in wanted for note in _notes(Chain(view, along, fprs, uid)))
        return Found(found, notes if found else user_ids.missing(fprs[-1]), root)
    return ask


def _notes(chain: Chain) -> list[str]:
    """A note for each step: what its certifications come to, or why it breaks the path."""
    notes = []
    for place, step in enumerate(chain.steps(), 1):
        said = "; ".join(link.said() for link in step.links)
        head = f"step {place}" if step.broken is None else f"step {place} breaks the path"
        why = None if step.broken is None else step.broken.text
        notes.append(f"{head}: {step.issuer} on {step.target}: {'. '.join(part for part in (why, said) if part)}")
    return notes
