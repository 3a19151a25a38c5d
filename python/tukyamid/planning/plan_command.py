"""`tukyamid plan`: what should I sign, or have signed, so that this binding is authenticated?"""

from __future__ import annotations

import json
import time
from collections.abc import Sequence
from typing import Any

from ..command.configured import configure
from ..command.exit_statuses import NOT_REACHED, REACHED, NoAnswer, WrongWords
from ..command.key_names import resolve
from ..command.keyring_choice import Inputs
from ..command.output import say, write
from ..command.parsed_words import Given
from ..command.questions import UserIds, key_of
from ..command.trust_roots import Roots
from ..formats.phrases import Called
from ..keyrings.keyring import Keyring
from . import meeting_command, spoken
from .plan_making import MOST_TOGETHER, plan_for
from .plan_text import as_object, as_text
from .plan_types import Plan, Target
from .plan_words import Wanted, words_parser


def run(words: Sequence[str]) -> int:
    """Runs the command, and returns the exit status."""
    made = words_parser()
    given = Wanted(**vars(made.parse_intermixed_args(words)))
    if given.help:
        write(made.format_help())
        return REACHED
    _check(given)
    configure(given)
    at = int(time.time()) if given.time is None else given.time
    with Inputs(given, say) as inputs:
        waiting = inputs.keyring.index.waiting()
        if waiting is not None:
            raise NoAnswer(f"nothing can be said yet: {waiting}")
        roots = Roots(given, inputs).find(at)
        if given.meeting is not None:
            return meeting_command.run(given, inputs.keyring, at, roots.amounts, roots.notes)
        plan = _plan(given, inputs.keyring, at, roots.amounts)
        called = Called(inputs.keyring)
        if not given.quiet:
            write(_shown(given, plan, at, roots.amounts, called, roots.notes))
    return REACHED if plan.reached or plan.proposals else NOT_REACHED


def _check(given: Wanted) -> None:
    """WrongWords if the words don't go together."""
    if len(given.words) != (2 if given.meeting is None else 0):
        raise WrongWords("plan takes: KEY USERID, or --meeting FILE")
    if given.meeting is None and (given.depth or given.format == "html"):
        raise WrongWords("--depth and --format html go with --meeting FILE")
    if given.meeting is not None and (given.by or given.email or given.suppose):
        raise WrongWords("--by, --email and --suppose go with KEY USERID")


def _plan(given: Wanted, keyring: Keyring, at: int, roots: dict[str, int]) -> Plan:
    fpr, user_id = _binding(given, keyring, at)
    by = tuple(dict.fromkeys(resolve(keyring, key) for key in given.by)) or tuple(roots)
    for key in by:
        if keyring.certificate(key) is None:
            raise NoAnswer(f"the key {key} isn't in the keyring, so nobody knows what it could certify")
    target = Target(fpr, user_id, given.amount, by)
    program = [given.engine] if given.engine else None
    supposed = spoken.resolved(keyring, given.suppose)
    return plan_for(keyring, target, at, roots, given.most or MOST_TOGETHER, supposed, program)


def _binding(given: Given, keyring: Keyring, at: int) -> tuple[str, bytes]:
    """The binding that is asked about; NoAnswer unless there is just one."""
    fpr = resolve(keyring, key_of(given.words[0]))
    user_ids = UserIds(given, given.words[1])
    certificate = keyring.certificate(fpr)
    if certificate is None:
        raise NoAnswer(f"the key {fpr} isn't in the keyring: nothing can be planned for it")
    found = user_ids.of_key(keyring.view(at, {}), fpr)
    if len(found) != 1 or found[0] not in certificate.user_ids:
        raise NoAnswer(f"the key {fpr} has no such user ID, or several: give one of them whole")
    return fpr, found[0]


def _shown(given: Wanted, plan: Plan, at: int, roots: dict[str, int], called: Called, notes: Sequence[str]) -> str:
    if given.format == "json":
        shown: dict[str, Any] = {
            "question": "plan", "time": at,
            "roots": [{"fingerprint": fpr, "amount": amount} for fpr, amount in roots.items()],
            **as_object(plan, called.of), "notes": list(notes)}
        return json.dumps(shown, indent=2, ensure_ascii=False) + "\n"
    return as_text(plan, at, roots, called.of) + "".join(f"note: {note}\n" for note in notes)
