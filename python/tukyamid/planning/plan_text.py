"""Plans for people, with how gpg makes the certifications, and for programs."""

from __future__ import annotations

from typing import TYPE_CHECKING, Any

from ..formats.phrases import count, cut, moment
from ..protocol.spelling import for_people, write_user_id
from .domain_scopes import domain_of
from .supposition_forms import as_object as supposition

if TYPE_CHECKING:
    from collections.abc import Iterator, Mapping

    from .plan_types import Absence, Plan, Proposal
    from .suppositions import Certifies, Name

MOST_SHOWN = 10
_OF_GPG = {60: "1", 120: "2"}  # How gpg's tsign asks for an amount.


def as_object(plan: Plan, name: Name) -> dict[str, Any]:
    """A plan as JSON has it."""
    target = plan.target
    return {
        "fingerprint": target.fpr, "user_id": for_people(target.user_id),
        "user_id_spelled": write_user_id(target.user_id), "wanted": target.wanted, "by": list(target.by),
        "amount": plan.amount, "reached": plan.reached, "target": _word(plan),
        "proposals": [_proposal(one, plan, name) for one in plan.proposals],
        "complete": plan.complete, "tried": plan.tried, "useless": list(plan.useless), "note": note(plan, name),
        "absence": None if plan.absence is None else {
            "certifications": plan.absence.certifications, "amount": plan.absence.amount,
            "checked": plan.absence.is_checked, "said": absence(plan.absence, plan)},
    }


def _proposal(one: Proposal, plan: Plan, name: Name) -> dict[str, Any]:
    certifications = [{**supposition(each, name), "amount_alone": alone, "replaces": older}
                      for each, alone, older in zip(one.certifications, one.alone, one.older)]
    return {"amount": one.amount, "gain": one.amount - plan.amount, "certifications": certifications}


def _word(plan: Plan) -> str:
    return plan.explanation.word if plan.explanation is not None else "no-uid"


def note(plan: Plan, name: Name) -> str | None:
    """What is in the way, or how far the search went; None if there is nothing to say."""
    if plan.explanation is None:
        return "the key has no such user ID"
    if plan.explanation.word != "ok":
        return f"no certification can help: {plan.explanation.word.meaning}"
    if plan.reached:
        return None
    if not plan.complete:
        return f"the search ended after {plan.tried} questions, so there may be others"
    if plan.proposals and len(plan.proposals[0].certifications) > 1:
        return "no single certification is enough; which ones go together was searched for greedily"
    if plan.useless and len(plan.useless) == len(plan.target.by):
        return "none of those who may certify is a root or an introducer here, so what they certify can't count"
    if plan.useless:
        said = ", ".join(name(fpr) for fpr in plan.useless)
        return f"what these certify can't count, since no root makes them introducers for this user ID: {said}"
    return None


def absence(one: Absence, plan: Plan) -> str:
    """What the engine proves of all that these people could certify."""
    if one.amount >= plan.target.wanted:
        return (f"no proposal of so few certifications was found; all {one.certifications} that these people could "
                f"make would give {one.amount}, so --most may help")
    checked = "its check accepts that proof" if one.is_checked else "its check doesn't accept that proof"
    return (f"even if these people made all {one.certifications} certifications that lead there, the amount would be "
            f"{one.amount}; the engine proves that no further path is left then, and {checked}")


def as_text(plan: Plan, time: int, roots: Mapping[str, int], name: Name) -> str:
    """A plan for people."""
    target = plan.target
    result = "reached" if plan.reached else "not reached"
    lines = [f"as of {moment(time)}; {count(len(roots), 'root')}; wanted amount {target.wanted}", "",
             cut(target.user_id), target.fpr, f"amount {plan.amount} of {target.wanted}: {result}"]
    if plan.reached:
        lines.append("there is nothing to certify")
    lines += _listed(plan, name)
    if plan.absence is not None:
        lines += ["", f"none of these people can do it: {absence(plan.absence, plan)}"
                  if plan.absence.amount < target.wanted else absence(plan.absence, plan)]
    said = note(plan, name)
    lines += [f"note: {said}"] if said is not None else []
    return "\n".join(lines) + "\n"


def _listed(plan: Plan, name: Name) -> Iterator[str]:
    if not plan.proposals:
        return
    many = len(plan.proposals)
    size = count(len(plan.proposals[0].certifications), "certification")
    yield ""
    yield f"{count(many, 'proposal')} of {size}, the cheapest first; each amount is the engine's answer"
    for place, one in enumerate(plan.proposals[:MOST_SHOWN], 1):
        yield ""
        yield f"{place}. gives {one.amount}"
        for each, alone, older in zip(one.certifications, one.alone, one.older):
            yield (f"   {each.said(name)}" + (", in place of an older certification" if older else "")
                   + (f" (alone: {alone})" if len(one.certifications) > 1 else ""))
            yield from (f"      {line}" for line in by_gpg(each, older))
    if many > MOST_SHOWN:
        yield ""
        yield f"and {count(many - MOST_SHOWN, 'more proposal')}: --format json has all"


def by_gpg(one: Certifies, is_again: bool = False) -> list[str]:
    """How gpg makes a certification; of one that it has made before it asks only an expert."""
    gpg = f"gpg {'--expert ' if is_again else ''}-u {one.issuer}"
    if not one.depth and not is_again:
        return [f"{gpg} --quick-sign-key {one.target} {_quoted(one.user_id)}"]
    domain = next(filter(None, map(domain_of, one.scopes)), None)
    sign = "`sign`" if not one.depth else (f"`tsign` with trust {_OF_GPG.get(one.amount, one.amount)}, depth "
                                           f"{one.depth} and {'no domain' if domain is None else f'domain {domain}'}")
    return [f"{gpg} --edit-key {one.target}",
            f"   select {for_people(one.user_id)} by `uid`, then {sign}, then `save`"]


def _quoted(user_id: bytes) -> str:
    """A user ID as a shell takes it."""
    text = for_people(user_id, "\\")
    return "'" + text.replace("'", "'\\''") + "'"
