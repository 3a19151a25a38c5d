"""The outcome for people and for programs."""

import json
from collections.abc import Iterator
from datetime import datetime, timezone

from ..formats import colons
from ..protocol import spelling
from .data_signatures import DataSignature, Word
from .signer_check import CheckedSignature, Known, Outcome, Wanted

# RFC 9580, section 9.5.
_HASHES = {1: "MD5", 2: "SHA-1", 3: "RIPEMD-160", 8: "SHA2-256", 9: "SHA2-384", 10: "SHA2-512", 11: "SHA2-224",
           12: "SHA3-256", 14: "SHA3-512"}


def for_people(outcome: Outcome) -> str:
    """What came out, and why."""
    wanted, count = outcome.wanted, len(outcome.signers)
    mark, said = ("[✓]", "verified") if outcome.is_verified else ("[✗]", "not verified")
    signers = "1 signer" if count == 1 else f"{count} signers"
    lines = [f"{mark} {said}: {signers} of {wanted.threshold} needed",
             f"    wanted: {' or '.join(_shown(one.text) for one in wanted.whom)}, to the amount {wanted.amount}"]
    if not outcome.checked:
        lines.append("    there is no signature")
    for place, checked in enumerate(outcome.checked, 1):
        lines += [f"    {line}" for line in _signature_lines(place, checked, wanted)]
    if outcome.outside:
        lines.append(f"    not signed: the text {' and '.join(outcome.outside)} the signed part of the file")
    return "".join(line + "\n" for line in lines)


def _signature_lines(place: int, checked: CheckedSignature, wanted: Wanted) -> Iterator[str]:
    signature = checked.signature
    yield f"signature {place}: {signature.word}: {signature.why or signature.word.meaning}"
    yield f"    {_origin(signature)}"
    if signature.word is not Word.GOOD:
        return
    for known, moment in (checked.at_signing, "when it was made"), (checked.now, "now"):
        if known is not None:
            yield f"    {moment}: {_said(known, wanted)}"


def _origin(signature: DataSignature) -> str:
    parts = []
    if signature.certificate is not None:
        parts.append(f"certificate {signature.certificate}")
    if signature.key is not None and signature.key != signature.certificate:
        parts.append(f"key {signature.key}")
    if signature.made is not None:
        parts.append(f"made {_date(signature.made)}")
    if signature.hash_algorithm is not None:
        parts.append(_hash_name(signature.hash_algorithm))
    return ", ".join(parts) or "nothing else is known about it"


def _said(known: Known, wanted: Wanted) -> str:
    if known.user_id is None:
        return f"no user ID of the certificate is {' or '.join(_shown(one.text) for one in wanted.whom)}"
    reached = "reached" if known.amount >= wanted.amount else "not reached"
    why = f", because {known.why}" if known.why else ""
    return f"{_shown(known.user_id)}, {known.amount} of {wanted.amount}: {reached}{why}"


def for_programs(outcome: Outcome) -> str:
    """One JSON object. Keys may be added later; those that are there stay."""
    wanted = outcome.wanted
    return json.dumps({
        "verified": outcome.is_verified,
        "signers": list(outcome.signers),
        "threshold": wanted.threshold,
        "wanted": wanted.amount,
        "whom": [{"kind": one.kind.value, "text": _shown(one.text)} for one in wanted.whom],
        "when": str(wanted.when),
        "signatures": [_signature_object(checked, wanted) for checked in outcome.checked],
        "outside": [str(one) for one in outcome.outside],
    }, indent=2) + "\n"


def for_fields(outcome: Outcome) -> str:
    """Lines of fields, as the other questions have them."""
    wanted = outcome.wanted
    lines: list[colons.Line] = [
        ("vfy", 1, "yes" if outcome.is_verified else "no", len(outcome.signers), wanted.threshold, wanted.amount)]
    for checked in outcome.checked:
        signature = checked.signature
        lines.append(("sig", str(signature.word), "yes" if checked.counts(wanted) else "no", signature.made,
                      signature.kind, signature.hash_algorithm, signature.certificate, signature.key, signature.why))
        lines += [("who", moment, known.time, known.amount, known.user_id, known.why or None)
                  for moment, known in (("signing", checked.at_signing), ("now", checked.now)) if known is not None]
    lines += [("out", str(one)) for one in outcome.outside]
    return colons.written(lines)


def _signature_object(checked: CheckedSignature, wanted: Wanted) -> dict[str, object]:
    signature = checked.signature
    return {
        "verdict": str(signature.word), "counts": checked.counts(wanted), "why": signature.why,
        "certificate": signature.certificate, "key": signature.key, "made": signature.made,
        "type": signature.kind,
        "hash": None if signature.hash_algorithm is None else _hash_name(signature.hash_algorithm),
        "at_signing": _known_object(checked.at_signing), "now": _known_object(checked.now),
    }


def _known_object(known: Known | None) -> dict[str, object] | None:
    if known is None:
        return None
    user_id = known.user_id
    return {"time": known.time, "amount": known.amount,
            "user_id": None if user_id is None else _shown(user_id),
            "user_id_spelled": None if user_id is None else spelling.write_user_id(user_id)}


def _shown(text: str | bytes) -> str:
    return spelling.for_people(text.encode("utf-8", "surrogateescape") if isinstance(text, str) else text)


def _date(seconds: int) -> str:
    return datetime.fromtimestamp(seconds, timezone.utc).strftime("%Y-%m-%d %H:%M:%S UTC")


def _hash_name(number: int) -> str:
    return _HASHES.get(number, f"hash algorithm {number}")
