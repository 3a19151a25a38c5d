"""The file of an answer: read and written as JSON. Whatever has another form is a ProofMalformed."""

import json
from collections.abc import Mapping, Sequence
from typing import Any, NamedTuple

from ..protocol import spelling
from ..protocol.claims import MOST_STEPS
from ..protocol.refusals import TukyamidError

FORMAT, VERSION = "tukyamid-proof", 1
ANSWER, ABSENCE = "answer", "absence"
MOST_OCTETS = 1 << 26
MOST_TIME = MOST_WANTED = 2**32 - 1
MOST_AMOUNT = MOST_LABEL = 255


class ProofMalformed(TukyamidError):
    """The file isn't one of this format."""


class Step(NamedTuple):
    """Who certifies which user ID of the next key; behind the last step comes the key that is asked about."""
    issuer: str
    user_id: bytes


class Path(NamedTuple):
    amount: int
    steps: tuple[Step, ...]


class Proof(NamedTuple):
    """A claim about a binding: that it is authenticated to an amount by these paths, or, with labels, that no further
    path is left. `certificates` has each as octets, which may be armored."""
    claim: str
    fpr: str
    user_id: bytes
    wanted: int
    time: int
    roots: Mapping[str, int]
    amount: int
    paths: tuple[Path, ...]
    labels: Mapping[str, int]
    certificates: tuple[bytes, ...]


def as_object(proof: Proof) -> dict[str, Any]:
    """What `json.dumps` writes into the file."""
    return {
        "format": FORMAT, "version": VERSION, "claim": proof.claim, "fingerprint": proof.fpr,
        "user_id": spelling.write_user_id(proof.user_id), "wanted": proof.wanted, "time": proof.time,
        "roots": [{"fingerprint": fpr, "amount": amount} for fpr, amount in proof.roots.items()],
        "amount": proof.amount,
        "paths": [{"amount": path.amount, "steps": [
            {"issuer": step.issuer, "user_id": spelling.write_user_id(step.user_id)} for step in path.steps]}
            for path in proof.paths],
        "labels": dict(proof.labels),
        "certificates": [octets.hex() for octets in proof.certificates],
    }


def read(octets: bytes) -> Proof:
    """The proof that a file has."""
    try:
        value = json.loads(octets)
        if not isinstance(value, dict) or value.get("format") != FORMAT:
            raise ValueError(f"it has no format {FORMAT}")
        if value.get("version") != VERSION:
            raise ValueError(f"this program reads version {VERSION}, and it has {str(value.get('version'))[:20]!r}")
        return _proof(value)
    except (ValueError, KeyError, TypeError, AttributeError, RecursionError) as error:
        said = f"{error.args[0]} is missing" if isinstance(error, KeyError) else str(error)
        raise ProofMalformed(f"the file isn't a proof: {said[:300]}") from None


def _proof(value: Mapping[str, Any]) -> Proof:
    claim = value["claim"]
    if claim not in (ANSWER, ABSENCE):
        raise ValueError(f"its claim is neither {ANSWER} nor {ABSENCE}")
    roots = {spelling.fingerprint(one["fingerprint"]): _number(one, "amount", 1, MOST_AMOUNT)
             for one in _list(value, "roots")}
    labels = {spelling.fingerprint(fpr): spelling.decimal(label, 1, MOST_LABEL, "label")
              for fpr, label in value.get("labels", {}).items()}
    return Proof(claim, spelling.fingerprint(value["fingerprint"]), _user_id(value),
                 _number(value, "wanted", 1, MOST_WANTED), _number(value, "time", 0, MOST_TIME), roots,
                 _number(value, "amount", 0, MOST_WANTED), tuple(map(_path, _list(value, "paths"))), labels,
                 tuple(map(_certificate, _list(value, "certificates"))))


def _path(value: Mapping[str, Any]) -> Path:
    steps = tuple(Step(spelling.fingerprint(one["issuer"]), _user_id(one)) for one in _list(value, "steps"))
    if not 1 <= len(steps) <= MOST_STEPS:
        raise ValueError(f"a path of {len(steps)} steps")
    return Path(_number(value, "amount", 1, MOST_AMOUNT), steps)


def _certificate(value: object) -> bytes:
    """The octets of a certificate, in hexadecimal digits or armored."""
    if not isinstance(value, str):
        raise ValueError("a certificate isn't a text")
    return value.encode("utf-8") if value.lstrip().startswith("-----BEGIN") else bytes.fromhex(value)


def _user_id(value: Mapping[str, Any]) -> bytes:
    return spelling.read_user_id(str(value["user_id"]).encode("ascii"))


def _number(value: Mapping[str, Any], name: str, least: int, most: int) -> int:
    return spelling.decimal(value[name], least, most, name)


def _list(value: Mapping[str, Any], name: str) -> Sequence[Any]:
    found = value[name]
    if not isinstance(found, list):
        raise ValueError(f"{name} isn't a list")
    return found
