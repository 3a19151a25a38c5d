"""Reads replies: their framing, and each of their lines.

The first line alone says how a reply goes on:

| first line | what follows |
|---|---|
| `amount SUM paths K` | K times a line `path AMOUNT steps L root FPR` and its L lines `step ..` |
| `list K`, `piece K`, `pending K`, `keys K`, `dump K` | K lines |
| `service WORD K` | K lines |
| `explain WORD K` | K lines `cert ..` |
| `absence missed SUM` | a line `claim PATHS TABLE` |
| any other | nothing |

A reader is a generator that asks for a line by each `yield`, so that the synchronous client and the asynchronous one
share it.
"""

from __future__ import annotations

import os

from ..fast_imports import TYPE_CHECKING, TypeVar
from . import claims, spelling
from .hexadecimal import read_octets
from .reasons import ReasonWord, TargetWord, Word
from .refusals import ProtocolError, read_refusal
from .replies import (Accepted, Answer, Binding, Done, Explanation, Exported, Gone, Key, Missed, Path, PendingSignature,
                      Reached, Reason, Rejected, Reply, Stale, Step, Stored, Taken, Watched)
from .reply_forms import match, no_place
from .service_lines import Certified, Change, Figure, Found, Issued, KeyringAdded, KeyringLine, Waiting

T = TypeVar("T")
W = TypeVar("W", bound=Word)

if TYPE_CHECKING:
    from collections.abc import Callable, Generator

    Reader = Generator[None, str, T]


class ListingHead(Reply):
    """The first line of a listing: how many items follow, of which type, and how each is read."""
    __slots__ = ("count", "item", "read")

    def __init__(self, count: int, item: type[object], read: Callable[[str], object]) -> None:
        self.count, self.item, self.read = count, item, read


def read_uid(text: str) -> bytes:
    """The octets of a spelled user ID in a reply."""
    try:
        return spelling.read_user_id(text.encode("latin-1"))
    except ValueError as fault:
        raise ProtocolError(str(fault)) from None


def _read_bind(line: str) -> Binding:
    amount, fpr, uid = match("bind N FPR REST", line)
    return Binding(int(amount), fpr, read_uid(uid))


def _read_pending(line: str) -> PendingSignature:
    number, fpr, hint = match("sig NUM FPR HINT", line)
    return PendingSignature(number, fpr, None if hint == "-" else hint)


def _read_key(line: str) -> Key:
    fpr, user_ids, signatures = match("key FPR N N", line)
    return Key(fpr, int(user_ids), int(signatures))


def _read_text(text: str) -> str:
    return os.fsdecode(read_uid(text))


def _read_figure(line: str) -> Figure:
    name, value = match("FIELD REST", line)
    return Figure(name, _read_text(value))


def _read_found(line: str) -> Found:
    fpr, uid = match("bind FPR REST", line)
    return Found(fpr, read_uid(uid))


def _read_change(line: str) -> Change:
    number, time, user, process, what = match("change N N N N REST", line)
    return Change(int(number), int(time), int(user), int(process), _read_text(what))


def _read_keyring(line: str) -> KeyringLine:
    for word in "fault", "unverified":
        if line.startswith(word + " "):
            return KeyringLine("", 0, _read_text(match(word + " REST", line)[0]), word == "fault")
    certificates, name = match("keyring N REST", line)
    return KeyringLine(_read_text(name), int(certificates), "")


def _read_waiting(line: str) -> Waiting:
    count, why = match("waits N REST", line)
    return Waiting(int(count), _read_text(why))


def read_progress(line: str) -> str:
    """How far the service has come with a keyring."""
    return _read_text(match("service progress REST", line)[0])


def _read_step(line: str) -> Step:
    issuer, target, depth, amount, uid = match("step FPR FPR N N REST", line)
    return Step(issuer, target, int(depth), int(amount), read_uid(uid))


def _read_word(words: type[W], text: str) -> W:
    try:
        return words(text)
    except ValueError:
        raise ProtocolError(f"an unknown word: {text!r}") from None


def _read_reason(line: str) -> Reason:
    if line[69:74] == " edge":
        number, issuer, depth, amount = match("cert NUM edge FPR N N", line)
        return Reason(number, ReasonWord.EDGE, issuer, int(depth), int(amount))
    number, word = match("cert NUM WORD", line)
    return Reason(number, _read_word(ReasonWord, word))


def _read_path() -> Reader[Path]:
    amount, count, root = match("path N steps N root FPR", (yield))
    steps = []
    for _ in range(int(count)):
        steps.append(_read_step((yield)))
    return Path(int(amount), root, tuple(steps))


def _read_answer(first: str) -> Reader[Answer]:
    amount, count = match("amount N paths N", first)
    paths = []
    for _ in range(int(count)):
        paths.append((yield from _read_path()))
    return Answer(int(amount), tuple(paths))


def _read_explanation(first: str) -> Reader[Explanation]:
    word, count = match("explain WORD N", first)
    target, reasons = _read_word(TargetWord, word), []
    for _ in range(int(count)):
        reasons.append(_read_reason((yield)))
    return Explanation(target, tuple(reasons))


def _read_absence(first: str) -> Reader[Reached | Missed]:
    if first.startswith("absence reached "):
        return Reached(int(match("absence reached N", first)[0]))
    amount, = match("absence missed N", first)
    paths, table = match("claim FIELD FIELD", (yield))
    try:
        return Missed(int(amount), claims.read_paths(paths), claims.read_table(table))
    except ValueError as fault:
        raise ProtocolError(f"no claim: {fault}") from None


def _read_ok(line: str) -> Reply:
    if line == "ok":
        return Done()
    if line.startswith("ok stored "):
        return Stored(int(match("ok stored N", line)[0]))
    if line.startswith("ok keyring "):
        certificates, verdicts = match("ok keyring N N", line)
        return KeyringAdded(int(certificates), int(verdicts))
    taken, skipped, new = match("ok taken N skipped N new N", line)
    return Taken(int(taken), int(skipped), int(new))


def _read_checked(line: str) -> Accepted | Rejected:
    if line.startswith("checked yes "):
        return Accepted(int(match("checked yes N", line)[0]))
    word, = match("checked no WORD", line)
    if word not in ("paths", "table"):
        raise no_place(line)
    return Rejected(word)


def _read_stale(line: str) -> Stale:
    word, then, now = match("stale WORD N N", line)
    if word not in ("keyring", "view"):
        raise no_place(line)
    return Stale(word, int(then), int(now))


def read_watch(line: str) -> Watched | Gone:
    """What a watch line says."""
    if line.endswith(" gone"):
        return Gone(*match("watch NAME gone", line))
    watch, amount = match("watch NAME amount N", line)
    return Watched(watch, int(amount))


_ITEMS: dict[str, tuple[type[object], Callable[[str], object]]] = {
    "list": (Binding, _read_bind), "piece": (Binding, _read_bind), "pending": (PendingSignature, _read_pending),
    "keys": (Key, _read_key), "dump": (bytes, lambda line: line.encode("latin-1")),
    "service status": (Figure, _read_figure), "service find": (Found, _read_found),
    "service excerpt": (bytes, lambda line: line.encode("latin-1")),
    "service issuers": (Issued, lambda line: Issued(*match("by NUM FPR", line))),
    "service certified": (Certified, lambda line: Certified(*match("on N FPR", line))),
    "service log": (Change, _read_change), "service keyring": (KeyringLine, _read_keyring),
    "service unverified": (Waiting, _read_waiting),
}
_ONE_LINE: dict[str, Callable[[str], Reply]] = {
    "ok": _read_ok, "checked": _read_checked, "stale": _read_stale, "watch": read_watch,
    "export": lambda line: Exported(read_octets(line.removeprefix("export "))),
}
_LONGER: dict[str, Callable[[str], Reader[Reply]]] = {
    "amount": _read_answer, "explain": _read_explanation, "absence": _read_absence,
}


def read_reply_after(first: str) -> Reader[Reply]:
    """Reads the rest of a reply behind its first line. A refusal is raised. For a listing its head is returned, and
    none of its items is read."""
    refusal = read_refusal(first)
    if refusal is not None:
        raise refusal
    word = first.partition(" ")[0]
    if word in _ONE_LINE:
        return _ONE_LINE[word](first)
    if word in _LONGER:
        return (yield from _LONGER[word](first))
    listing, _, count = first.rpartition(" ")
    if listing not in _ITEMS or not spelling.is_decimal(count):
        raise no_place(first)
    return ListingHead(int(count), *_ITEMS[listing])


def drive(reader: Reader[T], next_line: Callable[[], str]) -> T:
    """Runs a reader over lines, which `next_line` returns one by one, without line feeds."""
    try:
        next(reader)
        while True:
            reader.send(next_line())
    except StopIteration as end:
        value: T = end.value
        return value


def read_reply(next_line: Callable[[], str]) -> Reply:
    """Reads one reply, as `read_reply_after` does."""
    return drive(read_reply_after(next_line()), next_line)
