"""A keyring in which something is supposed: an engine of its own, with as much of the keyring as its questions need.

Nothing supposed ever reaches the keyring or the service: the engine is this process's alone, and ends with the
question. What a question needs is loaded before it is asked, as excerpts of the keyring. So its answers are those of an
engine that holds all of the keyring, and besides what is supposed (docs/PROOF.md, sentence 4).
"""

from __future__ import annotations

from ..client.engine import Engine
from ..fast_imports import TYPE_CHECKING
from ..keyrings.keyring import WHOLE, Keyring
from ..openpgp.certificates import CERTIFICATIONS, key_fingerprint
from ..openpgp.packets import packets
from ..patience import ended_after
from ..protocol.reasons import ReasonWord
from ..protocol.replies import Explanation
from ..protocol.service_lines import MOST_OF_AN_EXCERPT
from .supposed_index import SupposedIndex
from .supposed_signatures import Signature, supposed
from .suppositions import Certifies, Revokes, WithoutKey, WithoutSignature

if TYPE_CHECKING:
    from collections.abc import Iterable, Iterator, Sequence

    from ..client.engine import Program
    from ..client.listing import Listing
    from ..keyrings.keyring import View
    from ..openpgp.certificates import Certificate
    from ..protocol.claims import Claim, Label
    from ..protocol.replies import Accepted, Answer, Binding, Missed, Reached, Reason, Rejected
    from ..protocol.spelling import UserId
    from .suppositions import Supposition

PATIENCE = 60.0


class ScratchEngine(Engine):
    """An engine that loads what it is asked about from a keyring, except what is supposed to be gone."""

    def __init__(self, keyring: Keyring, suppositions: Sequence[Supposition], program: Program | None = None) -> None:
        self._keyring, self._suppositions = keyring, suppositions
        self.without_keys = frozenset(one.fpr for one in suppositions if isinstance(one, WithoutKey))
        self._without = frozenset(one.number for one in suppositions if isinstance(one, WithoutSignature))
        self._introduced = {one.target for one in suppositions if isinstance(one, Certifies) and one.depth}
        self._loaded: set[tuple[str, str]] = set()
        self._untaken: list[Signature] = []
        self._named: set[str] = set()
        self._roots: dict[str, set[str]] = {}
        self._times: dict[str, int] = {}
        self._whole: View | None = None
        super().__init__(program)

    def suppose(self, time: int) -> list[Signature]:
        """Makes the signatures that are supposed, as made at this time. It takes them before the first question."""
        for one in self._suppositions:
            if isinstance(one, Certifies | Revokes):
                self._untaken.append(self.signature(one, time, self._untaken))
                self._named.update((one.issuer, one.target))
        return list(self._untaken)

    def _take_supposed(self) -> None:
        """Takes what is supposed, with its keys, unless that was done before."""
        if self._untaken:
            self.need("key", [fpr for fpr in self._named if ("question", fpr) not in self._loaded])
            self.take([line for one in self._untaken for line in one.lines()])
            self._untaken.clear()

    def signature(self, one: Certifies | Revokes, time: int, before: Iterable[Signature] = ()) -> Signature:
        """A supposed signature, which is newer than what the issuer has made by then, and than those before."""
        others = [*self._of_that_second(one, time), *(other.number for other in before)]
        return supposed(one, self._key(one.target), time, others)

    def _key(self, fpr: str) -> bytes:
        certificate = self._keyring.certificate(fpr)
        return certificate.key if certificate is not None else next(packets(self._keyring.engine.export(fpr)))[1]

    def _of_that_second(self, one: Certifies | Revokes, time: int) -> list[str]:
        """The numbers of the issuer's certifications of this user ID that were created at a time."""
        certificate = self._keyring.certificate(one.target)
        signatures = certificate.user_ids.get(one.user_id, ()) if certificate is not None else ()
        return [other.number for other in signatures if other.said.made == time and other.said.kind in CERTIFICATIONS
                and self._keyring.index.issuer(one.target, other.number) == one.issuer]

    def need(self, word: str, fprs: Iterable[str]) -> None:
        """Loads an excerpt of the keyring, unless that was done before."""
        missing = [fpr for fpr in sorted(set(fprs)) if (word, fpr) not in self._loaded]
        if missing and not (self._keyring.index.is_whole and self._loaded):
            self.take(self._there(self._keyring.index.excerpt(word, missing)))
        self._loaded.update((each, fpr) for fpr in missing for each in (word, "key"))

    def take(self, lines: Iterable[bytes]) -> None:
        """Has it take lines; what it refuses is raised."""
        for refused in self.feed(lines):
            raise refused

    def _there(self, lines: Iterable[bytes]) -> Iterator[bytes]:
        """The lines without what is supposed not to be there."""
        for line in lines:
            if self.without_keys and line.startswith(b"import "):
                octets = bytes.fromhex(line[7:].decode("ascii"))
                if key_fingerprint(next(packets(octets))[1]) in self.without_keys:
                    continue
            elif self._without and line[8:72].decode("ascii") in self._without:
                continue
            yield line

    def _need_slice(self, view: str, fpr: str) -> None:
        """Loads what a question about a key from a view's roots needs: no path goes on behind that key."""
        leading = {*self._roots.get(view, ()), *((self._introduced | self._named) - {fpr})}
        missing = sorted(one for one in leading if ("question", one) not in self._loaded)
        if not missing:
            self.need("key", [fpr])
        elif not (self._keyring.index.is_whole and self._loaded):
            for start in range(0, len(missing), MOST_OF_AN_EXCERPT - 1):
                wanted = [fpr, *missing[start:start + MOST_OF_AN_EXCERPT - 1]]
                self.take(self._there(self._keyring.index.excerpt("question", wanted)))
        self._loaded.update([("key", fpr), *(("question", one) for one in missing)])
        self._take_supposed()

    def open_view(self, view: str, time: int) -> None:
        self._roots.setdefault(view, set())
        self._times[view] = time
        super().open_view(view, time)

    def set_root(self, view: str, fpr: str, amount: int = 120) -> None:
        self._roots.setdefault(view, set()).add(fpr)
        super().set_root(view, fpr, amount)

    def close_view(self, view: str) -> None:
        self._roots.pop(view, None)
        super().close_view(view)

    def ask(self, view: str, fpr: str, wanted: int, user_id: UserId) -> Answer:
        self._need_slice(view, fpr)
        return super().ask(view, fpr, wanted, user_id)

    def explain(self, view: str, fpr: str, user_id: UserId) -> Explanation:
        """What each certification comes to. Few issuers are loaded; of one that isn't, the whole keyring says it, which
        nothing supposed can change."""
        self._need_slice(view, fpr)
        found = super().explain(view, fpr, user_id)
        if all(one.word is not ReasonWord.ISSUER_ABSENT for one in found.reasons):
            return found
        whole = self._whole_at(self._times[view]).explain(fpr, user_id)
        words = {one.number: one for one in whole.reasons} if whole is not None else {}
        return Explanation(found.word, tuple(self._merged(one, words.get(one.number), fpr) for one in found.reasons))

    def _whole_at(self, time: int) -> View:
        """A view of the whole keyring at a time."""
        if self._whole is None or self._whole.time != time:
            self._whole = self._keyring.view(time, {}, WHOLE)
        return self._whole

    def _merged(self, found: Reason, whole: Reason | None, fpr: str) -> Reason:
        if found.word is not ReasonWord.ISSUER_ABSENT or whole is None:
            return found
        issuer = whole.issuer or self._keyring.index.issuer(fpr, whole.number)
        return found if issuer in self.without_keys else whole

    def absence(self, view: str, fpr: str, wanted: int, user_id: UserId) -> Reached | Missed:
        self._need_slice(view, fpr)
        self.need("to", [fpr])
        return super().absence(view, fpr, wanted, user_id)

    def check(self, view: str, fpr: str, paths: Iterable[Claim], table: Iterable[Label],
              user_id: UserId) -> Accepted | Rejected:
        self.need("to", [fpr])
        self._take_supposed()
        return super().check(view, fpr, paths, table, user_id)

    def list(self, view: str, wanted: int) -> Listing[Binding]:
        self.need("reach", [*self._roots.get(view, ()), *self._introduced])
        self._take_supposed()
        return super().list(view, wanted)

    def export(self, fpr: str) -> bytes:
        if fpr not in self.without_keys:
            self.need("key", [fpr])
        self._take_supposed()
        return super().export(fpr)


class SupposedKeyring(Keyring):
    """The keyring in which something is supposed."""

    def __init__(self, keyring: Keyring, engine: ScratchEngine, made: Sequence[Signature],
                 suppositions: Sequence[Supposition]) -> None:
        without = {one.number for one in suppositions if isinstance(one, WithoutSignature)}
        super().__init__(engine, SupposedIndex(keyring.index, {one.number: one.issuer for one in made}, without))
        self.supposed = frozenset(one.number for one in made)
        self._whole = keyring
        self._otherwise = engine.without_keys | {one.target for one in suppositions
                                                 if isinstance(one, Certifies | Revokes)}

    def certificate(self, fpr: str) -> Certificate | None:
        return super().certificate(fpr) if fpr in self._otherwise else self._whole.certificate(fpr)


class supposing:
    """A keyring in which all of this is supposed, as made at this time. It is there for one question, in a `with`, and
    ends when the patience is over whatever happens."""

    def __init__(self, keyring: Keyring, suppositions: Sequence[Supposition], time: int, program: Program | None = None,
                 patience: float = PATIENCE) -> None:
        self._keyring, self._suppositions, self._time = keyring, suppositions, time
        self._engine = ScratchEngine(keyring, suppositions, program)
        self._limit = ended_after(patience, self._engine.end_at_once)

    def __enter__(self) -> SupposedKeyring:
        self._limit.__enter__()
        try:
            made = self._engine.suppose(self._time)
        except BaseException:
            self.__exit__()
            raise
        return SupposedKeyring(self._keyring, self._engine, made, self._suppositions)

    def __exit__(self, *_: object) -> None:
        self._limit.__exit__()
        self._engine.close()
