"""Answers the API's questions as the command does, over the service's keyring."""

from __future__ import annotations

from collections.abc import Mapping
from typing import TYPE_CHECKING, Any

from ..client import Client
from ..command import questions
from ..command.answer_text import notes_on_waiting
from ..command.exit_statuses import NoAnswer
from ..command.keyring_choice import Inputs
from ..command.key_names import resolve
from ..command.parsed_words import Given
from ..command.questions import Found
from ..command.trust_roots import Roots
from ..formats.json_form import as_written
from ..keyrings.assessment import Report, brief
from ..keyrings.kept_answers import Kept
from ..keyrings.keyring import Keyring, View
from ..keyrings.service_keyring import served_keyring
from ..openpgp.addresses import address_of
from ..proofs.proof_making import make
from ..protocol.replies import Binding, Missed
from ..protocol.service_lines import Waiting
from ..protocol.spelling import user_id, write_user_id
from .read_only_service import connect_read_only

if TYPE_CHECKING:
    from .page_answering import Whole

PATIENCE = 60.0
MOST_KEPT = 20_000
MOST_CERTIFICATIONS = 100_000  # Of what is kept of answers: some 60 MB.


class _NoNames:
    """The API names keys by their fingerprints."""

    def get(self, fpr: str | None, /) -> bytes | None:
        return None


class Answering:
    """Keeps its connection, and what it has read of the keyring as long as that is unchanged."""

    def __init__(self, socket: str) -> None:
        self._socket = socket
        self._client: Client | None = None
        self._state = ""
        self._keyring: Keyring | None = None
        self._waiting: Waiting | None = None
        self._kept = Kept(MOST_CERTIFICATIONS)
        self._views: dict[tuple[int, tuple[tuple[str, int], ...]], View] = {}
        self._listed: tuple[object, list[Binding]] | None = None
        self.whole: Whole | None = None  # The network that the page was shown last.

    def at(self, state: str) -> None:
        """Says in which state the keyring is: what was read in another one is forgotten."""
        keyring = self._keyring
        if state != self._state or keyring is None or keyring.kept() > MOST_KEPT:
            self._state, self._listed, self.whole = state, None, None
            self._views.clear()
            self._kept = Kept(MOST_CERTIFICATIONS)
            self._keyring = served_keyring(self.client)
            self._waiting = self._keyring.index.waiting()

    @property
    def is_connected(self) -> bool:
        return self._client is not None

    @property
    def client(self) -> Client:
        if self._client is None:
            self._client = connect_read_only(self._socket, PATIENCE)
        return self._client

    @property
    def keyring(self) -> Keyring:
        assert self._keyring is not None
        return self._keyring

    @property
    def waiting(self) -> Waiting | None:
        """The signatures that wait to be verified, so that another answer may come later."""
        return self._waiting

    def forget(self) -> None:
        """Ends the connection: the next question begins another."""
        if self._client is not None:
            self._client.end_at_once()
        self._client = self._keyring = self._listed = self.whole = None
        self._views.clear()
        self._kept = Kept(MOST_CERTIFICATIONS)

    def view(self, time: int, roots: Mapping[str, int]) -> View:
        """A view, which is kept for the questions that follow."""
        of = time, tuple(roots.items())
        if of not in self._views:
            if len(self._views) == 8:
                self._views.clear()
            self._views[of] = self.keyring.view(time, roots, f"public{len(self._views)}")
            self._views[of].keep_in(self._kept)
        return self._views[of]

    def ask(self, call: str, time: int, roots: dict[str, int], asked: Mapping[str, Any]) -> dict[str, Any]:
        given = _given(call, time, roots, asked)
        inputs = Inputs(given, lambda text: None)
        inputs.keyring = self.keyring
        chosen = Roots(given, inputs).find(time)
        if call == "list":
            return self._list(given, time, chosen.amounts, chosen.notes, asked)
        if call in ("absence", "proof"):
            return self._prove(call, time, chosen.amounts, asked)
        found = questions.read(given)(self.view(time, chosen.amounts))
        return self._report(given, time, chosen.amounts, chosen.notes, found)

    def _report(self, given: Given, time: int, roots: Mapping[str, int], notes: tuple[str, ...],
                found: Found) -> dict[str, Any]:
        shown = tuple(one.but(strict=given.strict) for one in found.assessments)
        said = (*notes, *found.notes, *notes_on_waiting(self.keyring, shown, self._waiting))
        roots = found.roots or roots
        return as_written(Report(given.question or "", given.amount, time, roots, shown, _NoNames(), said))

    def _list(self, given: Given, time: int, roots: dict[str, int], notes: tuple[str, ...],
              asked: Mapping[str, Any]) -> dict[str, Any]:
        """A piece of the list: `count` says how many bindings there are, and `next` where the next piece begins."""
        view = self.view(time, roots)
        of = time, tuple(roots.items()), given.amount
        if self._listed is None or self._listed[0] != of:
            self._listed = of, list(view.list(given.amount))
        sought = [one for one in self._listed[1] if _has(one, asked["pattern"], asked["address"])]
        begin, end = asked["begin"], asked["begin"] + asked["most"]
        found = Found(tuple(brief(view, one, given.amount) for one in sought[begin:end]))
        return {**self._report(given, time, roots, notes, found), "count": len(sought), "begin": begin,
                "next": end if end < len(sought) else None}

    def _prove(self, call: str, time: int, roots: dict[str, int], asked: Mapping[str, Any]) -> dict[str, Any]:
        """The proof of an answer, or the claim alone that no further path is left."""
        fpr, uid, wanted = resolve(self.keyring, asked["keys"][0]), user_id(asked["user_id"]), asked["amount"]
        if self._waiting is not None and self.view(time, roots).ask(fpr, wanted, uid).amount < wanted:
            raise NoAnswer(f"nothing can be said yet: {self._waiting}")
        if self.keyring.certificate(fpr) is None:
            raise NoAnswer(f"the key {fpr} isn't in the keyring, so there is nothing to prove")
        if call == "proof":
            return make(self.keyring, fpr, uid, wanted, time, roots)
        said = {"fingerprint": fpr, "user_id_spelled": write_user_id(uid), "wanted": wanted, "time": time,
                "roots": [{"fingerprint": root, "amount": amount} for root, amount in roots.items()]}
        missed = self.keyring.engine.absence(self.view(time, roots).name, fpr, wanted, uid)
        if not isinstance(missed, Missed):
            return {**said, "reached": True, "amount": wanted, "paths": [], "labels": {}}
        paths = [{"amount": path.amount, "steps": [{"issuer": step.issuer, "place": step.place} for step in path.steps]}
                 for path in missed.paths]
        return {**said, "reached": False, "amount": missed.amount, "paths": paths,
                "labels": {label.fpr: label.label for label in missed.table}}


def _given(call: str, time: int, roots: dict[str, int], asked: Mapping[str, Any]) -> Given:
    words = [*asked.get("keys", ()), *([asked["user_id"]] if "user_id" in asked else ())]
    return Given(question=call, words=words, root=list(roots.items()), gpg=False, directory=[], keyring=[], time=time,
                 amount=asked["amount"], email=asked.get("email", False), strict=asked["strict"], paths=False,
                 format="json", suppose=[], engine=None, verifier=None)


def _has(one: Binding, pattern: str, by_address: bool) -> bool:
    """Whether a binding has a text in its user ID, or in its address."""
    if not by_address:
        return pattern.casefold() in one.user_id.decode("utf-8", "surrogateescape").casefold()
    address = address_of(one.user_id)
    return address is not None and pattern.casefold() in address.casefold()
