"""The questions: each reads its words, and then asks a view."""

from __future__ import annotations

from ..fast_imports import TYPE_CHECKING
from ..keyrings.assessment import assess, brief
from ..protocol.reasons import MissingWord
from ..protocol.spelling import for_people
from ..records import Value
from . import option_values
from .exit_statuses import WrongWords
from .key_names import resolve

if TYPE_CHECKING:
    from collections.abc import Callable, Iterable, Mapping

    from ..keyrings.assessment import Assessment
    from ..keyrings.keyring import View
    from .parsed_words import Given

    Ask = Callable[[View], "Found"]


class Found(Value):
    """What a question came to. `roots` are its own, if it needs no others."""
    __slots__ = ("assessments", "notes", "roots")

    def __init__(self, assessments: tuple[Assessment, ...], notes: tuple[str, ...] = (),
                 roots: Mapping[str, int] | None = None) -> None:
        self.assessments, self.notes, self.roots = assessments, notes, roots or {}


def read(given: Given) -> Ask:
    """What asks the question; WrongWords if its words are wrong."""
    question = QUESTIONS.get(given.question or "")
    if question is None:
        raise WrongWords(f"unknown question {given.question!r}")
    return question(given)


def words_of(given: Given, form: str) -> list[str]:
    """The words of a question that has a fixed number of them."""
    if len(given.words) != len(form.split()):
        raise WrongWords(f"{given.question} takes: {form}")
    return given.words


def key_of(text: str) -> str:
    try:
        return option_values.read_key(text)
    except ValueError as error:
        raise WrongWords(str(error)) from None


class UserIds:
    """The user IDs that a word names: one by its octets, or by `--email` all that have an address."""

    def __init__(self, given: Given, word: str) -> None:
        self._address = _address(word) if given.email else None
        self._user_id = option_values.read_user_id(word)

    def of_key(self, view: View, fpr: str) -> list[bytes]:
        """Those of a key. A user ID that is given whole is asked about, whether or not the key has it."""
        if self._address is None:
            return [self._user_id]
        from ..openpgp.addresses import address_of
        certificate = view.keyring.certificate(fpr)
        return [uid for uid in certificate.user_ids if address_of(uid) == self._address] if certificate else []

    def everywhere(self, view: View) -> Iterable[tuple[str, bytes]]:
        if self._address is None:
            return view.keyring.index.by_user_id(self._user_id)
        return view.keyring.index.by_address(self._address)

    def nowhere(self) -> tuple[str, ...]:
        """The note if no key has them."""
        if self._address is not None:
            return (f"no key in the keyring has a user ID with the address {self._shown_address()}",)
        return (f"no key in the keyring has exactly the user ID {for_people(self._user_id)}{self._by_address()}",)

    def _by_address(self) -> str:
        """What to do if a whole user ID was expected, and an address alone was given."""
        return "; with --email an address is enough" if b"@" in self._user_id and b"<" not in self._user_id else ""

    def _shown_address(self) -> str:
        return for_people((self._address or "").encode("utf-8", "surrogateescape"))

    def not_whole(self, found: Iterable[Assessment]) -> tuple[str, ...]:
        """The note if an address was taken for a whole user ID, which the key doesn't have."""
        hint = self._by_address() if self._address is None else ""
        return (hint.removeprefix("; "),) if hint and any(one.word is MissingWord.NO_UID for one in found) else ()

    def missing(self, fpr: str) -> tuple[str, ...]:
        """The note for a key that has none of them."""
        return (f"the key {fpr} isn't in the keyring, or has no user ID with the address {self._shown_address()}",)


def _address(word: str) -> str:
    from ..openpgp.addresses import canonical
    if "@" not in word.strip("@"):
        raise WrongWords(f"{word!r} isn't an e-mail address")
    return canonical(word)


def authenticate(given: Given) -> Ask:
    return _about_one_key(given, every=False)


def explain(given: Given) -> Ask:
    return _about_one_key(given, every=True)


def _about_one_key(given: Given, every: bool) -> Ask:
    key, word = words_of(given, "KEY USERID")
    key, user_ids = key_of(key), UserIds(given, word)

    def ask(view: View) -> Found:
        fpr = resolve(view.keyring, key)
        found = [assess(view, fpr, uid, given.amount, every) for uid in user_ids.of_key(view, fpr)]
        return Found(_best_first(found), user_ids.not_whole(found) if found else user_ids.missing(fpr))
    return ask


def lookup(given: Given) -> Ask:
    (word,) = words_of(given, "USERID")
    user_ids = UserIds(given, word)

    def ask(view: View) -> Found:
        found = _each(view, given, user_ids.everywhere(view))
        return Found(found, () if found else user_ids.nowhere())
    return ask


def identify(given: Given) -> Ask:
    (word,) = words_of(given, "KEY")
    if given.email:
        raise WrongWords("identify takes a key, not an address: --email goes with the other questions")
    key = key_of(word)

    def ask(view: View) -> Found:
        fpr = resolve(view.keyring, key)
        certificate = view.keyring.certificate(fpr)
        if certificate is None:
            return Found((), (f"the key {fpr} isn't in the keyring",))
        return Found(_each(view, given, ((fpr, uid) for uid in certificate.user_ids)))
    return ask


def _each(view: View, given: Given, bindings: Iterable[tuple[str, bytes]]) -> tuple[Assessment, ...]:
    return _best_first([assess(view, fpr, uid, given.amount) for fpr, uid in sorted(set(bindings))])


def _best_first(found: list[Assessment]) -> tuple[Assessment, ...]:
    return tuple(sorted(found, key=lambda one: -one.amount))


def list_bindings(given: Given) -> Ask:
    if len(given.words) > 1:
        raise WrongWords("list takes: [PATTERN]")
    pattern = given.words[0].casefold() if given.words else ""
    with_paths = given.paths or given.format == "dot"

    def is_sought(user_id: bytes) -> bool:
        if not given.email:
            return pattern in user_id.decode("utf-8", "surrogateescape").casefold()
        from ..openpgp.addresses import address_of
        address = address_of(user_id)
        return address is not None and pattern in address.casefold()

    def ask(view: View) -> Found:
        listed = [one for one in view.list(given.amount) if is_sought(one.user_id)]
        if with_paths:
            found = tuple(assess(view, one.fpr, one.user_id, given.amount) for one in listed)
        else:
            found = tuple(brief(view, one, given.amount) for one in listed)
        return Found(found, () if found else (_nothing_listed(given),))
    return ask


def _nothing_listed(given: Given) -> str:
    pattern = for_people(given.words[0].encode("utf-8", "surrogateescape")) if given.words else ""
    having = f" that has {pattern} in its {'address' if given.email else 'user ID'}" if pattern else ""
    return f"no binding{having} reaches the amount {given.amount}"


def path(given: Given) -> Ask:
    from .path_question import read_path
    return read_path(given)


QUESTIONS: dict[str, Callable[[Given], Ask]] = {
    "authenticate": authenticate, "lookup": lookup, "identify": identify, "list": list_bindings, "explain": explain,
    "path": path}
