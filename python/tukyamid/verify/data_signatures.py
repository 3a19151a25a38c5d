"""The signatures on data, as the verifier finds them."""

import subprocess
from collections.abc import Iterable, Iterator, Sequence
from dataclasses import dataclass
from enum import StrEnum
from pathlib import Path

from ..keyrings.verifier import Verifier, VerifierFailed
from ..protocol import spelling


class Word(StrEnum):
    """What a signature on data comes to."""
    GOOD = "good"
    BAD = "bad"
    ABSENT = "absent"
    REFUSED = "refused"
    UNSUPPORTED = "unsupported"
    MALFORMED = "malformed"

    @property
    def meaning(self) -> str:
        return _MEANINGS[self]


_MEANINGS = {
    Word.GOOD: "a key of this certificate made it over these data, and was valid for that at the time",
    Word.BAD: "the key that it names didn't make it over these data",
    Word.ABSENT: "no key that it names is in the input",
    Word.REFUSED: "its key, its dates or its hash algorithm aren't acceptable",
    Word.UNSUPPORTED: "the verifier doesn't know its version or one of its algorithms",
    Word.MALFORMED: "it isn't a well-formed signature on data",
}


@dataclass(frozen=True)
class DataSignature:
    """A signature on data; what isn't known of it is None. `certificate` is the fingerprint of the signer's
    certificate, and `key` that of the key or subkey that signed, or only the key ID that the signature names."""
    word: Word
    made: int | None = None
    kind: int | None = None
    hash_algorithm: int | None = None
    certificate: str | None = None
    key: str | None = None
    why: str | None = None


class Outside(StrEnum):
    """Where there is text outside a signed message or text, which nobody signed."""
    BEFORE = "before"
    AFTER = "after"


_OUTSIDE = {f"outside {one}": one for one in Outside}


@dataclass(frozen=True)
class Found:
    """What the verifier found: the signatures in their order, and where there is unsigned text around what they
    sign."""
    signatures: tuple[DataSignature, ...]
    outside: tuple[Outside, ...] = ()


@dataclass(frozen=True)
class Signed:
    """What is signed: a file with its signatures in another file, or, without `signature`, a message or a text that
    has them in itself. `-` is standard input."""
    data: str
    signature: str | None = None

    def words(self) -> list[str]:
        return ["--data", self.data, *(["--signature", self.signature] if self.signature is not None else [])]


def signatures_on(signed: Signed, certificates: str, verifier: Verifier, at: int | None = None,
                  content: Path | None = None) -> Found:
    """The signatures on data, by the certificates of a file, as of a time or now. What a message holds is written to
    the new file `content`."""
    _ = verifier.version  # Another program's output is never taken for verdicts.
    words = [*verifier.words, *signed.words()]
    if at is not None:
        words += ["--at", str(at)]
    if content is not None:
        words += ["--content", str(content)]
    given = None if "-" in (signed.data, signed.signature) else subprocess.DEVNULL
    try:
        ended = subprocess.run([*words, "--", certificates], stdin=given, capture_output=True, check=False)
    except OSError as error:
        raise VerifierFailed(f"the verifier can't be started: {error}") from None
    # Its status 1 says that a part of the keyrings was left out.
    if ended.returncode not in (0, 1):
        errors = ended.stderr.decode("utf-8", "replace").strip().splitlines()
        last = _for_people(errors[-1]) if errors else f"the verifier ended with status {ended.returncode}"
        raise VerifierFailed(last)
    return _read_all(ended.stdout.decode("utf-8", "replace").splitlines())


def _read_all(lines: Sequence[str]) -> Found:
    return Found(tuple(_read_signatures(line for line in lines if line not in _OUTSIDE)),
                 tuple(_OUTSIDE[line] for line in lines if line in _OUTSIDE))


def _read_signatures(lines: Iterable[str]) -> Iterator[DataSignature]:
    for line in lines:
        try:
            mark, word, made, kind, hash_algorithm, certificate, key, why = line.split(" ", 7)
            if mark != "signature":
                raise ValueError(mark)
            yield DataSignature(Word(word), _number(made), _number(kind), _number(hash_algorithm),
                                _known(certificate), _known(key), _known(_for_people(why)))
        except ValueError:
            raise VerifierFailed(f"the verifier wrote something else than a signature: {line[:200]!r}") from None


def _known(text: str) -> str | None:
    return None if text == "-" else text


def _number(text: str) -> int | None:
    return None if text == "-" else int(text)


def _for_people(text: str) -> str:
    return spelling.for_people(text.encode("utf-8", "surrogateescape"))
