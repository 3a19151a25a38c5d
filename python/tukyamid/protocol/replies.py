"""The replies of the protocol, one type each. `reply_reader` reads them."""

from ..records import Value
from .claims import Claim, Label
from .reasons import ReasonWord, TargetWord


class Reply(Value):
    """What a line is answered with, if it isn't refused."""
    __slots__ = ()


class Done(Reply):
    """The change was made."""
    __slots__ = ()


class Taken(Reply):
    """Of an import: parseable keys, keys that were skipped, and what wasn't held before."""
    __slots__ = ("taken", "skipped", "new")

    def __init__(self, taken: int, skipped: int, new: int) -> None:
        self.taken, self.skipped, self.new = taken, skipped, new


class Stored(Reply):
    """Of a store: the size of the entry that was written, in octets."""
    __slots__ = ("size",)

    def __init__(self, size: int) -> None:
        self.size = size


class Step(Value):
    """One certification of a path. `user_id` is the user ID of `target` that it certifies."""
    __slots__ = ("issuer", "target", "depth", "amount", "user_id")

    def __init__(self, issuer: str, target: str, depth: int, amount: int, user_id: bytes) -> None:
        self.issuer, self.target, self.depth, self.amount, self.user_id = issuer, target, depth, amount, user_id


class Path(Value):
    """A path from a root to the target, and the amount that it adds."""
    __slots__ = ("amount", "root", "steps")

    def __init__(self, amount: int, root: str, steps: tuple[Step, ...]) -> None:
        self.amount, self.root, self.steps = amount, root, steps


class Answer(Reply):
    """The amount to which a user ID is authenticated: the sum of the paths' amounts. The paths are in the order in
    which they were found."""
    __slots__ = ("amount", "paths")

    def __init__(self, amount: int, paths: tuple[Path, ...]) -> None:
        self.amount, self.paths = amount, paths


class Binding(Value):
    """A user ID of a key, and the amount to which it is authenticated."""
    __slots__ = ("amount", "fpr", "user_id")

    def __init__(self, amount: int, fpr: str, user_id: bytes) -> None:
        self.amount, self.fpr, self.user_id = amount, fpr, user_id


class Reason(Value):
    """What a certification comes to. If it counts, `word` is `edge` and the last three are its own; else they are
    None."""
    __slots__ = ("number", "word", "issuer", "depth", "amount")

    def __init__(self, number: str, word: ReasonWord | str, issuer: str | None = None, depth: int | None = None,
                 amount: int | None = None) -> None:
        self.number, self.word = number, ReasonWord(word)
        self.issuer, self.depth, self.amount = issuer, depth, amount


class Explanation(Reply):
    """What a user ID of a key comes to, and each certification on it: a `Reason` each, in the order of their octets."""
    __slots__ = ("word", "reasons")

    def __init__(self, word: TargetWord | str, reasons: tuple[Reason, ...]) -> None:
        self.word, self.reasons = TargetWord(word), reasons


class Reached(Reply):
    """The answer reaches the wanted amount: nothing is missing."""
    __slots__ = ("amount",)

    def __init__(self, amount: int) -> None:
        self.amount = amount


class Missed(Reply):
    """The answer doesn't reach the wanted amount. `paths` are its paths, a `Claim` each, and `table` is the least table
    after them, a `Label` each: together a proof of absence, which anyone can check."""
    __slots__ = ("amount", "paths", "table")

    def __init__(self, amount: int, paths: tuple[Claim, ...], table: tuple[Label, ...]) -> None:
        self.amount, self.paths, self.table = amount, paths, table


class Accepted(Reply):
    """A claim holds: its paths are valid, and no more than this sum of theirs is there."""
    __slots__ = ("amount",)

    def __init__(self, amount: int) -> None:
        self.amount = amount


class Rejected(Reply):
    """A claim doesn't hold; `word` says which part: its `paths`, or else its `table`."""
    __slots__ = ("word",)

    def __init__(self, word: str) -> None:
        self.word = word


class PendingSignature(Value):
    """A well-formed signature without a verdict. `hint` is a fingerprint, a key ID of 16 digits, or None."""
    __slots__ = ("number", "fpr", "hint")

    def __init__(self, number: str, fpr: str, hint: str | None) -> None:
        self.number, self.fpr, self.hint = number, fpr, hint


class Key(Value):
    """A certificate: its fingerprint, and how many user IDs and signatures it has."""
    __slots__ = ("fpr", "user_ids", "signatures")

    def __init__(self, fpr: str, user_ids: int, signatures: int) -> None:
        self.fpr, self.user_ids, self.signatures = fpr, user_ids, signatures


class Exported(Reply):
    """A certificate's octets."""
    __slots__ = ("octets",)

    def __init__(self, octets: bytes) -> None:
        self.octets = octets


class Stale(Reply):
    """The list of a cursor has changed since the cursor began. `word` is what changed, `keyring` or `view`; its count
    was `then` at the beginning and is `now`."""
    __slots__ = ("word", "then", "now")

    def __init__(self, word: str, then: int, now: int) -> None:
        self.word, self.then, self.now = word, then, now


class Watched(Reply):
    """The amount of a watch's answer: at its beginning, and whenever it changes."""
    __slots__ = ("watch", "amount")

    def __init__(self, watch: str, amount: int) -> None:
        self.watch, self.amount = watch, amount


class Gone(Reply):
    """A watch whose view was closed; it has ended."""
    __slots__ = ("watch",)

    def __init__(self, watch: str) -> None:
        self.watch = watch
