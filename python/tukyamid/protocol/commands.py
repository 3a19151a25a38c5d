"""The commands of the protocol, one type each. `line()` returns a command's line, without its line feed. A field that
has no spelling is a ValueError when the command is made. `script_reader` reads the lines of all types with a `form`, so
a type's parameters are the fields of its form, in their order.

>>> Ask("me", "fac804259d6b2997afe074fcd2112d7c6c04741c", 120, "Alice").line()
b'ask me fac804259d6b2997afe074fcd2112d7c6c04741c 120 Alice'
"""

from __future__ import annotations

from ..fast_imports import TYPE_CHECKING
from . import claims, spelling
from .claims import Claim, Label
from .command_base import (MOST_WANTED, Command, ListingCommand, Named, OfKey, OfSignature, Question, WantedQuestion,
                           wanted_amount)
from .replies import (Accepted, Answer, Binding, Done, Explanation, Exported, Key, Missed, PendingSignature, Reached,
                      Rejected, Stored, Taken, Watched)
from .spelling import UserId

if TYPE_CHECKING:
    from collections.abc import Iterable

MOST_TIME = 2**32 - 1
TRUST_ROOT = "trust-root"


class Import(Command[Taken]):
    """Merges certificates into the keyring."""
    __slots__ = ("octets",)
    form, replies = "import {0.digits}", (Taken,)

    def __init__(self, octets: bytes) -> None:
        self.octets = bytes(octets)

    @property
    def digits(self) -> str:
        """The octets as a line spells them."""
        return self.octets.hex()


class Load(Command[Taken]):
    """Merges one entry of the certificate directory that the engine was started with."""
    __slots__ = ("name",)
    form, replies = "load {0.name}", (Taken,)

    def __init__(self, name: str) -> None:
        self.name = name if name == TRUST_ROOT else spelling.fingerprint(name)


class Store(OfKey, Command[Stored]):
    """Writes a certificate, merged with its entry in that directory, in place of the entry."""
    __slots__ = ()
    form, replies = "store {0.fpr}", (Stored,)


class Drop(OfKey, Command[Done]):
    """Takes a certificate out of the keyring."""
    __slots__ = ()
    form, replies = "drop {0.fpr}", (Done,)


class Export(OfKey, Command[Exported]):
    """Asks for a certificate's octets."""
    __slots__ = ()
    form, replies = "export {0.fpr}", (Exported,)


class Good(Command[Done]):
    """Says that a signature is by this key."""
    __slots__ = ("number", "fpr")
    form, replies = "verdict {0.number} good {0.fpr}", (Done,)

    def __init__(self, number: str, fpr: str) -> None:
        self.number, self.fpr = spelling.number(number), spelling.fingerprint(fpr)


class Bad(OfSignature, Command[Done]):
    """Says that a signature is nobody's."""
    __slots__ = ()
    form, replies = "verdict {0.number} bad", (Done,)


class Unjudge(OfSignature, Command[Done]):
    """Takes a signature's verdict away."""
    __slots__ = ()
    form, replies = "verdict {0.number} none", (Done,)


class Time(Command[Done]):
    """Opens a view at a time, or moves its time."""
    __slots__ = ("view", "time")
    form, replies = "view {0.view} time {0.time}", (Done,)

    def __init__(self, view: str, time: int) -> None:
        self.view, self.time = spelling.view_name(view), spelling.decimal(time, 0, MOST_TIME, "time")


class Root(Command[Done]):
    """Sets a trust root's amount; 0 removes the root."""
    __slots__ = ("view", "fpr", "amount")
    form, replies = "view {0.view} root {0.fpr} {0.amount}", (Done,)

    def __init__(self, view: str, fpr: str, amount: int) -> None:
        self.view, self.fpr = spelling.view_name(view), spelling.fingerprint(fpr)
        self.amount = spelling.decimal(amount, 0, 255, "amount")


class Close(Named, Command[Done]):
    """Closes a view."""
    __slots__ = ()
    form, replies = "view {0.name} close", (Done,)


class Ask(WantedQuestion, Command[Answer]):
    """Asks for the amount to which a user ID is authenticated."""
    __slots__ = ()
    form, replies = "ask {0.view} {0.fpr} {0.wanted} {0.uid}", (Answer,)


class Explain(Question, Command[Explanation]):
    """Asks what each certification of a user ID comes to."""
    __slots__ = ()
    form, replies = "explain {0.view} {0.fpr} {0.uid}", (Explanation,)


class Absence(WantedQuestion, Command[Reached | Missed]):
    """Asks why the answer to a wanted amount doesn't reach it."""
    __slots__ = ()
    form, replies = "absence {0.view} {0.fpr} {0.wanted} {0.uid}", (Reached, Missed)


class Check(Question, Command[Accepted | Rejected]):
    """Asks whether these paths and this table show that no more is there."""
    __slots__ = ("paths", "table")
    form, replies = "check {0.view} {0.fpr} {0.paths_text} {0.table_text} {0.uid}", (Accepted, Rejected)

    def __init__(self, view: str, fpr: str, paths: Iterable[Claim], table: Iterable[Label], user_id: UserId) -> None:
        super().__init__(view, fpr, user_id)
        self.paths, self.table = claims.paths(paths), claims.table(table)

    @property
    def paths_text(self) -> str:
        """The paths as a line spells them."""
        return claims.write_paths(self.paths)

    @property
    def table_text(self) -> str:
        """The table as a line spells it."""
        return claims.write_table(self.table)


class List(ListingCommand[Binding]):
    """Asks for the bindings that reach the wanted amount."""
    __slots__ = ("view", "wanted")
    form, item = "list {0.view} {0.wanted}", Binding

    def __init__(self, view: str, wanted: int) -> None:
        self.view, self.wanted = spelling.view_name(view), wanted_amount(wanted)


class Pending(ListingCommand[PendingSignature]):
    """Asks for the signatures that have no verdict."""
    __slots__ = ()
    form, item = "pending", PendingSignature


class Keys(ListingCommand[Key]):
    """Asks for the certificates."""
    __slots__ = ()
    form, item = "keys", Key


class Dump(ListingCommand[bytes]):
    """Asks for the state as a script."""
    __slots__ = ()
    form, item = "dump", bytes


class CursorOver(Command[Done]):
    """Starts or restarts a cursor over the bindings of `list`."""
    __slots__ = ("cursor", "view", "wanted")
    form, replies = "cursor {0.cursor} over {0.view} {0.wanted}", (Done,)

    def __init__(self, cursor: str, view: str, wanted: int) -> None:
        self.cursor, self.view = spelling.view_name(cursor), spelling.view_name(view)
        self.wanted = wanted_amount(wanted)


class CursorNext(ListingCommand[Binding]):
    """Asks for a cursor's next bindings. `Stale` may answer it too."""
    __slots__ = ("cursor", "count")
    form, item = "cursor {0.cursor} next {0.count}", Binding

    def __init__(self, cursor: str, count: int) -> None:
        self.cursor, self.count = spelling.view_name(cursor), spelling.decimal(count, 1, MOST_WANTED, "count")


class CursorClose(Named, Command[Done]):
    """Takes a cursor away."""
    __slots__ = ()
    form, replies = "cursor {0.name} close", (Done,)


class WatchOn(WantedQuestion, Command[Watched]):
    """Asks for an answer's amount now, and again whenever it changes."""
    __slots__ = ("watch",)
    form, replies = "watch {0.watch} on {0.view} {0.fpr} {0.wanted} {0.uid}", (Watched,)

    def __init__(self, watch: str, view: str, fpr: str, wanted: int, user_id: UserId) -> None:
        super().__init__(view, fpr, wanted, user_id)
        self.watch = spelling.view_name(watch)


class WatchOff(Named, Command[Done]):
    """Removes a watch."""
    __slots__ = ()
    form, replies = "watch {0.name} off", (Done,)
