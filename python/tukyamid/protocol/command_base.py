"""What commands are: a line, what answers it, and the fields that several of them have."""

from __future__ import annotations

from ..fast_imports import ClassVar, Generic, TypeVar
from ..records import Value
from . import spelling
from .refusals import ProtocolError
from .replies import Reply
from .spelling import UserId

MOST_WANTED = 2**32 - 1

R = TypeVar("R", bound=Reply)
T = TypeVar("T")


class Line(Value):
    """Any command. `form` is its line, with its fields in braces."""
    __slots__ = ()
    form: ClassVar[str]

    def line(self) -> bytes:
        """The line's octets, without a line feed."""
        return self.form.format(self).encode("ascii")


class Command(Line, Generic[R]):
    """A command that is answered by one reply, of one of the types `replies`."""
    __slots__ = ()
    replies: tuple[type[R], ...]

    def take(self, reply: object) -> R:
        """The reply, if it is one that answers this command; else a ProtocolError."""
        for kind in self.replies:
            if isinstance(reply, kind):
                return reply
        raise ProtocolError(f"{self.form.partition(' ')[0]} was answered with {str(reply)[:200]}")


class ListingCommand(Line, Generic[T]):
    """A command that is answered by a listing, whose items are of this type."""
    __slots__ = ()
    item: type[T]


def wanted_amount(value: int) -> int:
    """An amount that a question may want."""
    return spelling.decimal(value, 1, MOST_WANTED, "wanted amount")


class OfKey(Line):
    """A command about one key."""
    __slots__ = ("fpr",)

    def __init__(self, fpr: str) -> None:
        self.fpr = spelling.fingerprint(fpr)


class OfSignature(Line):
    """A command about one signature."""
    __slots__ = ("number",)

    def __init__(self, number: str) -> None:
        self.number = spelling.number(number)


class Named(Line):
    """A command about one view, cursor or watch."""
    __slots__ = ("name",)

    def __init__(self, name: str) -> None:
        self.name = spelling.view_name(name)


class Question(Line):
    """A question about a user ID of a key, in a view."""
    __slots__ = ("view", "fpr", "user_id")

    def __init__(self, view: str, fpr: str, user_id: UserId) -> None:
        self.view, self.fpr = spelling.view_name(view), spelling.fingerprint(fpr)
        self.user_id = spelling.user_id(user_id)

    @property
    def uid(self) -> str:
        """The user ID as a line spells it."""
        return spelling.write_user_id(self.user_id)


class WantedQuestion(Question):
    """A question that has a wanted amount."""
    __slots__ = ("wanted",)

    def __init__(self, view: str, fpr: str, wanted: int, user_id: UserId) -> None:
        super().__init__(view, fpr, user_id)
        self.wanted = wanted_amount(wanted)
