"""How octets are cut: what a client sends into lines, and what an engine writes into replies."""

from collections.abc import Iterator

from tukyamid.protocol.spelling import LONGEST_LINE

_LISTS = frozenset((b"keys", b"dump", b"pending", b"list", b"piece"))


class LineCutter:
    """Cuts octets into lines as they come. A line of too many octets is skipped and yields None."""

    def __init__(self, longest: float = LONGEST_LINE) -> None:
        self._longest = longest
        self._pieces: list[bytes] = []
        self._length = 0

    @property
    def unfinished(self) -> int:
        """How many octets of an unfinished line are held."""
        return self._length if self._pieces else 0

    def cut(self, octets: bytes) -> Iterator[bytes | None]:
        """The lines that end within these octets, without their line feeds."""
        *ends, rest = octets.split(b"\n")
        for piece in ends:
            if not self._length and len(piece) <= self._longest:
                yield piece
                continue
            self._hold(piece)
            yield b"".join(self._pieces) if self._length <= self._longest else None
            self._pieces, self._length = [], 0
        if rest:
            self._hold(rest)

    def _hold(self, piece: bytes) -> None:
        self._length += len(piece)
        if self._length <= self._longest:
            self._pieces.append(piece)
        else:
            self._pieces.clear()


class ReplyCutter:
    """Cuts octets into whole replies as they come: one line, or a first line that says how many follow."""

    def __init__(self) -> None:
        self._lines = LineCutter(longest=float("inf"))
        self._reply: list[bytes] = []
        self._items = 0
        self._paths = 0

    def cut(self, octets: bytes) -> Iterator[bytes]:
        """The replies that end within these octets, with their line feeds."""
        for line in self._lines.cut(octets):
            assert line is not None
            if not self._reply and line.startswith(b"ok"):
                yield line + b"\n"
                continue
            self._reply.append(line)
            if self._items:
                self._items -= 1
            elif self._paths:
                self._paths -= 1
                self._items = int(line.split(b" ")[3])
            else:
                self._items, self._paths = following(line)
            if not self._items and not self._paths:
                self._reply.append(b"")
                yield b"\n".join(self._reply)
                self._reply = []


def following(first: bytes) -> tuple[int, int]:
    """How many lines, and how many paths with lines of their own, follow the first line of a reply."""
    words = first.split(b" ", 4)
    if words[0] == b"amount":
        return 0, int(words[3])
    if words[0] in _LISTS:
        return int(words[1]), 0
    if words[0] == b"explain":
        return int(words[2]), 0
    if words[:2] == [b"absence", b"missed"]:
        return 1, 0
    return 0, 0
