"""The words of a reply, and refusals."""


class Refused(Exception):
    """The line is refused and changes nothing. `words` are those behind `refused`."""

    def __init__(self, *words):
        super().__init__(*words)
        self.words = words


def words(*parts):
    return " ".join(part.hex() if isinstance(part, bytes) else str(part) for part in parts)
