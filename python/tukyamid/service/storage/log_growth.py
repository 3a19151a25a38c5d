"""How much the database's log has grown because it is read."""


class LogGrowth:
    """A log's file stays as large as a large change has made it, until another change restarts it. Nobody who reads
    meanwhile is to blame."""

    def __init__(self) -> None:
        self._before = 0

    def grown(self, octets: int, is_read: bool) -> int:
        """By how much a log of this size has grown since it was last looked at while nobody was reading."""
        self._before = min(self._before, octets) if is_read else octets
        return octets - self._before
