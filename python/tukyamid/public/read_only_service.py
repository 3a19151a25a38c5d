"""A connection to a service that can't change anything: one that could isn't used."""

from __future__ import annotations

from ..client import Client, connect
from ..command.exit_statuses import NoAnswer
from ..protocol.commands import Drop
from ..protocol.refusals import Refused, RefusedReadOnly

# No certificate has this fingerprint, so even a service that would do it changes nothing.
NOBODYS = Drop("0" * 40).line()


class MayChange(NoAnswer):
    """The socket is one over which the keyring can be changed."""

    def __init__(self, path: str) -> None:
        super().__init__(f"{path} isn't a read-only socket, and one that can change the keyring isn't used here "
                         "(tukyamid-server serve --read-only-socket PATH)")


def connect_read_only(path: str, patience: float) -> Client:
    """Connects to the service at a socket. MayChange if changes would be accepted there."""
    client = connect(path, patience)
    try:
        client.send_line(NOBODYS)
    except RefusedReadOnly:
        return client
    except Refused:
        pass
    except BaseException:
        client.close()
        raise
    client.close()
    raise MayChange(path)
