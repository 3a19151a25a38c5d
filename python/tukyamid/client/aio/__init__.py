"""The client for asyncio: the names of the synchronous one, over a program (`start`) or a service (`connect`).

    async with await connect("/run/user/1000/tukyamid.socket") as service:
        answers = await asyncio.gather(*(service.ask("me", fpr, 120, user_id) for fpr, user_id in bindings))

Calls may overlap: each line is sent at once, and replies come in the order of the lines. A call that is cancelled has
sent its line whole, or not at all; its reply is read and dropped, and the connection can be used on.
"""

from .async_connection import Connection
from .async_endpoints import Client, Engine, connect, start
from .async_listing import Listing

__all__ = ["Client", "Connection", "Engine", "Listing", "connect", "start"]
