"""A client of the service: `connect` to its socket, and ask.

    with connect("/run/user/1000/tukyamid.socket") as service:
        service.open_view("me", 1764547200)

`Client` has the calls of `tukyamid.Engine`, and those that only a service answers. `tukyamid.client.aio` has the same,
asynchronous, for programs and sockets. Each name is imported when it is first used.
"""

from ..fast_imports import TYPE_CHECKING

if TYPE_CHECKING:
    from .connection import Connection
    from .listing import Listing
    from .service_client import Client, connect

_HOMES = {"Client": "service_client", "Connection": "connection", "Listing": "listing", "connect": "service_client"}

__all__ = ["Client", "Connection", "Listing", "connect"]

if not TYPE_CHECKING:
    def __getattr__(name):
        if name not in _HOMES:
            raise AttributeError(f"module {__name__!r} has no attribute {name!r}")
        import importlib
        value = globals()[name] = getattr(importlib.import_module(f".{_HOMES[name]}", __name__), name)
        return value
