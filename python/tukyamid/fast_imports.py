"""Parts of the standard library without the rest of their modules, so that a question of the command starts at once.

`typing`, `socket`, `threading`, `signal` and `hashlib` take three times as long to import as the interpreter takes to
start. Type checkers read the modules themselves. At run time what is named here comes from their C modules, and what
only checkers need does nothing. Where a Python lacks such a C module, the module around it is imported.
"""

__all__ = ["AF_UNIX", "SHUT_RDWR", "SIGINT", "SOCK_STREAM", "SOL_SOCKET", "SO_PEERCRED", "TYPE_CHECKING", "Any",
           "BareSocket", "ClassVar", "Generic", "Protocol", "RLock", "SimpleQueue", "TypeVar", "allocate_lock", "cast",
           "sha1", "sha256", "signal", "start_new_thread"]

TYPE_CHECKING = False

if TYPE_CHECKING:
    from _thread import allocate_lock, start_new_thread
    from hashlib import sha1, sha256
    from queue import SimpleQueue
    from signal import SIGINT, signal
    from socket import AF_UNIX, SHUT_RDWR, SO_PEERCRED, SOCK_STREAM, SOL_SOCKET
    from socket import socket as BareSocket
    from threading import RLock
    from typing import Any, ClassVar, Generic, Protocol, TypeVar, cast
else:
    try:
        from _sha1 import sha1
        try:
            from _sha2 import sha256
        except ImportError:  # Before Python 3.12.
            from _sha256 import sha256
    except ImportError:
        from hashlib import sha1, sha256
    from _queue import SimpleQueue
    from _signal import SIGINT, signal
    from _socket import AF_UNIX, SHUT_RDWR, SO_PEERCRED, SOCK_STREAM, SOL_SOCKET
    from _socket import socket as BareSocket
    from _thread import RLock, allocate_lock, start_new_thread

    class _Parameterised:
        """A base whose parameters are for checkers."""
        __slots__ = ()

        def __class_getitem__(cls, _):
            return cls

    class Generic(_Parameterised):
        """What `typing.Generic` is to a checker."""
        __slots__ = ()

    class Protocol(_Parameterised):
        """What `typing.Protocol` is to a checker."""
        __slots__ = ()

    Any = object
    ClassVar = _Parameterised

    def TypeVar(*_, **__):
        """A type variable: nothing."""

    def cast(_, value):
        """The value."""
        return value
