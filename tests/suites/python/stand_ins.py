"""What stands in for a service in the tests of the client: a socket with a set program behind each connection, and the
asynchronous client behind calls that wait."""

import asyncio
import contextlib
import inspect
import socket
import subprocess
import tempfile
import threading
from pathlib import Path

from outside import FAKE_ENGINE


class FakeService:
    """Listens on a socket; each connection is a fake engine's input and output."""

    def __init__(self, words=FAKE_ENGINE):
        self._folder = tempfile.TemporaryDirectory(prefix="tukyamid-client-")
        self.path = Path(self._folder.name) / "socket"
        self._words = words
        self._listening = socket.socket(socket.AF_UNIX)
        self._listening.bind(str(self.path))
        self._listening.listen()
        self._programs = []
        threading.Thread(target=self._serve, daemon=True).start()

    def _serve(self):
        with contextlib.suppress(OSError):
            while True:
                connected, _ = self._listening.accept()
                with connected:
                    self._programs.append(subprocess.Popen([*self._words, "run"], stdin=connected, stdout=connected,
                                                           stderr=subprocess.DEVNULL))

    def close(self):
        self._listening.shutdown(socket.SHUT_RDWR)
        self._listening.close()
        for program in self._programs:
            program.kill()
            program.wait()
        self._folder.cleanup()


class Waiting:
    """An asynchronous connection, whose calls are waited for: so the tests of the plain client fit it too."""

    def __init__(self, opening):
        self._loop = asyncio.new_event_loop()
        self._thread = threading.Thread(target=self._loop.run_forever, daemon=True)
        self._thread.start()
        self._connection = self._wait(opening())

    def _wait(self, awaitable):
        return asyncio.run_coroutine_threadsafe(awaitable, self._loop).result(60)

    def __enter__(self):
        return self

    def __exit__(self, *_):
        self.close()

    def close(self):
        if not self._thread.is_alive():
            return self._status
        self._status = self._wait(self._connection.close())
        self._loop.call_soon_threadsafe(self._loop.stop)
        self._thread.join()
        self._loop.close()
        return self._status

    def __getattr__(self, name):
        call = getattr(self._connection, name)

        def waited(*words, **named):
            result = call(*words, **named)
            return self._plain(self._wait(result) if inspect.isawaitable(result) else result)
        return waited

    def _plain(self, result):
        if not hasattr(result, "__aiter__"):
            return result
        return WaitingItems(result, self._wait)


class WaitingItems:
    """The items of an asynchronous listing."""

    def __init__(self, items, wait):
        self.count = getattr(items, "count", None)
        self._items, self._wait = items, wait

    def __iter__(self):
        return self

    def __next__(self):
        async def following():
            return await anext(self._items, None)
        item = self._wait(following())
        if item is None:
            raise StopIteration
        if hasattr(item, "__aiter__"):
            return WaitingItems(item, self._wait)
        return item
