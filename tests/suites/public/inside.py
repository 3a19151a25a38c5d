"""The server for everyone within the test's own process, on a loop whose time the test alone moves."""

import asyncio
import contextlib
import time

from everyone import Asking
from page import PATIENCE

from tukyamid.public.answers import Answers
from tukyamid.public.client_limits import Origins, read_networks
from tukyamid.public.http_server import Bounds, Parts, Server
from tukyamid.public.last_change import LastChange
from tukyamid.public.metrics import Metrics
from tukyamid.public.metrics_server import serve_metrics
from tukyamid.public.page_files import read_public_files
from tukyamid.public.public_command import listening
from tukyamid.public.root_sets import read_sets
from tukyamid.public.workers import Workers


class Loop(asyncio.SelectorEventLoop):
    """A loop in which no time passes by itself."""
    now = 1000.0

    def time(self):
        return self.now


class Inside(Asking):
    """The server, which the test asks from threads of its own."""

    def __init__(self, address, parts):
        self.address, self.parts = address, parts

    def figure(self, name):
        """One of the figures that Prometheus would read."""
        return self.parts.metrics.figures[name][1]()

    def move(self, seconds):
        asyncio.get_running_loop().now += seconds

    async def status(self, path, **headers):
        return (await asyncio.to_thread(self.request, path, **headers))[0]


def run(test):
    """Runs what a test does, on such a loop."""
    with asyncio.Runner(loop_factory=Loop) as runner:
        runner.run(test)


async def until(holds):
    """Waits until something holds."""
    end = time.monotonic() + PATIENCE
    while not holds():
        if time.monotonic() > end:
            raise AssertionError("it never holds")
        await asyncio.to_thread(time.sleep, 0.005)


@contextlib.asynccontextmanager
async def inside(service, sets, proxies=(), **bounds):
    """A server with one worker and these bounds, as long as it is needed."""
    given = Bounds(**bounds)
    last, workers = LastChange(str(service.questions)), Workers(str(service.questions), 1, given.seconds)
    parts = Parts(last, workers, Answers(workers, last), Metrics(), read_sets(sets[1::2]),
                  Origins(read_networks(proxies)), read_public_files())
    bound, begun = listening("127.0.0.1:0"), asyncio.Event()
    address = "http://%s:%d/" % bound.getsockname()
    serving = asyncio.create_task(Server(parts, given).run(bound, begun.set))
    try:
        await until(lambda: begun.is_set() or serving.done())
        yield Inside(address, parts)
    finally:
        serving.cancel()
        await asyncio.wait([serving])
        await workers.close()
        await last.close()


@contextlib.asynccontextmanager
async def metrics_of(server):
    """The metrics of a server at an address of their own, as long as they are needed."""
    bound = listening("127.0.0.1:0")
    async with contextlib.AsyncExitStack() as stack:
        address = "http://%s:%d/" % bound.getsockname()
        await serve_metrics(server.parts.metrics, bound, stack)
        yield Inside(address, server.parts)
