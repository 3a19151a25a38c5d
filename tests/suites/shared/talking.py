"""Services over a shared database, and clients that change it."""

import contextlib
import hashlib
import threading
import time

from outside import Client, Server, alone

def listed(client, line):
    """The lines of a reply that says first how many there are."""
    client.send(line)
    head = client.read_line()
    if head.startswith(b"fault "):
        raise AssertionError(head)
    return [client.read_line() for _ in range(int(head.split(b" ")[-1]))]


def dump_of(server):
    """The certificates and verdicts that a service reports."""
    with Client(server.path) as client:
        return [line for line in listed(client, b"dump") if not line.startswith(b"view ")]


def status_of(server):
    with Client(server.path) as client:
        return dict(line.split(b" ", 1) for line in listed(client, b"service status"))


def log_of(server, count=999_999):
    """What each change was, the latest first."""
    with Client(server.path) as client:
        return [line.split(b" ", 5)[5] for line in listed(client, b"service log %d" % count)]


def told(lines):
    """The certificates and verdicts that the program alone has after these lines."""
    return [line for line in alone([*lines, b"dump"])[-1].splitlines()[1:] if not line.startswith(b"view ")]


def serve(url, *options, **named):
    return Server("--database", url, "--engines", "1", *options, **named)


def change(server, lines, patience=200):
    """Has these changes made, one after another. `fault database` says that nothing was changed, as where a connection
    couldn't be had in time: then the line is sent again, as clients do."""
    end = time.monotonic() + patience
    with Client(server.path) as client:
        for line in lines:
            while not (reply := client.tell(line)).startswith(b"ok"):
                if reply != b"fault database" or time.monotonic() > end:
                    raise AssertionError(f"{reply} to {line[:40]}; the service said: {server.said()}")
                time.sleep(0.05)


class Writer(threading.Thread):
    """A client that changes something of its own with each line, for as long as it may. It notes the reply to
    each, and connects again when the service is gone."""

    def __init__(self, server, name, ahead=1, pause=0.0):
        super().__init__(daemon=True)
        self.kept, self.refused, self.uncertain = [], [], []
        self._server = server
        self._name = name
        self._ahead = ahead
        self._pause = pause
        self._end = threading.Event()
        self._count = 0

    def run(self):
        while not self._end.is_set():
            with contextlib.suppress(OSError), Client(self._server.path) as client:
                while not self._end.wait(self._pause):
                    self._tell(client)
            time.sleep(0.05)

    def _tell(self, client):
        lines = [self._next() for _ in range(self._ahead)]
        unheard = list(lines)
        try:
            client.send(*lines)
            for line in lines:
                reply = client.read_line()
                unheard.pop(0)
                self._note(line, reply)
        finally:
            self.uncertain += unheard

    def _next(self):
        self._count += 1
        number = hashlib.sha256(f"{self._name} {self._count}".encode()).hexdigest().encode()
        return b"verdict %s bad" % number

    def _note(self, line, reply):
        if reply == b"ok":
            self.kept.append(line)
        elif reply == b"fault uncertain":
            self.uncertain.append(line)
        else:
            assert reply == b"fault database", reply
            self.refused.append(line)
            time.sleep(0.05)

    def end(self):
        self._end.set()
        self.join()

    def wait_for(self, count):
        """Waits until that many more changes are acknowledged."""
        aim, end = len(self.kept) + count, time.monotonic() + 200
        while len(self.kept) < aim:
            if time.monotonic() > end:
                raise AssertionError("no change is acknowledged any more")
            time.sleep(0.02)


def check_kept(test, writers, servers, before=()):
    """What was acknowledged is there, what was refused isn't, and each change was made once. All services report the
    same. `before` is what was kept before the writers began."""
    wait_until_same(servers)
    dumps = [dump_of(server) for server in servers]
    for dump in dumps[1:]:
        test.assertEqual(dump, dumps[0])
    test.assertLessEqual(set(before), set(dumps[0]))
    there = set(dumps[0]) - set(before)
    for writer in writers:
        test.assertEqual([line for line in writer.kept if line not in there], [])
        test.assertEqual([line for line in writer.refused if line in there], [])
    made = [what.split(b" on ")[0] for what in log_of(servers[0]) if what.startswith(b"verdict ")]
    test.assertEqual(len(made), len(set(made)))
    maybe = {line for writer in writers for line in writer.uncertain}
    test.assertLessEqual(there - {line for writer in writers for line in writer.kept}, maybe)


def wait_until_same(servers, patience=200):
    """Waits until each service has all changes, and may change something itself."""
    end = time.monotonic() + patience
    while True:
        with contextlib.suppress(AssertionError, OSError):
            found = [status_of(server) for server in servers]
            if len({one[b"change"] for one in found}) == 1 and all(
                    one[b"state"] == b"ok" and int(one[b"age"]) <= 1 for one in found):
                return
        if time.monotonic() > end:
            raise AssertionError(f"the services don't agree: {found}")
        time.sleep(0.1)
