"""A service with readers, and what its clients must have heard by the orders of lines that it and its readers note."""

import contextlib
import json
import re
from pathlib import Path

from outside import Client, Server, cut, expected, is_change

REFUSED = b"fault database\n", b"fault uncertain\n"
_BEGIN = re.compile(rb"# begins behind change ([0-9]+)")


class ReadServer(Server):
    """A service with this many readers, all of which are ready before anybody else connects."""

    def __init__(self, readers, *options, **named):
        self.readers = readers
        super().__init__("--readers", str(readers), *options, **named)

    def _is_there(self):
        if self.process.poll() is not None:
            raise AssertionError(f"the server ended: {self.said()}")
        with contextlib.suppress(OSError):
            return int(self.status()[b"readers"]) == self.readers
        return False

    def status(self):
        with Client(self.path) as client:
            return status_of(client)

    def spread(self, enter):
        """One client of each reader. They are handed to the reader that has the fewest, once others are counted no
        more."""
        first = enter(Client(self.path))
        self.wait_for(lambda: status_of(first)[b"clients"] == b"1")
        return [first, *(enter(Client(self.path)) for _ in range(self.readers - 1))]

    def reader_pids(self):
        """The readers' process numbers, by the order in which they were started."""
        found = {}
        for pid in self.engines():
            with contextlib.suppress(OSError):
                words = Path(f"/proc/{pid}/cmdline").read_bytes().split(b"\0")
                if any(b"tukyamid.service.readers" in word for word in words):
                    found[int(json.loads(words[-2])["order"].rpartition(".")[2])] = pid
        return [found[place] for place in sorted(found)]

    def orders(self):
        """What each reader has noted: where it began, what others changed, and its own clients' lines. The first one,
        which is never killed, has all changes."""
        places = sorted(self.folder.glob("order.*"), key=lambda path: int(path.suffix[1:]))
        files = [numbered(path) for path in places]
        changes = [line for number, line in files[0] if number == 0 and is_change(line)]
        return [self._from_the_beginning(file, changes) for file in files if file]

    @staticmethod
    def _from_the_beginning(file, changes):
        begin = int(_BEGIN.fullmatch(file[0][1])[1])
        return [*((0, line) for line in changes[:begin]), *file[1:]]


def status_of(client):
    client.send(b"service status")
    count = int(client.read_line().split(b" ")[2])
    return dict(client.read_line().split(b" ", 1) for _ in range(count))


def numbered(path):
    lines = (line.split(b" ", 1) for line in path.read_bytes().split(b"\n")[:-1])
    return [(int(number), line) for number, line in lines]


def is_refused(line, reply):
    """Whether nobody has made a change: the database couldn't take it. Here none is ended between a commit and its
    reply, so what is uncertain wasn't made either."""
    return reply in REFUSED and is_change(line)


class Replay:
    """What clients must have heard, by the orders of lines that a service and its readers have noted. `talks` has the
    lines that each client sent and the replies that it got, by its first line."""

    def __init__(self, server, talks, make_directory):
        self._talks = talks
        self._make_directory = make_directory
        self._orders = server.orders()
        self._order = self._without_refused(server.order())
        self.changes = [line for _, line in self._order if is_change(line)]

    def _without_refused(self, order):
        """The order of the service. It has changes that were refused, too."""
        refused = set()
        for name, talk in self._talks.items():
            number = next((number for own in (*self._orders, order) for number, line in own if line == name), None)
            places = (place for place, (by, line) in enumerate(order) if by == number and is_change(line))
            for place, (line, reply) in zip(places, [one for one in zip(*talk) if is_change(one[0])]):
                assert order[place][1] == line
                if is_refused(line, reply):
                    refused.add(place)
        return [one for place, one in enumerate(order) if place not in refused]

    def told(self, name):
        """To each line of a client for which it has a reply: to its changes by the order of the service, and to the
        others by that of its reader."""
        heard = list(zip(*self._talks[name]))
        answers = iter(self._answers(name, [line for line, reply in heard if not is_refused(line, reply)]))
        return [reply if is_refused(line, reply) else next(answers) for line, reply in heard]

    def _answers(self, name, sent):
        order = next((order for order in self._orders if any(line == name for _, line in order)), None)
        if order is None:  # It was the service's own client, while no reader was there.
            return list(cut(expected(self._order, name, len(sent), self._make_directory)[1]))
        number = next(number for number, line in order if line == name)
        questions = [line for line in sent if not is_change(line)]
        own, replies = expected(order, name, len(questions), self._make_directory)
        assert own == questions, (own[-3:], questions[len(own) - 1:len(own) + 2])
        answers = iter(cut(replies))
        others = iter(self._of_changes(number, sum(map(is_change, sent))))
        return [next(others if is_change(line) else answers) for line in sent]

    def _of_changes(self, number, count):
        order = self._order
        own = [line for by, line in order if by == number]
        if not own:
            assert not count
            return []
        name, place = b"keys of-%d" % number, next(place for place, (by, _) in enumerate(order) if by == number)
        order = [*order[:place], (number, name), *order[place:]]
        _, replies = expected(order, name, count + 1, self._make_directory)
        return list(cut(replies))[1:]
