"""Clients that talk to a service at the same time, each sending its lines in bursts while it reads the replies."""

import contextlib
import random
from concurrent.futures import ThreadPoolExecutor

from outside import Client

BURSTS = 1, 3, 20  # How many lines a client may send at once.


def talk(path, name, lines, seed, between=lambda: None):
    """Sends a name and these lines, and calls `between` before each burst. Returns the octets that were received, even
    if the connection was cut."""
    draw = random.Random(seed)
    received = bytearray()
    with Client(path) as client, ThreadPoolExecutor(1) as reader, contextlib.suppress(OSError):
        client.send(name)
        received += client.read_line() + b"\n"
        rest = reader.submit(_receive_all, client, received)
        place = 0
        with contextlib.suppress(OSError):
            while place < len(lines):
                size = draw.choice(BURSTS)
                between()
                client.send(*lines[place:place + size])
                place += size
            client.send_no_more()
        rest.result()
    return bytes(received)


def _receive_all(client, received):
    """Adds all that still comes."""
    for piece in client.pieces():
        received += piece


def talk_at_once(path, spoken, seed, between=lambda: None):
    """What each client received, by its name: all send their lines at the same time."""
    with ThreadPoolExecutor(len(spoken)) as pool:
        talks = {name: pool.submit(talk, path, name, lines, seed + place, between)
                 for place, (name, lines) in enumerate(spoken.items())}
    return {name: one.result() for name, one in talks.items()}
