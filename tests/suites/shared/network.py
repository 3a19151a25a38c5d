"""Machines that are network namespaces on one bridge, each of which can be cut off."""

import contextlib
import ctypes
import itertools
import os
import string
import subprocess
import unittest

_NEW_NETWORK = 0x40000000  # CLONE_NEWNET
_LETTERS = itertools.cycle(string.ascii_lowercase)
_C = ctypes.CDLL(None, use_errno=True)


def ip(*words):
    subprocess.run(["ip", *map(str, words)], check=True, capture_output=True, text=True)


def may_make():
    """Whether namespaces can be made here."""
    name = f"tkm{os.getpid()}"
    try:
        ip("netns", "add", name)
        ip("netns", "del", name)
        return True
    except (OSError, subprocess.CalledProcessError):
        return False


needs_namespaces = unittest.skipUnless(not os.geteuid() and may_make(), "network namespaces need root and iproute2")


class Network:
    """`count` machines with the addresses 10.213.77.1 and so on."""

    def __init__(self, add_cleanup, count):
        self._bridge = f"tkm{os.getpid()}{next(_LETTERS)}"  # The system may still be ending the one before.
        add_cleanup(self._remove)
        self._names = [f"{self._bridge}n{place}" for place in range(count)]
        ip("link", "add", self._bridge, "type", "bridge")
        ip("link", "set", self._bridge, "up")
        for place, name in enumerate(self._names):
            ip("netns", "add", name)
            ip("link", "add", name, "type", "veth", "peer", "name", "eth0", "netns", name)
            ip("link", "set", name, "master", self._bridge, "up")
            for words in (("link", "set", "lo", "up"), ("link", "set", "eth0", "up"),
                          ("addr", "add", f"{self.at(place)}/24", "dev", "eth0")):
                ip("netns", "exec", name, "ip", *words)

    @staticmethod
    def at(place):
        return f"10.213.77.{place + 1}"

    @contextlib.contextmanager
    def inside(self, place):
        """Has this thread, and what it starts meanwhile, be on a machine."""
        with open("/proc/thread-self/ns/net", "rb") as before, open(f"/run/netns/{self._names[place]}", "rb") as there:
            _enter(there)
            try:
                yield
            finally:
                _enter(before)

    def cut(self, place):
        """Nothing that a machine sends arrives, and nothing that is sent to it."""
        ip("link", "set", self._names[place], "down")

    def heal(self, place):
        ip("link", "set", self._names[place], "up")

    def _remove(self):
        for words in (*(("netns", "del", name) for name in self._names), ("link", "del", self._bridge)):
            with contextlib.suppress(subprocess.CalledProcessError):
                ip(*words)


def _enter(file):
    if _C.setns(file.fileno(), _NEW_NETWORK):
        raise OSError(ctypes.get_errno(), "setns")
