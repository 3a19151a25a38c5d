"""Whose request it is, and how many requests an address may send."""

from __future__ import annotations

import ipaddress
import time
from collections import OrderedDict
from collections.abc import Callable, Mapping, Sequence

MOST_ADDRESSES = 1 << 16
MOST_HOPS = 32
Network = ipaddress.IPv4Network | ipaddress.IPv6Network


def read_networks(words: Sequence[str]) -> tuple[Network, ...]:
    """The addresses and networks of proxies that may say whose request they pass on."""
    return tuple(map(ipaddress.ip_network, words))


class Origins:
    """Finds the address that a request comes from. Only a listed proxy, or one at a Unix socket, is believed when it
    names another address than its own."""

    def __init__(self, proxies: Sequence[Network]) -> None:
        self._proxies = proxies

    def of(self, peer: str | None, headers: Mapping[str, str]) -> str:
        """The address; `peer` is None for a Unix socket. One of IPv6 counts as its whole network of 64 bits."""
        if peer is not None and not self._is_proxy(peer):
            return _share(peer)
        for address in reversed(_named(headers)[-MOST_HOPS:]):
            if not _is_address(address):
                break
            peer = address
            if not self._is_proxy(address):
                break
        return _share(peer) if peer is not None else "unix"

    def _is_proxy(self, address: str) -> bool:
        found = ipaddress.ip_address(address)
        return any(found in network for network in self._proxies)


def _named(headers: Mapping[str, str]) -> list[str]:
    """The addresses of the header X-Forwarded-For, or else of Forwarded, the nearest last. Few proxies write
    Forwarded, and others pass on what a visitor wrote there."""
    if "Forwarded" in headers and "X-Forwarded-For" not in headers:
        parts = [part.strip() for one in headers["Forwarded"].split(",") for part in one.split(";")]
        named = [part[4:].strip('"') for part in parts if part.lower().startswith("for=")]
    else:
        named = [part.strip() for part in headers.get("X-Forwarded-For", "").split(",")]
    return [_without_port(one) for one in named]


def _without_port(text: str) -> str:
    if text.startswith("["):
        return text[1:].partition("]")[0]
    return text.partition(":")[0] if text.count(":") == 1 else text


def _is_address(text: str) -> bool:
    try:
        ipaddress.ip_address(text)
    except ValueError:
        return False
    return True


def _share(address: str) -> str:
    found = ipaddress.ip_address(address)
    if isinstance(found, ipaddress.IPv6Address):
        found = found.ipv4_mapped or found
    if isinstance(found, ipaddress.IPv6Address):
        return str(ipaddress.ip_network((int(found) >> 64 << 64, 64)))
    return str(found)


class Rates:
    """A bucket for each address: it holds `burst` requests, and `rate` a second come back. An address that was unused
    for longest is forgotten if there are too many."""

    def __init__(self, rate: float, burst: float, clock: Callable[[], float] = time.monotonic) -> None:
        self._rate, self._burst, self._clock = rate, burst, clock
        self._left: OrderedDict[str, tuple[float, float]] = OrderedDict()

    def wait(self, address: str, cost: float = 1.0) -> float:
        """Takes a request from the bucket of an address. Returns 0, or after how many seconds it may try again. What
        costs less than others is a part of a request."""
        now = self._clock()
        left, since = self._left.pop(address, (self._burst, now))
        left = min(self._burst, left + (now - since) * self._rate)
        is_let_in = left >= cost
        self._left[address] = left - cost if is_let_in else left, now
        if len(self._left) > MOST_ADDRESSES:
            self._left.popitem(last=False)
        return 0.0 if is_let_in else (cost - left) / self._rate
