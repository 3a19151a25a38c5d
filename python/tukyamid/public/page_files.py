"""The page's files for everyone. All but the page itself have the digest of all of them in their addresses, so that a
browser keeps them, and never mixes those of two versions."""

from __future__ import annotations

import hashlib
import re
from collections.abc import Mapping
from typing import NamedTuple

from ..web.page_files import read_files

_AS_THE_OWNERS, _FOR_EVERYONE = b'<html lang="en">', b'<html lang="en" data-public="yes">'
_PLACE, _OTHER_PLACE = b"All of it comes from this machine.", b"All of it comes from this server."
_NAMED = re.compile(rb'\b(src|href)="([a-z0-9_]+\.(?:js|css|svg))"')
FOR_EVER = "public, max-age=31536000, immutable"


class File(NamedTuple):
    """A file as it is sent; `keep` says for how long a cache may keep it."""
    content_type: str
    octets: bytes
    tag: str
    keep: str


def read_public_files() -> Mapping[str, File]:
    """The files by their paths. ValueError if the page isn't the one that is known here."""
    files = read_files()
    digest = hashlib.blake2b(digest_size=12)
    for name in sorted(files):
        digest.update(repr((name, len(files[name].octets))).encode() + files[name].octets)
    place, page = f"page-{digest.hexdigest()}", files.pop("").octets
    for known, other in (_AS_THE_OWNERS, _FOR_EVERYONE), (_PLACE, _OTHER_PLACE):
        if page.count(known) != 1:
            raise ValueError(f"the page has {known.decode()!r} {page.count(known)} times")
        page = page.replace(known, other)
    page = _NAMED.sub(rb'\1="' + place.encode() + rb'/\2"', page)
    tag = f'"{digest.hexdigest()}"'
    found = {f"/{place}/{name}": File(one.content_type, one.octets, tag, FOR_EVER) for name, one in files.items()}
    return {**found, "/": File("text/html", page, tag, "public, no-cache")}
