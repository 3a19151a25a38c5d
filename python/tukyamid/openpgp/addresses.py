"""E-mail addresses, compared as mail programs do: letters of either case, and domains in any of their spellings.

Strangers write addresses, and the time that a domain's spelling takes grows with the square of its length. So what is
longer than an address can be (RFC 5321, section 4.5.3.1, and RFC 1035, section 2.3.4) isn't one.
"""

import re

from ..third_party import find_libraries

MOST_OCTETS, MOST_OF_A_LABEL = 254, 63
_ADDRESS = re.compile(r"[^<>\s]+@[^<>\s]+")
_DOTS = re.compile("[.\u3002\uff0e\uff61]")  # Those that IDNA takes for dots (RFC 3490, section 3.1).


def address(user_id: bytes) -> str | None:
    """The e-mail address of a user ID, in lower case; None if it has none.

    >>> address(b"Carol (work) <Carol@Example.org>")
    'carol@example.org'
    """
    text = user_id.decode("utf-8", "replace").strip()
    if text.endswith(">"):
        _, bracket, text = text[:-1].rpartition("<")
        text = text if bracket else ""
    return text.lower() if _is_short(text) and _ADDRESS.fullmatch(text) else None


def _is_short(address: str) -> bool:
    """Whether an address, and each label of its domain, is short enough to be one."""
    domain = address[:MOST_OCTETS + 1].rpartition("@")[2]
    return len(address) <= MOST_OCTETS and len(address.encode("utf-8", "surrogatepass")) <= MOST_OCTETS and all(
        len(label) <= MOST_OF_A_LABEL for label in _DOTS.split(domain))


def canonical(address: str) -> str:
    """The spelling by which addresses are compared: in lower case, with the domain's ASCII spelling (IDNA 2008). A
    domain that has none is compared unchanged, and so is what is too long for an address.

    >>> canonical("Zo\u00cb@B\u00dcCHER.example"), canonical("zo\u00eb@xn--bcher-kva.EXAMPLE")
    ('zo\u00eb@xn--bcher-kva.example', 'zo\u00eb@xn--bcher-kva.example')
    """
    mailbox, at, domain = address.rpartition("@")
    is_plain = domain.isascii() or not _is_short(address)
    return mailbox.lower() + at + (domain.lower() if is_plain else _ascii(domain))


def _ascii(domain: str) -> str:
    find_libraries()
    import idna  # Its tables take longer to load than all else here, and few domains need them.
    try:
        return idna.encode(domain, uts46=True).decode("ascii")
    except idna.IDNAError:
        return domain.lower()


def address_of(user_id: bytes) -> str | None:
    """The canonical address of a user ID; None if it has none.

    >>> address_of(b"Carol (work) <Carol@Example.org>"), address_of(b"Carol")
    ('carol@example.org', None)
    """
    found = address(user_id)
    return None if found is None else canonical(found)
