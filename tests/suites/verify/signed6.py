"""Version 6 certificates that may sign data, and what they sign: detached, in a message, and in a cleartext. Made by
python3-cryptography (RFC 9580)."""

import base64
import zlib

import version6 as v6
from openpgp import packet

SIGN, CERTIFY = b"\x02", b"\x01"
BINARY, TEXT = 0, 1
NAME = b"Frida <frida@example.org>"

# RFC 9580, appendix A.6 and A.7: a cleartext and a message, by the certificate of A.3.
SAMPLE_CLEARTEXT = """-----BEGIN PGP SIGNED MESSAGE-----

What we need from the grocery store:

- - tofu
- - vegetables
- - noodles

-----BEGIN PGP SIGNATURE-----

wpgGARsKAAAAKQWCY5ijYyIhBssYbE8GCaaX5NUt+mxyKwwfHifBilZwj2Ul7Ce6
2azJAAAAAGk2IHZJX1AhiJD39eLuPBgiUU9wUA9VHYblySHkBONKU/usJ9BvuAqo
/FvLFuGWMbKAdA+epq7V4HOtAPlBWmU8QOd6aud+aSunHQaaEJ+iTFjP2OMW0KBr
NK2ay45cX1IVAQ==
-----END PGP SIGNATURE-----
"""
SAMPLE_MESSAGE = """-----BEGIN PGP MESSAGE-----

xEYGAQobIHZJX1AhiJD39eLuPBgiUU9wUA9VHYblySHkBONKU/usyxhsTwYJppfk
1S36bHIrDB8eJ8GKVnCPZSXsJ7rZrMkBy0p1AAAAAABXaGF0IHdlIG5lZWQgZnJv
bSB0aGUgZ3JvY2VyeSBzdG9yZToKCi0gdG9mdQotIHZlZ2V0YWJsZXMKLSBub29k
bGVzCsKYBgEbCgAAACkFgmOYo2MiIQbLGGxPBgmml+TVLfpscisMHx4nwYpWcI9l
JewnutmsyQAAAABpNiB2SV9QIYiQ9/Xi7jwYIlFPcFAPVR2G5ckh5ATjSlP7rCfQ
b7gKqPxbyxbhljGygHQPnqau1eBzrQD5QVplPEDnemrnfmkrpx0GmhCfokxYz9jj
FtCgazStmsuOXF9SFQE=
-----END PGP MESSAGE-----
"""
SAMPLE_TEXT = b"What we need from the grocery store:\n\n- tofu\n- vegetables\n- noodles\n"


def flags(octet):
    return v6.subpacket(27, octet)


def validity(seconds):
    """How long a key is valid."""
    return v6.subpacket(9, seconds.to_bytes(4, "big"))


def direct(key, more=flags(SIGN), **words):
    """A direct key signature, which says what the primary key may do."""
    return 2, v6.signature(key, key.body, v6.ON_KEY, b"", v6.Words(0x1f, version=key.version, more=more, **words))


def named(key, more=b"", **words):
    """A user ID and the key's own certification of it."""
    made = v6.Words(version=key.version, more=more, **words)
    return (13, NAME), (2, v6.signature(key, key.body, v6.ON_USER_ID, NAME, made))


def subkey(key, own, more=flags(SIGN), back=True, back_made=v6.MADE, **words):
    """A subkey and its binding, with the signature by which it agrees."""
    made = v6.Words(0x19, version=key.version, made=back_made)
    agreed = v6.signature(own, key.body, v6.ON_SUBKEY, own.body, made)
    more += v6.subpacket(32, agreed) if back else b""
    made = v6.Words(0x18, version=key.version, more=more, **words)
    return (14, own.body), (2, v6.signature(key, key.body, v6.ON_SUBKEY, own.body, made))


def revocation(key, reason, made, own=None):
    """A revocation of the key, or of a subkey, for a reason of RFC 9580 (section 5.2.3.31)."""
    words = v6.Words(0x20 if own is None else 0x28, version=key.version, made=made,
                     more=v6.subpacket(29, bytes([reason])))
    place, component = (v6.ON_KEY, b"") if own is None else (v6.ON_SUBKEY, own.body)
    return 2, v6.signature(key, key.body, place, component, words)


def lines_of(text):
    """A text as it is hashed: each line ends with a carriage return and a line feed."""
    return text.replace(b"\r\n", b"\n").replace(b"\n", b"\r\n")


def on_data(key, data, kind=BINARY, **words):
    """The body of a signature on data."""
    made = v6.Words(kind, **{"version": key.version, **words})
    return v6.over(key, lines_of(data) if kind == TEXT else data, made)


def one_pass(key, body, is_last=True):
    """The announcement of a signature."""
    front = bytes([6 if body[0] == 6 else 3, body[1], body[3], body[2]])
    if body[0] != 6:
        return packet(4, front + key.id + bytes([is_last]))
    at = 8 + int.from_bytes(body[4:8], "big")
    salt = at + 4 + int.from_bytes(body[at:at + 4], "big") + 2
    return packet(4, front + body[salt:salt + 1 + body[salt]] + bytes.fromhex(key.fingerprint) + bytes([is_last]))


def literal(data, spelled=packet):
    return spelled(11, b"b\x00" + bytes(4) + data)


def message(key, data, spelled=packet, **words):
    body = on_data(key, data, **words)
    return one_pass(key, body) + literal(data, spelled) + packet(2, body)


def zipped(octets, spelled=packet):
    return spelled(8, b"\x02" + zlib.compress(octets))


def deflated(octets):
    squeezing = zlib.compressobj(wbits=-15)
    return packet(8, b"\x01" + squeezing.compress(octets) + squeezing.flush())


def armored(what, octets):
    text = base64.encodebytes(octets).decode()
    return f"-----BEGIN PGP {what}-----\n\n{text}-----END PGP {what}-----\n".encode()


def cleartext(data, *bodies):
    """Data without a line feed at their end, and signatures on them as text."""
    lines = [b"- " + line if line.startswith(b"-") else line for line in data.split(b"\n")]
    head = b"-----BEGIN PGP SIGNED MESSAGE-----\nHash: SHA512\n\n" + b"\n".join(lines) + b"\n"
    return head + armored("SIGNATURE", b"".join(packet(2, body) for body in bodies))
