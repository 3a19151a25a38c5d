"""Who made the signatures of certificates, found by python3-cryptography: the verdicts that the plain model takes.

Packets and subpackets are read by the model's readers. A signature is tried with the keys that it names by fingerprint
or key ID, in either area, or else with the certificate's own key, as `wot-verdicts` does.
"""

import hashlib

from cryptography.exceptions import InvalidSignature
from cryptography.hazmat.primitives import hashes
from cryptography.hazmat.primitives.asymmetric import ed25519, padding, rsa, utils
from wot_model.certificates import USER_ID
from wot_model.signatures import ISSUER, ISSUER_KEY_ID, AreaFault, cut_areas, read_area

HASHES = {1: ("md5", hashes.MD5), 2: ("sha1", hashes.SHA1), 3: ("ripemd160", None), 8: ("sha256", hashes.SHA256),
          9: ("sha384", hashes.SHA384), 10: ("sha512", hashes.SHA512), 11: ("sha224", hashes.SHA224),
          12: ("sha3_256", hashes.SHA3_256), 14: ("sha3_512", hashes.SHA3_512)}
SALTS = {8: 16, 9: 24, 10: 32, 11: 16, 12: 16, 14: 32}
RSA, EDDSA_LEGACY, ED25519 = 1, 22, 27


def verdicts(certificates):
    """For each signature of certificates, as the model has them: its number, and who made it; None stands for nobody
    that it names. A signature that names no key of these has no verdict."""
    keys = {certificate.fingerprint: certificate.body for certificate in certificates}
    for certificate in certificates:
        for kind, component, signatures in certificate.places():
            for body in signatures:
                named = issuers(body, keys, certificate.fingerprint) if kind in (None, USER_ID) else []
                good = [each for each in named if is_by(keys[each], certificate.body, kind, component, body)]
                if named:
                    yield certificate.number(kind, component, body), good[0] if good else None


def issuers(body, keys, own):
    """The fingerprints of the keys that may have made a signature."""
    areas = cut_areas(body) if body[:1] in (b"\4", b"\6") and len(body) > 6 else None
    names = [name for area in areas or () for name in names_of(area)]
    if not names:
        return [own] if areas else []
    return [each for each in keys if each in names or key_id(each) in names]


def names_of(area):
    try:
        for _, kind, content in read_area(area):
            if kind == ISSUER:
                yield content[1:]
            elif kind == ISSUER_KEY_ID:
                yield content
    except AreaFault:
        return


def key_id(fingerprint):
    return fingerprint[:8] if len(fingerprint) == 32 else fingerprint[-8:]


def is_by(key, target, kind, component, body):
    """Whether a key made a signature on a key, or on a component of the key."""
    version, algorithm, hash_number = body[0], body[2], body[3]
    if hash_number not in HASHES or algorithm != key[5] or algorithm == RSA and not HASHES[hash_number][1]:
        return False
    size = 4 if version == 6 else 2
    hashed_end = 4 + size + int.from_bytes(body[4:4 + size], "big")
    end = hashed_end + size + int.from_bytes(body[hashed_end:hashed_end + size], "big")
    salt, material = salted(body[end + 2:]) if version == 6 else (b"", body[end + 2:])
    if version == 6 and len(salt) != SALTS.get(hash_number):
        return False
    named = b"" if kind is None else b"\xb4" + len(component).to_bytes(4, "big") + component
    trailer = bytes([version, 0xff]) + hashed_end.to_bytes(4, "big")
    for frame in {version, target[0]}:
        over = salt + framed(target, frame) + named + body[:hashed_end] + trailer
        digest = hashlib.new(HASHES[hash_number][0], over).digest()
        if digest[:2] == body[end:end + 2] and is_valid(key, digest, hash_number, material):
            return True
    return False


def framed(target, version):
    """A key as it is hashed in the form of the signature's version or of its own: the verifier accepts either."""
    start = b"\x9b" + len(target).to_bytes(4, "big") if version == 6 else b"\x99" + len(target).to_bytes(2, "big")
    return start + target


def salted(octets):
    return octets[1:1 + octets[0]], octets[1 + octets[0]:]


def is_valid(key, digest, hash_number, material):
    point = key[10:] if key[0] == 6 else key[6:]
    try:
        if key[5] == RSA:
            modulus, exponent = numbers(point)
            signature = number(material)[0].to_bytes((modulus.bit_length() + 7) // 8, "big")
            prehashed = utils.Prehashed(HASHES[hash_number][1]())
            public = rsa.RSAPublicNumbers(exponent, modulus).public_key()
            public.verify(signature, digest, padding.PKCS1v15(), prehashed)
        elif key[5] == EDDSA_LEGACY:
            r, s = numbers(material)
            public = ed25519.Ed25519PublicKey.from_public_bytes(point[-32:])
            public.verify(r.to_bytes(32, "big") + s.to_bytes(32, "big"), digest)
        else:
            ed25519.Ed25519PublicKey.from_public_bytes(point).verify(material, digest)
    except (InvalidSignature, ValueError, OverflowError):
        return False
    return True


def number(octets):
    """A multiprecision integer, and what follows it."""
    end = 2 + (int.from_bytes(octets[:2], "big") + 7) // 8
    if len(octets) < end:
        raise ValueError("an integer is cut short")
    return int.from_bytes(octets[2:end], "big"), octets[end:]


def numbers(octets):
    first, rest = number(octets)
    second, rest = number(rest)
    if rest:
        raise ValueError("something follows the last integer")
    return first, second
