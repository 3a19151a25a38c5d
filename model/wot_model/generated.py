"""The generated script of two numbers, and the three lines about its run (docs/PROTOCOL.md)."""

import hashlib

from .certificates import KEY, SIGNATURE, USER_ID, fingerprint, number_of, PLACES
from .packets import write_packet

MASK = 2**64 - 1


class SplitMix64:
    """The generator of Steele, Lea and Flood."""

    def __init__(self, start):
        self.state = start

    def word(self):
        self.state = (self.state + 0x9E3779B97F4A7C15) & MASK
        word = self.state
        word = ((word ^ (word >> 30)) * 0xBF58476D1CE4E5B9) & MASK
        word = ((word ^ (word >> 27)) * 0x94D049BB133111EB) & MASK
        return word ^ (word >> 31)


def signature(kind, made, issuer, extra):
    area = b"\5\2" + made.to_bytes(4, "big") + b"\x16\x21\4" + issuer + extra
    return bytes([4, kind, 27, 8]) + len(area).to_bytes(2, "big") + area + bytes(4)


def script(start, count):
    """The lines of the script."""
    words = SplitMix64(start)
    bodies = []
    for index in range(count):
        material = b"".join(words.word().to_bytes(8, "big") for _ in range(4))
        bodies.append(b"\4" + (1000000000 + index).to_bytes(4, "big") + b"\x1b" + material)
    names = [fingerprint(body) for body in bodies]
    user_ids = [b"user %d <u%d@example.org>" % (index, index) for index in range(count)]
    direct = [signature(0x1F, 1000000000 + index, names[index], b"") for index in range(count)]
    certifications = [[]]
    for index in range(1, count):
        certifications.append([certification(words, index, turn, names) for turn in (1, 2, 3)])

    lines = []
    for body, name, user_id, own, made in zip(bodies, names, user_ids, direct, certifications):
        packets = [(KEY, body), (SIGNATURE, own), (USER_ID, user_id), *((SIGNATURE, each) for each, _ in made)]
        lines.append(b"import " + b"".join(write_packet(*packet) for packet in packets).hex().encode())
        lines.append(good(number_of(body, PLACES[None], b"", own), name))
        lines += [good(number_of(body, PLACES[USER_ID], user_id, each), issuer) for each, issuer in made]
    lines += view_lines(b"a", [(names[0], 120)])
    lines += view_lines(b"b", [(names[0], 60), (names[count // 2], 60)])
    for index in range(count):
        lines += [question(b"a", names[index], 120, user_ids[index]), question(b"b", names[index], 60, user_ids[index])]
    for index in range(10, count, 10):
        other = words.word() % count
        number = number_of(bodies[other], PLACES[None], b"", direct[other])
        asked = question(b"a", names[index], 120, user_ids[index])
        lines += [b"verdict " + number.hex().encode() + b" bad", asked, good(number, names[other]), asked]
    return lines


def certification(words, index, turn, names):
    issuer = names[words.word() % index]
    trust = words.word()
    extra = bytes([3, 5, trust % 4, 60 + trust // 4 % 61])
    return signature(0x10, 1100000000 + turn, issuer, extra), issuer


def good(number, issuer):
    return b"verdict " + number.hex().encode() + b" good " + issuer.hex().encode()


def view_lines(view, roots):
    yield b"view " + view + b" time 1200000000"
    for name, amount in roots:
        yield b"view " + view + b" root " + name.hex().encode() + b" %d" % amount


def question(view, name, wanted, user_id):
    return b"ask " + view + b" " + name.hex().encode() + b" %d " % wanted + user_id


def summary(start, count, machine):
    """The three lines about a run of the script by this machine."""
    lines = script(start, count)
    replies = [reply for line in lines for reply in machine.line(line)]
    amounts = sum(int(reply.split(" ")[1]) for reply in replies if reply.startswith("amount "))
    digest = hashlib.sha256("".join(reply + "\n" for reply in replies).encode("ascii")).hexdigest()
    return [f"gen {start} {count} lines {len(lines)}", f"amounts {amounts}", f"transcript {digest}"]
