"""Scripts: lines, the spelling of fields, and the text of replies (docs/PROTOCOL.md)."""

import re

from .shelf import TRUST_ROOT

LONGEST_LINE = 16777216
GREATEST = 4294967295

ESCAPE = re.compile(rb"\\(\\|x[0-9a-fA-F]{2}|)")
DECIMAL = re.compile(rb"0|[1-9][0-9]*")
DIGITS = re.compile(rb"[0-9a-fA-F]*")
VIEW_NAME = re.compile(rb"[a-z0-9_-]{1,32}")


class Malformed(Exception):
    """The line spells no command."""


def lines_of(octets):
    """The lines of an input; the last one may lack its line feed."""
    lines = octets.split(b"\n")
    return lines if lines[-1] else lines[:-1]


def is_silent(line):
    """Whether the line has no reply."""
    return len(line) <= LONGEST_LINE and (not line or line.startswith(b"#"))


def require(holds):
    if not holds:
        raise Malformed


def read_hex(text):
    require(DIGITS.fullmatch(text) and len(text) % 2 == 0)
    return bytes.fromhex(text.decode("ascii"))


def read_fingerprint(text):
    require(len(text) in (40, 64))
    return read_hex(text)


def read_name(text):
    return TRUST_ROOT if text == TRUST_ROOT.encode() else read_fingerprint(text)


def read_number(text):
    require(len(text) == 64)
    return read_hex(text)


def read_view_name(text):
    require(VIEW_NAME.fullmatch(text))
    return text


def read_decimal(text, least, most):
    require(DECIMAL.fullmatch(text) and len(text) <= 10 and least <= int(text) <= most)
    return int(text)


def read_time(text):
    return read_decimal(text, 0, GREATEST)


def read_amount(text):
    return read_decimal(text, 0, 255)


def read_wanted(text):
    return read_decimal(text, 1, GREATEST)


def read_user_id(text):
    def octet(found):
        escape = found.group(1)
        require(escape)
        return b"\\" if escape == b"\\" else bytes([int(escape[1:], 16)])

    return ESCAPE.sub(octet, text)


def print_user_id(user_id):
    return "".join(print_octet(octet) for octet in user_id)


def print_octet(octet):
    if octet == 0x5C:
        return "\\\\"
    return chr(octet) if 0x20 <= octet <= 0x7E else f"\\x{octet:02x}"


def read_claims(text):
    return [] if text == b"-" else [read_claim(part) for part in text.split(b",")]


def read_claim(text):
    amount, *steps = text.split(b"/")
    require(1 <= len(steps) <= 255)
    return read_decimal(amount, 1, 255), [read_step(step) for step in steps]


def read_step(text):
    issuer, point, place = text.partition(b".")
    require(point)
    return read_fingerprint(issuer), read_decimal(place, 0, GREATEST)


def read_table(text):
    labels = [] if text == b"-" else [read_label(part) for part in text.split(b",")]
    require(all(one < next_one for (one, _), (next_one, _) in zip(labels, labels[1:])))
    return dict(labels)


def read_label(text):
    fingerprint, equals, label = text.partition(b"=")
    require(equals)
    return read_fingerprint(fingerprint), read_decimal(label, 1, 255)


def print_claims(claims):
    return ",".join(print_claim(*claim) for claim in claims) or "-"


def print_claim(amount, steps):
    return "/".join([str(amount), *(f"{issuer.hex()}.{place}" for issuer, place in steps)])


def print_table(table):
    return ",".join(f"{fingerprint.hex()}={label}" for fingerprint, label in sorted(table.items())) or "-"


# The forms of lines: words that stand as they are, and the fields between them. A user ID is the rest of its line.
FIELDS = {
    "HEX": read_hex,
    "FPR": read_fingerprint,
    "NAME": read_name,
    "NUM": read_number,
    "V": read_view_name,
    "T": read_time,
    "A": read_amount,
    "N": read_wanted,
    "PATHS": read_claims,
    "TABLE": read_table,
    "UID": read_user_id,
}


def read_form(form, line):
    """The values of the fields of a line of this form; raises Malformed."""
    words = form.split(" ")
    parts = line.split(b" ", len(words) - 1) if words[-1] == "UID" else line.split(b" ")
    require(len(parts) == len(words))
    values = []
    for word, part in zip(words, parts):
        if word in FIELDS:
            values.append(FIELDS[word](part))
        else:
            require(part == word.encode())
    return values


def read_line(line, forms):
    """The form of a line, and the values of its fields; raises Malformed if it has none of these forms."""
    for form in forms:
        try:
            return form, read_form(form, line)
        except Malformed:
            continue
    raise Malformed
