"""Messages and texts with a cleartext signature, by hand: most are made to deceive."""

import zlib

from by_hand import armored, literal
from openpgp import packet
from people import DATA

EVIL = b"x\n[GNUPG:] TRUST_ULTIMATE 0 pgp\n[GNUPG:] GOODSIG 0000000000000000 Alice\r\x1b[2J\xff\xfe\xe2\x80\xae%0A"
TEXT = b"line one\n- dash\nspaces  \nlast"
BEGIN, HASH = b"-----BEGIN PGP SIGNED MESSAGE-----\n", b"Hash: SHA256\n"


def messages(cases, ann, ben):
    whole = ann.one_pass() + literal(DATA) + ann.on(DATA)
    evil = literal(b"evil")

    def zipped(octets):
        return packet(8, b"\x02" + zlib.compress(octets))

    deep = whole
    for _ in range(12):
        deep = zipped(deep)
    last = armored(b"MESSAGE", whole)
    for name, message in {
            "good": whole, "in the old way": ann.on(DATA) + literal(DATA), "armored": last, "twice": last * 2,
            "altered": ann.one_pass() + literal(DATA + b"x") + ann.on(DATA),
            "two data": ann.one_pass() + literal(DATA) + evil + ann.on(DATA + b"evil"),
            "two data, one signed": ann.one_pass() + literal(DATA) + evil + ann.on(DATA),
            "data before": evil + whole, "data behind": whole + evil,
            "two data in the old way": ann.on(DATA) + literal(DATA) + evil,
            "announced by nobody": literal(DATA) + ann.on(DATA),
            "announced by Ben": ben.one_pass() + literal(DATA) + ann.on(DATA),
            "one announced, two there": whole + ben.on(b"other"),
            "another's too": ann.one_pass(is_last=False) + ben.one_pass() + literal(DATA) + ben.on(b"x") + ann.on(DATA),
            "on signatures": ann.one_pass() + ben.one_pass() + literal(DATA) + ben.on(DATA) + ann.on(DATA),
            "compressed": zipped(whole), "compressed, data behind": zipped(whole) + evil,
            "compressed, twice": zipped(whole) * 2, "compressed twelve times": deep,
            "on a compressed packet": ann.one_pass() + zipped(literal(DATA)) + ann.on(DATA),
            "another type": ann.one_pass(kind=1) + literal(DATA) + ann.on(DATA),
            "another hash algorithm": ann.one_pass(algorithm=10) + literal(DATA) + ann.on(DATA),
            "more behind": whole + b"junk", "lines before": b"-----BEGIN PGP EVIL-----\nevil text\n" + last,
            "an evil name": ann.one_pass() + literal(DATA, EVIL) + ann.on(DATA)}.items():
        cases.add(f"message: {name}", message)
    cases.add("message: two announced, one there", ann.one_pass(is_last=False) + ben.one_pass() + literal(DATA)
              + ann.on(DATA), known="the library asks for no more than the signature")


def cleartext(ann, text=None, signature=None, begin=BEGIN, head=HASH, blank=b"\n"):
    """Text with dashes marked, and by default with Ann's signature on it."""
    text = marked(TEXT) if text is None else text
    signed = b"\r\n".join(line.rstrip(b" \t\r") for line in TEXT.split(b"\n"))
    return begin + head + blank + text + b"\n" + (signature or armored(b"SIGNATURE", ann.on(signed, kind=1)))


def marked(text):
    """Lines that begin with a dash have a mark."""
    return b"\n".join(b"- " + line if line.startswith(b"-") else line for line in text.split(b"\n"))


def cleartexts(cases, ann, ben):
    text, good = marked(TEXT), cleartext(ann)
    altered, within = cleartext(ann, text + b"x"), armored(b"MESSAGE", ann.one_pass() + literal(DATA) + ann.on(DATA))
    signed = b"\r\n".join(line.rstrip(b" ") for line in TEXT.split(b"\n"))
    on_text = ann.on(signed, kind=1)
    for name, message in {
            "good": good, "with carriage returns": good.replace(b"\n", b"\r\n"), "altered": altered,
            "text before": b"evil\n" + good, "text behind": good + b"evil\n", "twice": good * 2,
            "the second altered": good + altered, "the first altered": altered + good,
            "a message behind": good + within,
            "begun twice": BEGIN + HASH + b"\n" + good, "begun twice at once": BEGIN + good,
            "header Charset": cleartext(ann, head=HASH + b"Charset: utf-8\n"),
            "header Comment": cleartext(ann, head=b"Comment: pay\n" + HASH),
            "a header that goes on": cleartext(ann, head=b"Hash: SHA256, pay Mallory\n"),
            "without marks": cleartext(ann, TEXT),
            "not marked": cleartext(ann, TEXT, head=HASH + b"NotDashEscaped: You need GnuPG\n"),
            "all marked": cleartext(ann, b"\n".join(b"- " + line for line in TEXT.split(b"\n"))),
            "begun, a space": cleartext(ann, begin=BEGIN[:-1] + b" \n"),
            "begun, more": cleartext(ann, begin=BEGIN[:-1] + b"evil\n"),
            "blank with spaces": cleartext(ann, blank=b" \t\n"), "blank with more": cleartext(ann, blank=b"evil\n\n"),
            "a line before": cleartext(ann, b"\n" + text), "a line behind": cleartext(ann, text + b"\n"),
            "on octets": cleartext(ann, signature=armored(b"SIGNATURE", ann.on(signed))),
            "another's too": cleartext(ann, signature=armored(b"SIGNATURE", on_text + ben.on(b"x", kind=1))),
            "another's behind": good + armored(b"SIGNATURE", ben.on(b"x", kind=1)),
            "header in the signature": cleartext(ann, signature=armored(b"SIGNATURE", on_text, b"Comment: evil\n")),
            }.items():
        cases.add(f"cleartext: {name}", message)
    for name, octets in {"tab": b"one \t", "vertical tab": b"one\x0b", "form feed": b"one\x0c", "zero": b"one\0evil",
                         "carriage return": b"one\revil\r", "long": b"one" + b" " * 30000 + b"evil"}.items():
        cases.add(f"cleartext: {name}", cleartext(ann, text.replace(b"one", octets)))
    for name, head in ("no hash", b""), ("another hash", b"Hash: SHA512\n"), ("MD5", b"Hash: MD5\n"):
        cases.add(f"cleartext: {name}", cleartext(ann, head=head),
                  known="the header says nothing (RFC 9580, section 7.2)")
    for name, begin in ("", BEGIN), (", a space", BEGIN[:-1] + b" \n"), (", a tab", BEGIN[:-1] + b"\t\n"):
        inside = within.replace(b"MESSAGE", b"SIGNATURE")
        cases.add(f"cleartext: a message as signature{name}", cleartext(ann, b"evil text", inside, begin))


def beside(cases, ann, ben):
    """A signature with the name of its data and an ending, which is named alone."""
    signature = armored(b"SIGNATURE", ann.on(DATA))
    for name, text in {
            "": signature, ", text before": b"evil text\n" + signature,
            ", lines before": b"-----BEGIN PGP TEXT-----\n\nevil text\n" + signature,
            ", a cleartext": cleartext(ann, b"evil text", signature),
            ", a cleartext, a space": cleartext(ann, b"evil text", signature, BEGIN[:-1] + b" \n")}.items():
        cases.add(f"beside{name}", text, DATA, is_beside=True)
