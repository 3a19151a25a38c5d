"""What strangers write, and who reads it: each reader with valid samples, and the exceptions by which it refuses.

A reader may raise nothing else, whatever the octets are.
"""

import itertools
import json
import sys
from collections.abc import Callable, Iterator
from pathlib import Path
from typing import NamedTuple

import configurations
from plain import ROOT

from tukyamid.command import option_values
from tukyamid.configuration import config_values
from tukyamid.keyrings.verifier import VerifierFailed
from tukyamid.openpgp import addresses, certificates, packets, signatures
from tukyamid.proofs import proof_file
from tukyamid.protocol import reply_reader, script_reader, spelling
from tukyamid.protocol.refusals import ProtocolError, Refused
from tukyamid.protocol.verdicts import Verdicts, verdicts_of
from tukyamid.service.sessions.views import Views
from tukyamid.service.storage import certificate_rows
from tukyamid.verify.data_signatures import _read_all
from tukyamid.verify.expected_signer import Whom
from tukyamid.web import page_requests

sys.path.append(str(Path(__file__).resolve().parents[1] / "python"))
from made import Made, key_lasts, packet, subpacket, trust  # noqa: E402

MADE = 1_100_000_000


class Stranger(NamedTuple):
    """A reader, the exceptions by which it refuses, and valid samples."""
    name: str
    read: Callable[[bytes], object]
    refusals: tuple[type[Exception], ...]
    samples: list[bytes]


def _certificates() -> list[bytes]:
    root, carol = Made(1), Made(2)
    root.direct(MADE, key_lasts(9)).certified("Root <root@example.org>".encode(), root, MADE, subpacket(25, b"\1"))
    carol.certified("Zo\u00eb <zoe@b\u00fccher.example>".encode(), root, MADE, trust(1, 60),
                    subpacket(6, b"<[^>]+[@.]example\\.org>$\0"))
    version6 = b"\6" + MADE.to_bytes(4, "big") + bytes([27]) + (32).to_bytes(4, "big") + bytes(32)
    more = packet(14, root.key) + packet(14, version6) + packet(17, b"\x02\x01x") + packet(2, bytes(10))
    old = bytes([0x99]) + len(root.key).to_bytes(2, "big") + root.key + bytes([0xB4, 1]) + b"x"
    long = packet(14, b"\4" + bytes(70_000))
    return [root.octets, carol.octets, carol.octets + more, packet(6, version6) + packet(13, b"x"), old,
            root.octets + long, packet(6, b"\4" + bytes(70_000))]


def _lines(ending: str) -> list[bytes]:
    """The different beginnings of lines in the rows of the tests, some of each."""
    found: dict[bytes, list[bytes]] = {}
    for file in sorted((ROOT / "tests/suites/rows").rglob(f"*.{ending}")):
        for line in file.read_bytes().splitlines():
            if len(line) < 2000:
                found.setdefault(b" ".join(line.split(b" ")[:2])[:20], []).append(line)
    return [line for lines in found.values() for line in lines[:5]] or [b"ok"]


def _replies() -> list[bytes]:
    """Whole replies of the rows, and those that only a service gives."""
    fpr, number = "ab" * 20, "cd" * 32
    rows = [b"\n".join(file.read_bytes().splitlines()[:40]) for file in sorted(
        (ROOT / "tests/suites/rows").rglob("*.expected"))][::4]
    return [*rows, *(text.encode() for text in (
        "service status 2\ncertificates 5\nstate ok", f"service find 1\nbind {fpr} Carol <carol@example.org>",
        f"service issuers 1\nby {number} {fpr}", f"service certified 1\non 2 {fpr}",
        f"service excerpt 2\nimport c6\nverdict {number} good {fpr}",
        "service log 1\nchange 7 1700000000 0 12 import",
        "service keyring 2\nkeyring 5 /x\\x0ay\nfault why", "service progress certificates 4", "ok keyring 5 7",
        "amount 120 paths 1\npath 120 steps 1 root " + fpr + f"\nstep {fpr} 120 1 {number} x",
        f"pending 1\nsig {number} {fpr} -", "refused read-only", "fault database"))]


def _first(text: bytes) -> str:
    return text.decode("utf-8", "surrogateescape")


def _reply(octets: bytes) -> object:
    """A reply, item by item. Where the octets end, so does the connection."""
    lines = iter(octets.split(b"\n"))

    def next_line() -> str:
        line = next(lines, None)
        if line is None:
            raise ProtocolError("the end")
        return line.decode("latin-1")

    reply = reply_reader.read_reply(next_line)
    if isinstance(reply, reply_reader.ListingHead):
        return [reply.read(next_line()) for _ in range(min(reply.count, 1000))]
    return reply


def _certificate(octets: bytes) -> object:
    """Everything that is read of a certificate."""
    certificate = certificates.read_certificate(octets)
    for one in itertools.chain(certificate.direct, *certificate.user_ids.values()):
        _ = one.said.ends, one.number, one.said.may_be_by(certificate.fpr), one.said.unknown
    return [addresses.address_of(user_id) for user_id in certificate.user_ids]


def _rows(octets: bytes) -> object:
    """What the database keeps of a certificate. The engine has taken it, so all that it has must be readable."""
    try:
        kinds = [kind for kind, _ in packets.packets(octets)]
        certificates.read_certificate(octets)
    except ValueError:
        return None
    return (certificate_rows.describe(octets), certificate_rows.keys_of(octets)) if kinds[:1] == [packets.KEY] else None


def _json(read: Callable[[page_requests.Json], object]) -> Callable[[bytes], object]:
    """A reader of an object of the page's: what isn't an object never comes to it."""
    def reader(octets: bytes) -> object:
        value = json.loads(octets)
        return read(value) if isinstance(value, dict) else None
    return reader


def _words(octets: bytes) -> list[object]:
    """Each kind of word of the command; each may be wrong in its own way."""
    text, found = octets.decode("utf-8", "surrogateescape"), []
    readers: tuple[Callable[[str], object], ...] = (
        option_values.read_time, option_values.read_wanted, option_values.read_key, option_values.read_root,
        option_values.read_threshold, option_values.read_user_id)
    for read in readers:
        try:
            found.append(read(text))
        except ValueError:
            pass
    return found


def _verdicts(octets: bytes) -> object:
    """The verdicts of a kept dump: as lines, and as the file itself, which may end anywhere."""
    of_lines, of_file = verdicts_of(octets.split(b"\n")), Verdicts(octets)
    return [(list(one.good()), one.issuer(VERDICTS[70:134].decode())) for one in (of_lines, of_file)]


def _every(read: Callable[[bytes], Iterator[object]]) -> Callable[[bytes], object]:
    return lambda octets: list(read(octets))


TEXTS = [b"Carol <carol@example.org>", "Zo\u00eb <zoe@B\u00dcCHER.example>".encode(), b"x@y", b"@example.org",
         b"a@" + "\u0660".encode() * 60, "x@\u3002y.example".encode(), b"2024-01-31T12:00:00Z", b"@1706702400",
         b"0x" + b"AB" * 20, b"partial", b"ab" * 20 + b":60"]
FPR = "ab" * 20
VERDICTS = b"".join(b"verdict %064x %s\n" % (number * 7, b"bad" if number % 3 == 0 else b"good " + FPR.encode())
                    for number in range(40))
ASKED = {"time": 5, "roots": [{"fingerprint": FPR, "amount": 120}], "fingerprint": FPR, "user_id": "x\\x0a",
         "wanted": 120, "without": [{"key": "cd" * 20}, {"signature": "ef" * 32}]}


def _proof(certificate: bytes) -> bytes:
    """A proof of absence as a file has it."""
    return json.dumps({
        "format": proof_file.FORMAT, "version": proof_file.VERSION, "claim": proof_file.ABSENCE, "fingerprint": FPR,
        "user_id": "x", "wanted": 120, "time": 5, "amount": 60, "certificates": [certificate.hex()],
        "roots": ASKED["roots"], "labels": {FPR: 1},
        "paths": [{"amount": 60, "steps": [{"issuer": FPR, "user_id": "x"}]}],
    }).encode()


def _configurations() -> list[Stranger]:
    """The readers of the configuration: Python's, and if `tukyamid-gpg` is built, the two next to each other."""
    samples = [text.encode() for text in configurations.SAMPLES]
    found = [Stranger("the configuration", lambda octets: config_values.read_text(octets.decode()), (ValueError,),
                      samples),
             Stranger("plain configurations", configurations.read_plain, (ValueError,), samples)]
    if configurations.PROGRAM.exists():
        found.append(Stranger("both readers of the configuration", configurations.Readers().read, (), samples))
    return found


def strangers() -> list[Stranger]:
    """All readers."""
    whole, texts, fpr = _certificates(), TEXTS, FPR
    commands, wrong = _lines("wot"), (ValueError,)
    found = [f"signature good 5 0 8 {fpr} {fpr} -".encode(), b"signature absent - - - - - - no key", b"outside before"]
    return [
        Stranger("addresses", lambda text: (addresses.address_of(text), addresses.canonical(_first(text))), (), texts),
        Stranger("user IDs", lambda text: spelling.read_user_id(spelling.write_user_id(text).encode()) == text or 1 / 0,
                 (), texts),
        Stranger("spelled user IDs", spelling.read_user_id, wrong, [*texts, b"a\\x0ab\\\\c"]),
        Stranger("texts for people", spelling.for_people, (), texts),
        Stranger("packets", _every(packets.packets), wrong, whole),
        Stranger("subpackets", _every(packets.subpackets), wrong, [one[30:] for one in whole] + [trust(1, 60)]),
        Stranger("signatures", signatures.read_signature, (), [bytes([4, 0x10, 27, 8, 0, 6]) + subpacket(2, bytes(4)),
                                                               *(one[40:] for one in whole)]),
        Stranger("certificates", _certificate, wrong, whole),
        Stranger("bindings", _every(certificates.bindings_of), wrong, whole),
        Stranger("rows of certificates", _rows, (), whole),
        Stranger("lines of imports", lambda octets: certificate_rows.brought(b"import " + octets), (),
                 [one.hex().encode() for one in whole]),
        Stranger("replies", _reply, (ProtocolError, Refused), _replies()),
        Stranger("commands", script_reader.read_command, wrong, commands),
        Stranger("views", lambda line: Views(16).take(b"view " + line), (),
                 [line.removeprefix(b"view ") for line in commands if line.startswith(b"view ")]),
        Stranger("the verifier's lines", lambda octets: _read_all(octets.decode("utf-8", "replace").splitlines()),
                 (VerifierFailed,), found),
        Stranger("verdicts of a kept dump", _verdicts, (), [VERDICTS, VERDICTS[:-1], VERDICTS[:900]]),
        Stranger("words", _words, (), texts),
        Stranger("whom", lambda text: Whom.read(_first(text)).is_named_by(text), wrong, texts),
        Stranger("proofs", proof_file.read, (proof_file.ProofMalformed,), [_proof(whole[0])]),
        Stranger("questions of the page", _json(page_requests.read_subject), (ValueError, RecursionError),
                 [json.dumps(ASKED).encode()]),
        *_configurations(),
    ]
