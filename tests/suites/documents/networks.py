"""The networks that documents draw, as scripts: a certificate for each name, a certification for each edge."""

import subprocess
from collections.abc import Iterable
from typing import NamedTuple

from pages import PROGRAM
from wot_model.certificates import KEY, SIGNATURE, USER_ID, fingerprint, number_of
from wot_model.packets import write_packet

CREATED, MADE, ASKED = 1000, 2000, 5000


class Edge(NamedTuple):
    """A certification: who certifies whom, on which user ID, as a trust signature of this depth and amount."""

    issuer: str
    target: str
    user_id: bytes
    depth: int
    amount: int


class Answer(NamedTuple):
    """The amount of an answer; each path's amount with the names on it, from the root to the target."""

    amount: int
    paths: list[tuple[int, list[str]]]


def body_of(name: str) -> bytes:
    """A version 4 key whose material is its owner's name."""
    return bytes([4]) + CREATED.to_bytes(4, "big") + bytes([0x1B]) + name.encode()


def fpr_of(name: str) -> str:
    return str(fingerprint(body_of(name)).hex())


def signature(kind: int, made: int, extra: bytes = b"") -> bytes:
    hashed = b"\5\2" + made.to_bytes(4, "big") + extra
    return bytes([4, kind, 0x1B, 8]) + len(hashed).to_bytes(2, "big") + hashed + bytes(4)


def certification(edge: Edge) -> bytes:
    """With its issuer's fingerprint in the hashed area, so that no two are the same."""
    trust = bytes([3, 5, edge.depth, edge.amount])
    return signature(0x10, MADE, trust + b"\x16\x21\4" + bytes.fromhex(fpr_of(edge.issuer)))


def script_of(edges: Iterable[Edge], root: str) -> list[bytes]:
    """Lines that import all certificates, supply a verdict on each signature, and open a view `p` with this root."""
    edges = list(edges)
    lines, verdicts = [], []
    direct = signature(0x1F, CREATED)
    for name in sorted({name for edge in edges for name in (edge.issuer, edge.target)}):
        body = body_of(name)
        text = write_packet(KEY, body) + write_packet(SIGNATURE, direct)
        verdicts.append((number_of(body, 0, b"", direct), name))
        for user_id in sorted({edge.user_id for edge in edges if edge.target == name}):
            text += write_packet(USER_ID, user_id)
            for edge in edges:
                if (edge.target, edge.user_id) == (name, user_id):
                    text += write_packet(SIGNATURE, certification(edge))
                    verdicts.append((number_of(body, 1, user_id, certification(edge)), edge.issuer))
        lines.append(b"import " + text.hex().encode())
    lines += [f"verdict {number.hex()} good {fpr_of(name)}".encode() for number, name in verdicts]
    return [*lines, f"view p time {ASKED}".encode(), f"view p root {fpr_of(root)} 120".encode()]


def last_reply(lines: list[bytes]) -> list[str]:
    """The reply to the last of these lines."""
    *before, last = lines
    done = subprocess.run([PROGRAM, "run"], input=b"\n".join(before), capture_output=True, check=True)
    whole = subprocess.run([PROGRAM, "run"], input=b"\n".join([*before, last]), capture_output=True, check=True)
    refused = [line for line in whole.stdout.splitlines() if line.startswith(b"refused")]
    if refused:
        raise AssertionError(refused)
    return whole.stdout[len(done.stdout) :].decode().splitlines()


def answer_to(edges: list[Edge], root: str, target: str, user_id: bytes) -> Answer:
    """The answer to whether the binding is authenticated to 120."""
    names = {fpr_of(name): name for edge in edges for name in (edge.issuer, edge.target)}
    question = f"ask p {fpr_of(target)} 120 ".encode() + user_id
    first, *rest = last_reply([*script_of(edges, root), question])
    paths: list[tuple[int, list[str]]] = []
    for line in rest:
        words = line.split(" ")
        if words[0] == "path":
            paths.append((int(words[1]), [names[words[5]]]))
        else:
            paths[-1][1].append(names[words[2]])
    return Answer(int(first.split(" ")[1]), paths)


def labels_of(edges: list[Edge], root: str, target: str, user_id: bytes) -> dict[str, int]:
    """The labels of the proof of absence of 120."""
    names = {fpr_of(name): name for edge in edges for name in (edge.issuer, edge.target)}
    question = f"absence p {fpr_of(target)} 120 ".encode() + user_id
    table = last_reply([*script_of(edges, root), question])[1].split(" ")[2]
    return {names[label.split("=")[0]]: int(label.split("=")[1]) for label in table.split(",") if label != "-"}
