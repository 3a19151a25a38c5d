"""The program beside the plain model: random scripts of all commands, and real certificates with mistakes in them."""

import random
import subprocess
import sys
from collections.abc import Iterator
from concurrent.futures import ThreadPoolExecutor
from pathlib import Path

from .night import FAILED, PASSED, SKIPPED, Night, Part, last_line

KEYRING = Path("/usr/share/keyrings/debian-keyring.gpg")
# The model is slow: longer certificates are left to the benches.
MOST_OCTETS = 12000
TOGETHER = 10
SECONDS = 600


def scripts(night: Night) -> Part:
    """Random scripts of all commands from new seeds, over each program."""
    count, first = night.size(4000, 20), night.drawn("scripts").randrange(10**9)
    seeds = f"{first}..{first + count - 1}"
    words = [sys.executable, str(night.root / "model/compare"), "--seeds", seeds]
    words += ["--jobs", str(night.jobs), "--keep", str(night.folder / "scripts")]
    words += [word for program in night.programs for word in ("--program", str(program))]
    status, output = night.run("scripts", words, hours=6)
    same = status == 0 and last_line(output) == f"{count} same, 0 different"
    wrong = [] if same else output.splitlines()[-20:]
    summary = f"{count} scripts (seeds {seeds}) over {len(night.programs)} programs"
    return Part("scripts", FAILED if wrong else PASSED, summary, wrong)


def certificates(octets: bytes, night: Night) -> list[list[bytes]]:
    """The packets of each certificate of a keyring, each with its header."""
    sys.path.insert(0, str(night.root / "model"))
    from wot_model.certificates import KEY  # type: ignore[import]
    from wot_model.packets import read_packets  # type: ignore[import]

    found: list[list[bytes]] = []
    packets = read_packets(octets)
    ends = [packet.at for packet in packets[1:]] + [len(octets)]
    for packet, end in zip(packets, ends):
        if packet.kind == KEY:
            found.append([])
        found[-1].append(octets[packet.at : end])
    return [each for each in found if sum(map(len, each)) <= MOST_OCTETS]


def flipped(draw: random.Random, octets: bytes) -> bytes:
    at = draw.randrange(len(octets))
    return octets[:at] + bytes([octets[at] ^ 1 << draw.randrange(8)]) + octets[at + 1 :]


def mutated(draw: random.Random, packets: list[bytes], other: list[bytes]) -> bytes:
    """A certificate with one to three mistakes in its octets or its packets."""
    packets = list(packets)
    for _ in range(draw.randrange(1, 4)):
        at = draw.randrange(len(packets))
        kind = draw.randrange(8)
        if kind <= 1:
            packets[at] = flipped(draw, packets[at])
        elif kind == 2:  # In the first octets: the packet's type and length, the version, the signature type.
            packets[at] = flipped(draw, packets[at][:12]) + packets[at][12:]
        elif kind == 3:
            packets[at] = packets[at][: draw.randrange(1, len(packets[at]) + 1)]
        elif kind == 4:
            packets.insert(draw.randrange(len(packets) + 1), packets[at])
        elif kind == 5 and len(packets) > 1:
            del packets[at]
        elif kind == 6:
            there = draw.randrange(len(packets))
            packets[at], packets[there] = packets[there], packets[at]
        else:
            packets.insert(at, draw.choice(other))
    return b"".join(packets)


def lines_of(draw: random.Random, chosen: list[list[bytes]]) -> Iterator[str]:
    """A script that imports mistaken and unharmed certificates, and asks for all that came of them."""
    for packets in chosen:
        yield f"import {mutated(draw, packets, draw.choice(chosen)).hex()}"
        if draw.randrange(3) == 0:
            yield f"import {b''.join(packets).hex()}"
    yield from ("pending", "keys", "dump")


def differing(program: Path, script: bytes, wanted: bytes) -> str:
    """Where the program's replies part from the model's; the empty text if they don't."""
    try:
        ended = subprocess.run([program, "run"], input=script, capture_output=True, timeout=SECONDS, check=False)
    except subprocess.TimeoutExpired:
        return f"no end within {SECONDS} seconds"
    if ended.returncode != 0 or ended.stderr:
        return f"status {ended.returncode}, {ended.stderr[:200]!r}"
    if ended.stdout == wanted:
        return ""
    pairs = zip(ended.stdout.split(b"\n"), wanted.split(b"\n"))
    number, (said, model) = next(((n, pair) for n, pair in enumerate(pairs, 1) if pair[0] != pair[1]), (0, (b"", b"")))
    return f"reply line {number}: {said[:200]!r} and not {model[:200]!r}"


def tried(night: Night, number: int, script: bytes) -> list[str]:
    """What is wrong with each program's replies to a script, which is kept if it shows something."""
    model = [sys.executable, str(night.root / "model/run"), "/dev/null/none"]
    wanted = subprocess.run(model, input=script, stdout=subprocess.PIPE, check=True).stdout
    file = night.folder / f"mutants-{number}.wot"
    whys = [(program, differing(program, script, wanted)) for program in night.programs]
    wrong = [f"{program} on {file}: {why}" for program, why in whys if why]
    if wrong:
        file.write_bytes(script)
    return wrong


def mutants(night: Night) -> Part:
    """Real certificates with mistakes: the program says of each what the model says."""
    if not KEYRING.exists():
        return Part("mutants", SKIPPED, "the package debian-keyring isn't installed")
    draw, count, real = night.drawn("mutants"), night.size(400, 4), certificates(KEYRING.read_bytes(), night)
    drawn = (lines_of(draw, draw.sample(real, TOGETHER)) for _ in range(count))
    scripts_drawn = ["".join(line + "\n" for line in lines).encode() for lines in drawn]
    with ThreadPoolExecutor(night.jobs) as pool:
        told = pool.map(lambda each: tried(night, *each), enumerate(scripts_drawn))
        wrong = [line for lines in told for line in lines]
    summary = f"{count * TOGETHER} certificates with mistakes, of {len(real)} real ones (seed {night.seed})"
    return Part("mutants", FAILED if wrong else PASSED, summary, wrong)
