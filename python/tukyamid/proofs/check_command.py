"""The words of `tukyamid check`, and what it says."""

from collections.abc import Iterator, Mapping, Sequence

from ..bounded_reading import read_at_most
from ..command.exit_statuses import NOT_REACHED, REACHED, NoAnswer, WrongWords
from ..command.option_values import read_root
from ..command.output import write
from ..command.parser import Help, Parser, typed
from ..formats.phrases import count, moment
from ..protocol.spelling import for_people
from .proof_check import Checked, check
from .proof_file import ABSENCE, MOST_OCTETS, Proof, read

HELP = """usage: tukyamid check [option..] FILE

Does the answer in this file hold? The page of `tukyamid web` writes such files. The check doesn't trust the file: it
verifies the signatures again, and an engine on this machine checks the paths."""
EPILOG = "exit status: 0 the claim holds; 1 it doesn't; 2 the arguments are wrong; 3 it couldn't be checked\n"


def parser() -> Parser:
    """The parser of its words."""
    made = Parser(prog="tukyamid check", description=HELP, epilog=EPILOG, add_help=False, allow_abbrev=False,
                  formatter_class=Help)
    made.add_argument("file", nargs="?")
    made.add_argument("--root", action="append", default=[], metavar="KEY[:AMOUNT]", type=typed(read_root),
                        help="a root that you trust; if given, the claim may have no others, and no greater amounts")
    made.add_argument("--engine", metavar="PROGRAM", help="the engine's program")
    made.add_argument("--verifier", metavar="PROGRAM", help="the program wot-verdicts")
    made.add_argument("--quiet", "-q", action="store_true", help="print nothing: the exit status has it")
    made.add_argument("--help", "-h", action="store_true", help="print this help and exit")
    return made


def run(words: Sequence[str]) -> int:
    """Checks a file, and returns the exit status."""
    made = parser()
    given = made.parse_args(list(words))
    if given.help:
        write(made.format_help())
        return REACHED
    if given.file is None:
        raise WrongWords("check takes: FILE")
    proof = read(_octets(given.file))
    checked = check(proof, [given.engine] if given.engine else None, [given.verifier] if given.verifier else None)
    why_not = checked.why_not or _untrusted(proof, dict(given.root))
    if not given.quiet:
        write("\n".join(_report(proof, checked, why_not)) + "\n")
    return NOT_REACHED if why_not else REACHED


def _octets(name: str) -> bytes:
    octets = read_at_most(name, MOST_OCTETS)
    if octets is None:
        raise NoAnswer(f"{name} has more than {MOST_OCTETS} octets")
    return octets


def _untrusted(proof: Proof, trusted: Mapping[str, int]) -> str:
    """Why the claim's roots aren't those that are trusted here; empty if they are, or if none were named."""
    if trusted:
        for fpr, amount in proof.roots.items():
            if amount > max((most for key, most in trusted.items() if fpr == key or fpr.endswith(key)), default=0):
                return f"its root {fpr} has amount {amount}, which is more than --root allows"
    return ""


def _report(proof: Proof, checked: Checked, why_not: str) -> Iterator[str]:
    """What was claimed, what was checked, and what came out."""
    yield f"{'[✗] the claim does not hold' if why_not else '[✓] the claim holds'}: {why_not or _claimed(proof)}"
    yield f"    user ID: {for_people(proof.user_id)}"
    yield f"    key: {proof.fpr}"
    yield f"    claimed: amount {proof.amount} of {proof.wanted}, as of {moment(proof.time)}"
    for fpr, amount in proof.roots.items():
        yield f"    root: {fpr}, amount {amount}"
    yield (f"    checked: {count(checked.keys, 'certificate')} in the file, {count(checked.signatures, 'signature')} "
           f"found good by {for_people(checked.verifier.encode())}, {count(len(proof.paths), 'path')}")
    yield f"    the engine's own answer over these certificates: amount {checked.amount}"
    if proof.claim == ABSENCE:
        yield "    note: a certificate that isn't in the file could add a path"
    yield "    note: it is up to you whether to trust its roots"


def _claimed(proof: Proof) -> str:
    if proof.claim == ABSENCE:
        return f"from its roots, over its certificates, no path is left beyond amount {proof.amount}"
    return f"from its roots the user ID belongs to the key, by {count(len(proof.paths), 'path')}"
