"""The command `tukyamid verify`: did WHOM sign this file?"""

import time
from collections.abc import Sequence

from ..command.configured import configure
from ..command.exit_statuses import REACHED, NoAnswer, WrongWords
from ..command.keyring_choice import Inputs
from ..command.option_values import read_threshold
from ..command.output import say, write
from ..command.parsed_words import Given
from ..command.parser import Help, Parser, add_inputs, add_programs, add_time_and_amount, typed
from ..command.trust_roots import Roots
from ..keyrings.unverified import is_looked_at
from ..keyrings.verifier import Verifier
from . import outcome_text
from .certificates_file import certificate_file
from .data_signatures import Signed, signatures_on
from .expected_signer import Whom
from .hints import hint
from .signed_content import Content
from .signer_check import Outcome, Wanted, When, check_signers

VERIFIED, NOT_VERIFIED = 0, 1
FORMS = {"tree": outcome_text.for_people, "json": outcome_text.for_programs, "colons": outcome_text.for_fields}
HELP = """usage: tukyamid verify FILE [SIGNATURE] --for WHOM [option..]

Is this file signed by WHOM? The verifier checks the signatures on FILE. They are in SIGNATURE, or in FILE itself if
that is a signed message or a text with a cleartext signature. Then the engine answers whether their signers are WHOM,
at the time of signing and now.

WHOM is an address (carol@example.org), a domain (@example.org), or a whole user ID."""
EPILOG = """exit status: 0 enough signers signed, and are WHOM; 1 otherwise, and the answer says what failed; 2 the
arguments are wrong; 3 there is no answer, and standard error says why; 130 it was interrupted.
"""


class GivenToVerify(Given):
    """The words of `verify`, read. `words` are FILE [SIGNATURE]."""
    whom: list[Whom]
    threshold: int
    when: str
    output: str | None


def run(words: Sequence[str]) -> int:
    """Answers, and returns the exit status."""
    made = parser()
    given = GivenToVerify(question="verify", **vars(made.parse_intermixed_args(words)))
    if given.help:
        write(made.format_help())
        return REACHED
    signed = _signed(given)
    configure(given)
    with Content(given.output) as content:
        outcome = _outcome(given, signed, content)
        if outcome.is_verified:
            content.keep()
    if not given.quiet:
        _show(FORMS[given.format](outcome), given)
    what = hint(signed, outcome)
    if what is not None:
        say(what)
    return VERIFIED if outcome.is_verified else NOT_VERIFIED


def _show(text: str, given: GivenToVerify) -> None:
    """Shows the outcome: on standard error if what is signed goes to standard output."""
    if given.output != "-":
        write(text)
        return
    for line in text.splitlines():
        say(line, who="")


def add_arguments(made: Parser) -> None:
    """The options that no other question has."""
    group = made.add_argument_group("what is verified")
    group.add_argument("--for", dest="whom", metavar="WHOM", action="append", default=[], type=typed(Whom.read),
                       help="who should have signed; if given several times, any of them is enough")
    group.add_argument("--threshold", metavar="N", type=typed(read_threshold), default=1,
                       help="how many signers are needed (1); two keys of one certificate are one signer")
    group.add_argument("--when", choices=[str(one) for one in When], default=str(When.BOTH),
                       help="when the signer has to be WHOM: at the time of signing, now, or both (the default)")
    add_time_and_amount(group)
    group.add_argument("--format", choices=FORMS, default="tree", metavar="FORM",
                       help=f"how the answer is shown: {', '.join(FORMS)}")
    group.add_argument("--output", metavar="FILE",
                       help="write the content of a signed message or text to FILE, once it is verified; - is standard "
                            "output")


def parser() -> Parser:
    """The parser of its words."""
    made = Parser(prog="tukyamid verify", description=HELP, epilog=EPILOG, add_help=False, allow_abbrev=False,
                  formatter_class=Help)
    made.add_argument("words", nargs="*", help="FILE [SIGNATURE]; - is standard input")
    add_arguments(made)
    add_inputs(made)
    add_programs(made)
    return made


def _signed(given: GivenToVerify) -> Signed:
    """What is to be verified; WrongWords if the words don't go together."""
    if not 1 <= len(given.words) <= 2:
        raise WrongWords("verify takes: FILE [SIGNATURE] --for WHOM")
    if not given.whom:
        raise WrongWords("who should have signed? give --for WHOM")
    if given.output is not None and len(given.words) == 2:
        raise WrongWords("--output doesn't go with SIGNATURE: what is signed is FILE itself")
    if [*given.words, *given.keyring].count("-") > 1:
        raise WrongWords("standard input can be only one of FILE, SIGNATURE and --keyring")
    return Signed(*given.words)


def _outcome(given: GivenToVerify, signed: Signed, content: Content) -> Outcome:
    now = int(time.time()) if given.time is None else given.time
    wanted = Wanted(tuple(given.whom), given.amount, given.threshold, When(given.when))
    with Inputs(given, say) as inputs:
        waiting = inputs.keyring.index.waiting()
        roots = Roots(given, inputs).find(now)
        for note in roots.notes:
            say(note)
        with certificate_file(inputs.keyring) as certificates:
            verifier = Verifier(inputs.verifier_words)
            found = signatures_on(signed, certificates, verifier, given.time, content.path)
        outcome = check_signers(inputs.keyring, roots.amounts, found, wanted, now)
        if waiting is not None:
            if not (outcome.is_verified and is_looked_at(inputs.keyring, outcome.fprs)):
                raise NoAnswer(f"nothing can be said yet: {waiting}")
            say(f"{waiting}; none of them can change this answer")
        return outcome
