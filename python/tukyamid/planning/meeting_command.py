"""`tukyamid plan --meeting FILE`: who should certify whom when these people meet?"""

from __future__ import annotations

import json
import sys

from ..bounded_reading import read_at_most
from ..command.exit_statuses import NOT_REACHED, REACHED, NoAnswer, WrongWords
from ..command.key_names import resolve
from ..command.option_values import read_key
from ..command.output import write
from ..formats.phrases import Called, moment
from ..keyrings.keyring import Keyring
from . import meeting_sheet
from .fragile_command import progress_for
from .meeting_making import MOST_COMERS, MOST_STEPS, meeting_of
from .meeting_text import as_object, as_text
from .plan_words import Wanted

MOST_OCTETS = 1 << 20


def run(given: Wanted, keyring: Keyring, at: int, roots: dict[str, int], notes: tuple[str, ...]) -> int:
    """Shows the plan, and returns the exit status: whether there is something to do."""
    comers = [resolve(keyring, key) for key in read_comers(given.meeting or "")]
    program = [given.engine] if given.engine else None
    meeting = meeting_of(keyring, comers, at, roots, given.amount, given.depth, given.most or MOST_STEPS,
                         progress_for(sys.stderr), program)
    if not meeting.comers:
        raise NoAnswer("none of those who come is in the keyring")
    called = Called(keyring)
    if given.format == "json":
        shown = {"question": "meeting", "time": at, "roots": [
            {"fingerprint": fpr, "amount": amount} for fpr, amount in roots.items()], **as_object(meeting, called.of)}
        text = json.dumps({**shown, "notes": list(notes)}, indent=2, ensure_ascii=False) + "\n"
    elif given.format == "html":
        text = meeting_sheet.show(meeting, at, called.of)
    else:
        text = f"as of {moment(at)}; {as_text(meeting, called.of)}" + "".join(f"note: {note}\n" for note in notes)
    if not given.quiet:
        write(text)
    return REACHED if meeting.steps else NOT_REACHED


def read_comers(path: str) -> list[str]:
    """The keys of those who come, one a line. What follows a key, or a `#`, is a remark."""
    octets = read_at_most(path, MOST_OCTETS)
    if octets is None:
        raise WrongWords(f"{path} is too long for a list of keys")
    keys = []
    for number, line in enumerate(octets.decode("utf-8", "surrogateescape").splitlines(), 1):
        said = line.partition("#")[0].strip()
        if said:
            keys.append(_read_line(path, number, said))
    if not 0 < len(keys) <= MOST_COMERS:
        raise WrongWords(f"{path} has {len(keys)} keys: a meeting has from 1 to {MOST_COMERS}")
    return keys


def _read_line(path: str, number: int, said: str) -> str:
    try:
        return read_key(said)
    except ValueError:
        pass
    try:
        return read_key(said.split()[0])
    except ValueError as error:
        raise WrongWords(f"{path}, line {number}: {error}") from None
