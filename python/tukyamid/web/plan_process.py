"""Looks for what is fragile, or makes the plan of a meeting: `python3 -m tukyamid.web.plan_process SOCKET`, with what
is asked as JSON on standard input. Writes lines of JSON: how far it is, and at last the answer."""

import json
import sys
from typing import Any

from ..client import connect
from ..formats.phrases import Called
from ..keyrings.keyring import Keyring
from ..keyrings.service_keyring import served_keyring
from ..planning import meeting_sheet, meeting_text
from ..planning.fragile_making import fragile_in
from ..planning.fragile_tables import tables
from ..planning.meeting_making import meeting_of
from .overview_process import say, saying


def main(words: list[str]) -> int:
    asked = json.loads(sys.stdin.read())
    return saying(lambda: _say_answer(words[0], asked))


def _say_answer(socket: str, asked: dict[str, Any]) -> None:
    with connect(socket) as client:
        say(**_answer(served_keyring(client), asked))


def _answer(keyring: Keyring, asked: dict[str, Any]) -> dict[str, Any]:
    time, roots, wanted, called = asked["time"], asked["roots"], asked["wanted"], Called(keyring)
    if asked["what"] == "fragile":
        if not roots:
            return {"error": "without a root nothing is authenticated, so nothing is fragile"}
        found = fragile_in(keyring, time, roots, wanted, asked["days"], _say)
        return {"time": time, "roots": roots, "reached": found.reached, "tables": tables(found, called.of)}
    meeting = meeting_of(keyring, asked["who"], time, roots, wanted, asked["depth"], say=_say)
    shown = meeting_text.as_object(meeting, called.of)
    names = {fpr: called.of(fpr) for fpr in meeting.comers}
    sheet = meeting_sheet.show(meeting, time, called.of)
    return {"time": time, "roots": roots, **shown, "names": names, "sheet": sheet}


def _say(text: str) -> None:
    say(progress=text)


if __name__ == "__main__":
    sys.exit(main(sys.argv[1:]))
