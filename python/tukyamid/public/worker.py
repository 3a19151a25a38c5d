"""A process that answers questions: `python3 -m tukyamid.public.worker SOCKET`. It reads a question in each line, and
writes the status and the size of the answer in a line, and then the answer. Whoever started it ends it if it takes too
long."""

from __future__ import annotations

import json
import resource
import sys
from typing import Any

from ..command.exit_statuses import NoAnswer, WrongWords, reason_of
from ..formats.json_form import compact
from ..protocol.refusals import ServiceEnded, TukyamidError
from .answering import Answering
from .page_answering import ask_page

MOST_OCTETS = 16 << 20
MOST_MEMORY = 2 << 30


def main(socket: str) -> None:
    """Answers until its input ends."""
    resource.setrlimit(resource.RLIMIT_CORE, (0, 0))
    _, hard = resource.getrlimit(resource.RLIMIT_AS)
    most = MOST_MEMORY if hard == resource.RLIM_INFINITY else min(MOST_MEMORY, hard)
    resource.setrlimit(resource.RLIMIT_AS, (most, most))
    answering = Answering(socket)
    for line in sys.stdin.buffer:
        status, answer = _reply(answering, line)
        body = compact(answer).encode("utf-8", "backslashreplace")
        if len(body) > MOST_OCTETS:
            status, body = 503, json.dumps(_error(3, f"the answer has more than {MOST_OCTETS} bytes")).encode()
        sys.stdout.buffer.write(b"%d %d\n%s" % (status, len(body), body))
        sys.stdout.buffer.flush()


def _reply(answering: Answering, line: bytes) -> tuple[int, dict[str, Any]]:
    """The status and the answer. Nothing that fails says that an amount isn't reached."""
    try:
        return 200, _answer(answering, line)
    except (WrongWords, ValueError) as error:
        return 400, _error(2, str(error))
    except NoAnswer as error:
        return 404 if answering.waiting is None else 503, _error(3, str(error))
    except TukyamidError as error:
        answering.forget()
        return 503, _error(3, reason_of(error))
    except MemoryError:
        answering.forget()
        return 503, _error(3, "this question takes more memory than its share")
    except Exception as error:
        answering.forget()
        return 500, _error(3, reason_of(error))


def _answer(answering: Answering, line: bytes) -> dict[str, Any]:
    """A connection that was kept may have ended with the service, which then is asked over another one."""
    is_kept = answering.is_connected
    try:
        return _answer_once(answering, line)
    except ServiceEnded:
        if not is_kept:
            raise
        answering.forget()
        return _answer_once(answering, line)


def _answer_once(answering: Answering, line: bytes) -> dict[str, Any]:
    call, time, roots, asked, state = json.loads(line)
    answering.at(state)
    page = call.removeprefix("page/")
    return ask_page(answering, page, asked) if page != call else answering.ask(call, time, dict(roots), asked)


def _error(status: int, reason: str) -> dict[str, Any]:
    """An error, with the status that the command would have ended with."""
    return {"error": reason, "status": status}


if __name__ == "__main__":
    main(sys.argv[1])
