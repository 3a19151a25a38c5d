"""The words of `tukyamid web`, and the page from its start to its end."""

import asyncio
import time
from collections.abc import Sequence
from contextlib import ExitStack

from ..command.configured import configure
from ..command.exit_statuses import REACHED, NoAnswer, WrongWords
from ..command.keyring_choice import Inputs
from ..command.option_values import read_time
from ..command.output import say, write
from ..command.parsed_words import Given
from ..command.parser import Help, Parser, add_inputs, typed
from ..command.trust_roots import Chosen, Roots
from ..keyrings.service_keyring import served_keyring
from ..third_party import find_libraries
from .asked_service import service_for
from .browser_opening import opened
from .page_files import read_files
from .page_requests import Standpoint
from .service_connections import ServiceConnections

HELP = """usage: tukyamid web [option..]

Opens a page in the browser that shows who vouches for whom. The page is served only to this machine, under an address
that nobody can guess, until the command is interrupted. It loads nothing from anywhere else."""


class Wanted(Given):
    """The words of `tukyamid web`, beside those of a question."""
    port: int
    no_browser: bool


def run(words: Sequence[str]) -> int:
    """Serves the page, and returns the exit status."""
    if "--public" in words:
        from ..public import public_command
        return public_command.run(words)
    given = _read(words)
    if given is not None:
        _serve(given)
    return REACHED


def _serve(given: Wanted) -> None:
    """Serves the page until the command is interrupted."""
    find_libraries()
    try:
        from .http_server import Server
        from .overview_jobs import Surveys
        from .page_calls import Calls
    except ModuleNotFoundError as error:
        raise NoAnswer(f"the page needs Python's {error.name}: apt-get install python3-aiohttp libjs-d3") from None
    configure(given)
    inputs = Inputs(given, say)
    service = service_for(given, inputs, say)

    async def serve() -> None:
        connections = ServiceConnections(service.socket, service.start)
        at = int(time.time()) if given.time is None else given.time
        chosen = _roots(connections, given, inputs, at)
        surveys = Surveys(connections)
        calls = Calls(connections, surveys, Standpoint(at, chosen.amounts), chosen.notes, service.is_own)
        server = Server(read_files(), calls.by_name, given.port)
        connections.keep()
        with ExitStack() as stack:
            stack.callback(connections.close)
            try:
                await server.run(lambda: _begin(server.address, given.no_browser, stack))
            finally:
                await calls.close()
    asyncio.run(serve())


def _begin(address: str, no_browser: bool, stack: ExitStack) -> None:
    """Prints the address, and opens it."""
    write(f"{address}\n")
    if not no_browser:
        stack.enter_context(opened(address))


def parser() -> Parser:
    """The parser of its words."""
    made = Parser(prog="tukyamid web", description=HELP, add_help=False, allow_abbrev=False, formatter_class=Help)
    add_inputs(made)
    group = made.add_argument_group("the page")
    group.add_argument("--time", metavar="TIME", type=typed(read_time), help="the time that the page shows first (now)")
    group.add_argument("--port", metavar="N", type=typed(_read_port), default=0, help="the port (any free one)")
    group.add_argument("--public", action="store_true",
                       help="answer everyone, and change nothing: see tukyamid web --public --help")
    group.add_argument("--no-browser", action="store_true", help="print the address, but don't open a browser")
    group.add_argument("--cache", metavar="FOLDER", help="where verified keyrings are kept")
    group.add_argument("--verifier", metavar="PROGRAM", help="the program wot-verdicts")
    group.add_argument("--help", "-h", action="store_true", help="print this help and exit")
    made.set_defaults(question="web", words=[], no_service=False, no_cache=False, anew=False, engine=None,
                      amount=0)
    return made


def _read(words: Sequence[str]) -> Wanted | None:
    made = parser()
    given = made.parse_args(words, Wanted())
    if given.help:
        write(made.format_help())
        return None
    return given


def _read_port(text: str) -> int:
    if not (text.isascii() and text.isdigit() and 1024 <= int(text) < 65536):
        raise ValueError(f"{text!r} isn't a port: write a number from 1024 to 65535")
    return int(text)


def _roots(connections: ServiceConnections, given: Given, inputs: Inputs, at: int) -> Chosen:
    """The roots to begin with. The page works without any: they can be chosen there."""
    with connections.connect() as client:
        inputs.keyring = served_keyring(client)
        try:
            return Roots(given, inputs).find(at)
        except (WrongWords, NoAnswer) as error:
            if (given.root or given.gpg) and not given.roots_note:
                raise
            return Chosen({}, (str(error),))
