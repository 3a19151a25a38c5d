"""The command `tukyamid-server`."""

from __future__ import annotations

import argparse
import contextlib
import sys
from collections.abc import Callable, Sequence
from pathlib import Path
from typing import NoReturn

from tukyamid.client.engine_program import find_program
from tukyamid.keyrings.verifier import find_verifier
from tukyamid.output_files import Output
from tukyamid.protocol.refusals import TukyamidError
from tukyamid.protocol.spelling import for_people

from . import event_loop
from .ending import Ending
from .engines.certificate_directory import Directory
from .engines.program_run import pieces
from .handing_in import hand_in
from .keyring_files.keyring_updates import Keyrings
from .line_intake import LineIntake
from .listening_sockets import Listening, passed_sockets
from .paths_and_locks import default_directory
from .readers.reader_pool import ReaderPool
from .readers.reader_words import ReaderWords
from .serve_words import add_words_of_serve
from .server import Door, Service, Settings
from .storage.database import DatabaseFault
from .storage.database_choice import Chosen
from .storage.database_threads import Access, say
from .storage.dumps import import_dump, lines_of

ENDED, FAILED = 0, 1
_DESCRIPTION = """Keeps certificates and verdicts in a database, and answers the lines of Tukyamid's protocol to many
clients on a Unix socket. Without a command it serves."""
_EPILOG = """Exit status: 0 done, or ended by SIGTERM, SIGINT or because there were no clients; 1 an engine, a socket or
the database failed, or the database is damaged; 2 wrong arguments."""


class Parser(argparse.ArgumentParser):
    """A parser whose errors quote what was given without what steers a terminal."""

    def error(self, message: str) -> NoReturn:
        super().error(for_people(message.encode("utf-8", "surrogateescape"), "\\"))


def parser() -> argparse.ArgumentParser:
    words = Parser(prog="tukyamid-server", description=_DESCRIPTION, epilog=_EPILOG)
    commands = words.add_subparsers(dest="command", metavar="COMMAND", required=True)
    for name, (call, purpose) in COMMANDS.items():
        one = commands.add_parser(name, help=purpose, description=purpose.capitalize() + ".")
        one.set_defaults(call=call)
        one.add_argument("--database", metavar="FILE|URL", default=None,
                         help="a file, or a URL such as postgresql://HOST,HOST/NAME of a database that machines share "
                              "(keyring.db in the user's data folder)")
        if name in ("serve", "import-dump", "hand-in"):
            one.add_argument("--engine", metavar="PROGRAM", help="the engine's program")
        if name == "serve":
            add_words_of_serve(one)
        elif name == "hand-in":
            one.add_argument("--discard", action="store_true", help="give these changes up instead")
            one.add_argument("files", metavar="FILE", type=Path, nargs="+", help=FILES[name])
        elif name != "check":
            one.add_argument("file", metavar="FILE", type=Path, help=FILES[name])
    return words


def _program(given: argparse.Namespace) -> list[str]:
    return [given.engine] if given.engine else [str(word) for word in find_program()]


def _verifier(given: argparse.Namespace) -> Callable[[], Sequence[str]]:
    return lambda: [given.verifier] if given.verifier else [str(word) for word in find_verifier()]


def serve(given: argparse.Namespace) -> int:
    chosen = Chosen(given.database)
    with contextlib.ExitStack() as stack:
        doors = _doors(given, stack)
        stack.enter_context(chosen.lock())
        database = stack.enter_context(chosen.served())
        order = stack.enter_context(open(given.order, "ab", buffering=0)) if given.order else None
        settings = Settings(given.patience, given.idle, given.views)
        pool = ReaderPool(_words_of_readers(given, chosen), say)

        async def run() -> None:
            access = Access(database, order, pool)
            intake = LineIntake([*_program(given), "run"], given.engines, access, given.budget, given.max_age)
            directory = Directory([*_program(given), "run"], (given.directory or default_directory()).absolute())
            keyrings = Keyrings(intake, _verifier(given))
            await Service(intake, keyrings, directory, settings, pool, Ending(access.report)).serve(doors)

        event_loop.run(run)
    return ENDED


def _words_of_readers(given: argparse.Namespace, chosen: Chosen) -> ReaderWords:
    return ReaderWords(readers=given.readers, database=chosen.name, program=_program(given),
                       engines=max(1, given.engines // max(1, given.readers)), budget=given.budget,
                       patience=given.patience, max_age=given.max_age if chosen.is_shared else None, order=given.order)


def _doors(given: argparse.Namespace, stack: contextlib.ExitStack) -> list[Door]:
    doors = [Door(passed, may_change) for passed, may_change in passed_sockets()]
    for path, mode, may_change in ((given.socket, given.mode, True),
                                   (given.read_only_socket, given.read_only_mode, False)):
        if path is not None:
            listening = Listening(path.absolute(), mode)
            stack.callback(listening.close)
            doors.append(Door(listening, may_change))
    if not doors:
        raise WrongWords("--socket is missing, and systemd passed no socket")
    return doors


def check(given: argparse.Namespace) -> int:
    with Chosen(given.database).open(is_made=False) as database:
        wrong = database.check()
        for text in wrong:
            say(f"{database.name}: {text}")
    return FAILED if wrong else ENDED


def backup(given: argparse.Namespace) -> int:
    chosen = Chosen(given.database)
    with chosen.open(is_made=False) as database, Output(str(given.file), chosen.files) as output:
        database.backup(output.path)
        output.keep()
    return ENDED


def restore_from(given: argparse.Namespace) -> int:
    chosen = Chosen(given.database)
    with chosen.lock():
        aside = chosen.restore(given.file)
    if aside is not None:
        say(f"the database was damaged; it was moved to {aside}")
    return ENDED


def import_from(given: argparse.Namespace) -> int:
    chosen = Chosen(given.database)
    with chosen.lock(), chosen.open() as database, contextlib.ExitStack() as stack:
        is_input = str(given.file) == "-"
        script = sys.stdin.buffer if is_input else stack.enter_context(open(given.file, "rb"))
        import_dump(database, script, "standard input" if is_input else str(given.file), _program(given))
    return ENDED


def export_to(given: argparse.Namespace) -> int:
    chosen = Chosen(given.database)
    with chosen.open(is_made=False) as database, contextlib.ExitStack() as stack:
        script = pieces(lines_of(database))
        if str(given.file) == "-":
            for piece in script:
                sys.stdout.buffer.write(piece)
            sys.stdout.flush()
        else:
            output = stack.enter_context(Output(str(given.file), chosen.files))
            output.write(script)
            output.keep()
    return ENDED


def hand_in_from(given: argparse.Namespace) -> int:
    with Chosen(given.database).open() as database:
        for text in hand_in(database, given.files, _program(given), not given.discard):
            say(text)
    return ENDED


COMMANDS: dict[str, tuple[Callable[[argparse.Namespace], int], str]] = {
    "serve": (serve, "serve clients"),
    "check": (check, "say what is wrong with the database, if anything"),
    "backup": (backup, "copy the database, also while the service runs"),
    "restore": (restore_from, "replace the database with a copy; no service may be running on a file"),
    "import-dump": (import_from, "merge a script of the engine into the database; no service may be running on a file"),
    "export-dump": (export_to, "write the database as a script of the engine, also while the service runs"),
    "hand-in": (hand_in_from, "make acknowledged changes again that a shared database lacks"),
}
FILES = {"backup": "where the copy goes", "restore": "a copy that backup made",
         "import-dump": "the script, as dump prints it; - is standard input",
         "export-dump": "where the script goes; - is standard output",
         "hand-in": "a file of missing changes, as a service writes it"}


class WrongWords(Exception):
    """The words of the command are wrong; the text says why."""


def main(words: Sequence[str] | None = None) -> int:
    reader = parser()
    given_words = list(sys.argv[1:] if words is None else words)
    if not given_words or given_words[0] not in (*COMMANDS, "-h", "--help"):
        given_words.insert(0, "serve")
    given = reader.parse_args(given_words)
    try:
        return int(given.call(given))
    except WrongWords as error:
        reader.error(str(error))
    except (DatabaseFault, TukyamidError, OSError, ValueError) as error:
        say(f"{error.filename}: {error.strerror}" if isinstance(error, OSError) and error.filename else error)
    except Exception as error:
        say(f"an error of the service itself: {error!r}")
    return FAILED
