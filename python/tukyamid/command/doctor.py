"""`tukyamid doctor`: does everything work here? It looks at the engine, the verifier, the service and the keyrings,
says what is missing, and names the command that mends it."""

from __future__ import annotations

import importlib.util
import os
import shutil
import sys
from collections.abc import Iterator, Mapping, Sequence
from enum import Enum
from pathlib import Path
from typing import TYPE_CHECKING

from ..client import connect
from ..client.engine import Engine, find_program
from ..protocol.refusals import EngineMissing, Refused, ServiceMissing, TukyamidError
from ..protocol.service_lines import KeyringLine
from ..protocol.spelling import for_people
from ..records import Value
from ..third_party import find_libraries
from ..version import VERSION, version_text
from .parser import Parser

if TYPE_CHECKING:
    from ..setup.trial import Trial

WELL, NO_ANSWER = 0, 3
# The variables that name programs and directories.
_NAMING = ("TUKYAMID_ENGINE", "TUKYAMID_VERIFIER", "XDG_RUNTIME_DIR", "GNUPGHOME", "PGP_CERT_D")
_TOP = Path(__file__).resolve().parents[3]


class State(Enum):
    """The state of a part. A `NOTE` isn't a fault: the rest works without it."""
    GOOD = "ok"
    NOTE = "note"
    BAD = "missing"


class Finding(Value):
    """What was found of a part, and the command that mends it, if any."""
    __slots__ = ("part", "state", "text", "mend")

    def __init__(self, part: str, state: State, text: str, mend: str = "") -> None:
        self.part, self.state, self.text, self.mend = part, state, text, mend


def run(words: Sequence[str] = ()) -> int:
    """Runs the command with these words, and returns its exit status: 0 if answers can be had, else 3."""
    given = parser().parse_args(list(words))
    findings = list(examine(given.engine, given.verifier, given.socket))
    sys.stdout.write("".join(map(_shown, findings)))
    sys.stdout.flush()
    return NO_ANSWER if any(one.state is State.BAD for one in findings) else WELL


def parser() -> Parser:
    """The parser of its words."""
    words = Parser(
        prog="tukyamid doctor", description="Checks the installation. Says what is missing, and how to fix it.",
        epilog="Exit status: 0 questions can be answered, 3 something that is needed for that is missing.")
    words.add_argument("--engine", metavar="PROGRAM", help="the engine's program")
    words.add_argument("--verifier", metavar="PROGRAM", help="the program wot-verdicts")
    words.add_argument("--socket", metavar="PATH", type=Path, help="the service's socket")
    return words


def _shown(finding: Finding) -> str:
    text = f"[{finding.state.value}]".ljust(10) + finding.part.ljust(10) + _printable(finding.text) + "\n"
    return text + (f"{'':20}fix it with: {_printable(finding.mend)}\n" if finding.mend else "")


def _printable(text: str) -> str:
    return for_people(text.encode("utf-8", "surrogateescape"), "\\")


def examine(engine: str | None = None, verifier: str | None = None, socket: Path | None = None) -> Iterator[Finding]:
    """What is found of each part."""
    yield Finding("version", State.GOOD, ", ".join(version_text().splitlines()))
    needed = _engine(engine), _verifier(verifier)
    yield from needed
    yield from _service(socket)
    yield from _page()
    yield from _stale()
    yield from _sources()
    yield _roots()
    yield from _programs(engine, verifier, all(one.state is State.GOOD for one in needed))


def _is_checkout() -> bool:
    return (_TOP / "wot").is_file()


def _engine(program: str | None) -> Finding:
    mend = f"{_TOP / 'wot'} run < /dev/null" if _is_checkout() else "apt install tukyamid"
    try:
        words = [program] if program else find_program()
        with Engine(words) as engine:
            count = engine.keys().count
            status = engine.close()
    except EngineMissing as fault:
        return Finding("engine", State.BAD, str(fault), mend)
    except (TukyamidError, OSError) as fault:
        return Finding("engine", State.BAD, f"{words[0]} doesn't answer as an engine: {fault}", mend)
    if count or status:
        return Finding("engine", State.BAD, f"{words[0]} ended with status {status}", mend)
    return Finding("engine", State.GOOD, f"{words[0]} answers")


def _verifier(program: str | None) -> Finding:
    from ..keyrings.verifier import Verifier, VerifierFailed
    mend = str(_TOP / "verifier" / "build") if _is_checkout() else "apt install tukyamid-verifier"
    try:
        verifier = Verifier([program] if program else None)
        return Finding("verifier", State.GOOD, f"{verifier.words[0]} is {verifier.version}")
    except VerifierFailed as fault:
        return Finding("verifier", State.BAD, str(fault), mend)


def _service(path: Path | None) -> Iterator[Finding]:
    from ..service.paths_and_locks import default_socket
    try:
        path = path or default_socket()
        with connect(path, timeout=10) as service:
            status = service.status()
            yield Finding("service", State.GOOD, f"{path} answers; it has {status['certificates']} certificates and "
                          f"{status['verdicts']} verdicts in {status.get('database', 'memory')}{_readers(status)}")
            yield from _age(path, status)
            yield from map(_kept, service.keyrings())
    except ServiceMissing:
        yield Finding("service", State.NOTE, f"none is running at {path}; a question that needs one starts it")
    except (Refused, KeyError) as fault:
        yield Finding("service", State.BAD, f"{path} doesn't answer as a service: {fault}",
                      "end it, and ask again: the next question starts another")
    except (TukyamidError, OSError) as fault:
        yield Finding("service", State.BAD, str(fault), "set XDG_RUNTIME_DIR to a directory that only you can use")


def _readers(status: Mapping[str, str]) -> str:
    count = status.get("readers", "0")
    return "" if count == "0" else f", and {count} reader{'' if count == '1' else 's'}"


def _age(path: Path, status: Mapping[str, str]) -> Iterator[Finding]:
    """A service that was started before the programs were upgraded, and goes on with the old ones."""
    began = status.get("version")
    if began != VERSION:
        named = "an earlier version" if began is None else f"version {began}"
        yield Finding("service", State.NOTE, f"{path} is of {named}, and this command of version {VERSION}",
                      f"kill {status.get('process', 'it')}; the next question starts another")


def _page() -> Iterator[Finding]:
    """What `tukyamid web` needs, and nothing else does. Without the last one it shows no QR codes."""
    from ..web.page_files import D3
    find_libraries()
    parts = {"python3-aiohttp": importlib.util.find_spec("aiohttp") is not None,
             "libjs-d3": any(map(os.path.isfile, D3)),
             "python3-qrcode": importlib.util.find_spec("qrcode") is not None}
    missing = [name for name, is_there in parts.items() if not is_there]
    if missing == ["python3-qrcode"]:
        yield Finding("page", State.NOTE, "tukyamid web works, but shows no QR codes: python3-qrcode isn't installed",
                      "apt install python3-qrcode")
    elif missing:
        yield Finding("page", State.NOTE, f"tukyamid web needs what isn't installed: {', '.join(missing)}",
                      f"apt install {' '.join(missing)}")
    else:
        yield Finding("page", State.GOOD, "tukyamid web has what it needs")


def _stale() -> Iterator[Finding]:
    """Variables of the environment that name what isn't there."""
    for name in _NAMING:
        value = os.environ.get(name)
        if value and not (os.path.exists(value) or shutil.which(value)):
            yield Finding("variable", State.NOTE, f"{name} names {value}, which isn't there", f"unset {name}")


def _kept(one: KeyringLine) -> Finding:
    """A keyring of the service. One whose signatures wait needs a verifier that works, which is another finding."""
    if not one.is_verified:
        return Finding("keyring", State.NOTE, f"{one.name}: its signatures wait to be verified: {one.fault}")
    if one.fault:
        return Finding("keyring", State.NOTE, f"{one.name}: {one.fault}", f"tukyamid keyring remove {one.name}")
    return Finding("keyring", State.GOOD, f"{one.name}: {one.certificates} certificates")


def _sources() -> Iterator[Finding]:
    """Keyrings of other programs, which a question can be asked about."""
    from ..service.paths_and_locks import default_directory
    if shutil.which("gpg"):
        yield Finding("gpg", State.GOOD, f"{shutil.which('gpg')} is there; --gpg uses its keyring")
    else:
        yield Finding("gpg", State.NOTE, "gpg isn't installed; --gpg needs it", "apt install gnupg")
    directory = default_directory()
    if directory.is_dir() and os.access(directory, os.R_OK | os.X_OK):
        yield Finding("directory", State.GOOD, f"{directory} is there")
    else:
        yield Finding("directory", State.NOTE, f"there is no certificate directory {directory}")


def _roots() -> Finding:
    """The user's own trust roots. A file of them that can't be used leaves no question an answer."""
    from ..configuration import config_file, config_values
    try:
        config = config_values.load()
    except config_file.ConfigUnusable as fault:
        return Finding("roots", State.BAD, str(fault))
    if config.roots:
        return Finding("roots", State.GOOD, f"{len(config.roots)} of your own, in {config.path}")
    return Finding("roots", State.NOTE, "you have none of your own", "tukyamid root add KEY")


def _programs(engine: str | None, verifier: str | None, can_try: bool) -> Iterator[Finding]:
    """The programs that were set up to ask. One signature is tried through each, if engine and verifier work."""
    from ..setup.examination import asking
    names = list(asking())
    if not names:
        yield Finding("programs", State.NOTE, "tukyamid setup has had none ask", "tukyamid setup git")
        return
    if not can_try:
        yield Finding("programs", State.NOTE, f"tukyamid setup has these ask: {', '.join(names)}")
        return
    from ..setup.trial import TrialFailed, trial
    options = [word for name, value in (("--engine", engine), ("--verifier", verifier)) if value
               for word in (name, value)]
    try:
        with trial(options) as made:
            for name in names:
                yield _tried(name, made)
    except (TrialFailed, TukyamidError, OSError) as fault:
        yield Finding("programs", State.NOTE, f"{', '.join(names)} couldn't be tried: {fault}")


def _tried(name: str, made: Trial) -> Finding:
    from ..setup.trial import TrialFailed
    from ..setup.trying import fault_of
    try:
        fault = fault_of(name, made)
    except TrialFailed as failed:
        fault = str(failed)
    if fault is None:
        return Finding("program", State.GOOD, f"{name} asks Tukyamid: it took a signature that only Tukyamid knows")
    return Finding("program", State.NOTE, f"{name} was set up, and doesn't ask Tukyamid: {fault}")
