"""The commands about the service: `keyring`, `status` and `log`."""

import argparse
import functools
import os
import time
from collections.abc import Callable, Iterator, Sequence

from ..client import Client
from ..keyrings.keyring import Keyring
from ..keyrings.service_keyring import served_keyring
from ..openpgp.certificates import read_certificate
from ..openpgp.lifetimes import expired_elsewhere
from ..protocol.reasons import TargetWord
from ..protocol.refusals import KeyringFault, RefusedAbsent
from ..protocol.service_lines import KeyringLine
from .exit_statuses import REACHED, NoAnswer, WrongWords
from ..keyrings.gpg_keyring import home_directory
from .output import printable, say, write
from .parser import Parser
from .user_service import host_service, service

HELP = """usage: tukyamid keyring add NAME..      keep these keyrings: a file, a certificate directory, a folder
                                        of keyring files, or gpg
       tukyamid keyring remove NAME..   stop watching them; their certificates stay, but for those that only they have
                                        with --certificates
       tukyamid keyring list            list the keyrings that are kept
       tukyamid status                  show what the service holds
       tukyamid log [N]                 show the last N changes (20), newest first: when, by whom, what

The service keeps these keyrings, so that questions are answered at once. It starts by itself, and verifies a keyring
again when it changes. With --host they are about the service of the host. With --quiet nothing is printed if all is
well. See docs/SERVICE.md.
"""


class Words(argparse.Namespace):
    """What the words say: `words` are those that aren't options."""
    words: list[str]
    certificates: bool
    host: bool
    quiet: bool


def parser(command: str) -> Parser:
    """The parser of the words of one of the commands."""
    made = Parser(prog=f"tukyamid {command}", add_help=False, allow_abbrev=False)
    made.add_argument("words", nargs="*")
    if command == "keyring":
        made.add_argument("--certificates", action="store_true", help="remove the certificates too")
    else:
        made.set_defaults(certificates=False)
    made.add_argument("--host", action="store_true", help="ask the service of the host")
    made.add_argument("--quiet", "-q", action="store_true", help="print nothing if all is well")
    return made


def run(command: str, words: Sequence[str]) -> int:
    """Runs one of the commands, and returns the exit status."""
    if any(word in ("--help", "-h") for word in words):
        write(HELP)
        return REACHED
    call = {"keyring": _keyring, "status": _status, "log": _log}[command]
    given = Words()
    parser(command).parse_intermixed_args(words, given)
    if given.certificates and given.words[:1] != ["remove"]:
        raise WrongWords("--certificates goes with keyring remove")
    may_change = command == "keyring" and given.words[:1] != ["list"]
    with host_service(may_change) if given.host else service() as client:
        lines = call(client, given)
    if not given.quiet:
        write("".join(printable(line) + "\n" for line in lines))
    return REACHED


def _keyring(client: Client, given: Words) -> list[str]:
    word, *names = given.words or [""]
    if word == "list" and not names:
        return [f"{one.name}: {_about(one)}" for one in client.keyrings()] + _waiting(client) or [
            "no keyring is kept; use tukyamid keyring add FILE|DIRECTORY|gpg"]
    if word == "add" and names:
        return _each(names, lambda name: _add(client, name))
    if word == "remove" and names:
        return _each(names, lambda name: _remove(client, name, given.certificates))
    raise WrongWords("keyring takes: add NAME.., remove NAME.. or list")


def _each(names: list[str], call: Callable[[str], str]) -> list[str]:
    """Does something with each keyring. If that fails for some, it is done with the others all the same."""
    lines, faults = [], []
    for name in names:
        try:
            lines.append(call(name))
        except NoAnswer as error:
            faults.append(error)
    for fault in faults[:-1]:
        say(str(fault))
    if faults:
        write("".join(printable(line) + "\n" for line in lines))
        raise faults[-1]
    return lines


def _about(one: KeyringLine) -> str:
    what = "" if one.is_verified else "not verified: "
    return f"{one.certificates} certificates{f'; {what}{one.fault}' if one.fault else ''}"


def _waiting(client: Client) -> list[str]:
    waiting = client.unverified()
    return [] if waiting is None else [str(waiting)]


def absolute(name: str) -> str:
    """A keyring's name for the service, whose working directory and gpg may be others."""
    if name == "gpg":
        return f"gpg:{home_directory()}"
    word, colon, home = name.partition(":")
    return f"gpg:{os.path.abspath(home)}" if word == "gpg" and colon else os.path.abspath(name)


def _add(client: Client, name: str) -> str:
    try:
        added = client.add_keyring(absolute(name), _say_progress)
    except KeyringFault as fault:
        raise NoAnswer(_why_not_added(client, name, fault)) from None
    return f"{name}: {added.certificates} certificates, {added.verdicts} new verdicts"


def _why_not_added(client: Client, name: str, fault: KeyringFault) -> str:
    """Why a keyring couldn't be added; or why its signatures wait, if it was."""
    waiting = next((one for one in client.keyrings() if one.name == absolute(name) and not one.is_verified), None)
    if waiting is None:
        return fault.why
    added = f"{waiting.certificates} certificates are added, and " if waiting.certificates else ""
    return (f"{name}: {added}their signatures wait to be verified: {fault.why}. They are verified as soon as that is "
            "possible")


def _say_progress(text: str) -> None:
    if os.isatty(2):  # A script has no use for it.
        say(text)


def _remove(client: Client, name: str, with_certificates: bool) -> str:
    kept = [one.name for one in client.keyrings()]
    # Earlier versions kept gpg's without its home directory.
    whole = next((one for one in (absolute(name), name) if one in kept), None)
    if whole is None:
        raise NoAnswer(f"the keyring {name} isn't kept")
    if not with_certificates:
        client.remove_keyring(whole)
        return f"{name}: no longer watched; its certificates stay"
    from .keyring_certificates import fingerprints_of
    fprs = fingerprints_of(whole, [one for one in kept if one != whole])
    client.remove_keyring(whole)
    dropped = 0
    for fpr in sorted(fprs):
        try:
            client.drop(fpr)
            dropped += 1
        except RefusedAbsent:
            pass  # It was dropped before.
    return f"{name}: no longer watched; {dropped} certificates that no other keyring has are removed"


def _status(client: Client, given: Words) -> list[str]:
    if given.words:
        raise WrongWords("status takes no arguments")
    figures = client.status()
    if figures.get("loaded", "all") == "all":  # In a larger keyring nobody waits for a look at each key.
        figures["expired-elsewhere"] = str(_count_expired(served_keyring(client)))
    return [f"{name}: {value}" for name, value in figures.items()] + [
        f"keyring: {one.name}, {_about(one)}" for one in client.keyrings()] + [
        f"waiting: {one}" for one in _waiting(client)]


def _count_expired(keyring: Keyring) -> int:
    """How many keys gpg or Sequoia treat as expired, though the engine doesn't."""
    view = keyring.view(int(time.time()), {}, "status")
    found = 0
    for key in list(keyring.engine.keys()):
        certificate = read_certificate(keyring.engine.export(key.fpr))
        if expired_elsewhere(certificate, functools.partial(keyring.index.issuer, key.fpr), view.time) is not None:
            words = (view.explain(key.fpr, user_id) for user_id in certificate.user_ids)
            found += any(one is not None and one.word is TargetWord.OK for one in words)
    return found


def _log(client: Client, given: Words) -> list[str]:
    words = given.words
    if len(words) > 1 or words and not (words[0].isascii() and words[0].isdigit() and 0 < int(words[0]) < 10**6):
        raise WrongWords("log takes: [N], how many changes are shown")
    return list(_changes(client, int(words[0]) if words else 20))


def _changes(client: Client, count: int) -> Iterator[str]:
    for change in client.log(count):
        when = time.strftime("%Y-%m-%d %H:%M:%S UTC", time.gmtime(change.time))
        yield f"{change.number} {when} by user {change.user}, process {change.process}: {change.what}"
