"""`tukyamid root`: the user's own trust roots, which the configuration file keeps."""

from __future__ import annotations

import argparse
import os

from ..configuration import config_editing, config_file, config_values
from ..fast_imports import TYPE_CHECKING
from ..protocol.refusals import ServiceMissing, TukyamidError
from ..safe_folders import runtime_file
from . import option_values
from .exit_statuses import REACHED, NoAnswer, WrongWords
from .key_names import resolve
from .output import printable, say, write
from .parser import Parser

if TYPE_CHECKING:
    from collections.abc import Callable, Mapping, Sequence
    from typing import Any

    from ..keyrings.keyring import Keyring

HELP = """usage: tukyamid root add KEY[:AMOUNT]..   trust these keys, with amount 120 by default
       tukyamid root remove KEY..         stop trusting them
       tukyamid root list                 list your roots

Your roots are kept in the configuration file. Questions without --root, the page, tukyamid-gpg and programs that use
the package have them as their trust roots. With --host the file of the host is changed or listed, which every user has
who has no file of their own. See docs/CLIENTS.md.
"""
_KEY_ID_DIGITS = 16


class Words(argparse.Namespace):
    """What the words say."""
    words: list[str]
    host: bool
    quiet: bool


def run(words: Sequence[str]) -> int:
    """Runs the command, and returns the exit status."""
    if any(word in ("--help", "-h") for word in words):
        write(HELP)
        return REACHED
    given = Words()
    parser().parse_intermixed_args(words, given)
    call, *keys = given.words or [""]
    if call not in ("add", "remove", "list") or (call == "list") == bool(keys):
        raise WrongWords("root takes: add KEY[:AMOUNT].., remove KEY.. or list")
    lines = _list(given) if call == "list" else (_add if call == "add" else _remove)(given, _read_keys(call, keys))
    if not given.quiet:
        write("".join(printable(line) + "\n" for line in lines))
    return REACHED


def parser() -> Parser:
    """The parser of this command."""
    made = Parser(prog="tukyamid root", add_help=False, allow_abbrev=False)
    made.add_argument("words", nargs="*")
    made.add_argument("--host", action="store_true", help="the roots of the host's file")
    made.add_argument("--quiet", "-q", action="store_true", help="print nothing if all is well")
    return made


def _read_keys(call: str, keys: list[str]) -> dict[str, int]:
    """The keys with their amounts; a key ID becomes a fingerprint. WrongWords if one can't be read."""
    try:
        read = [option_values.read_root(key) if call == "add" else (option_values.read_key(key), 0) for key in keys]
    except ValueError as error:
        raise WrongWords(str(error)) from None
    if not any(len(key) == _KEY_ID_DIGITS for key, _ in read):
        return dict(read)
    if call == "remove":
        return {_of_key_id(key): amount for key, amount in read}
    from .user_service import of_service
    keyring = of_service(())
    try:
        return {resolve(keyring, key): amount for key, amount in read}
    finally:
        keyring.close()


def _of_key_id(key: str) -> str:
    """The own root that has this key ID, or the fingerprint as it is given."""
    if len(key) != _KEY_ID_DIGITS:
        return key
    found = [fpr for fpr in config_values.load().roots if _key_id(fpr) == key]
    if len(found) != 1:
        raise NoAnswer(f"{'several' if found else 'none'} of your roots has the key ID {key}: give a fingerprint")
    return found[0]


def _key_id(fpr: str) -> str:
    return fpr[-_KEY_ID_DIGITS:] if len(fpr) == 40 else fpr[:_KEY_ID_DIGITS]


def _path(given: Words) -> str:
    return config_file.HOST_FILE if given.host else config_file.user_file()


def _add(given: Words, keys: dict[str, int]) -> list[str]:
    names = _names(keys)
    _change(_path(given), lambda document: _put(document, keys, names))
    return [f"{_shown(fpr, amount, names)} is a root now, of {_path(given)}" for fpr, amount in keys.items()]


def _put(document: Any, keys: dict[str, int], names: dict[str, str]) -> None:
    """Adds roots to a document, or changes their amounts."""
    import tomlkit
    if "roots" not in document:
        document["roots"] = tomlkit.table()
    roots = document["roots"]
    spellings = {spelling.lower(): spelling for spelling in roots}
    for fpr, amount in keys.items():
        item = tomlkit.item(amount)
        if names.get(fpr):
            item.comment(names[fpr])
        roots[spellings.get(fpr, fpr)] = item


def _remove(given: Words, keys: dict[str, int]) -> list[str]:
    def drop(document: Any) -> None:
        spellings = {spelling.lower(): spelling for spelling in document.get("roots", {})}
        for fpr in keys:
            if fpr not in spellings:
                raise NoAnswer(f"{fpr} isn't a root of {_path(given)}")
            document["roots"].remove(spellings[fpr])
    _change(_path(given), drop)
    return [f"{fpr} is no root any more" for fpr in keys]


def _change(path: str, edit: Callable[[Any], None]) -> None:
    """Changes a file. The user's own file, if it is new, begins with what the host's says, which it replaces."""
    template = None if path == config_file.HOST_FILE else config_file.read(config_file.HOST_FILE)
    if template is None:
        config_editing.change(path, edit)
        return
    if not os.path.exists(path):
        say(f"{path} begins as a copy of {config_file.HOST_FILE}, which it replaces for you")
    config_editing.change(path, edit, template)


def _list(given: Words) -> list[str]:
    text = config_file.read(config_file.HOST_FILE) if given.host else None
    config = config_values.read_checked(config_file.HOST_FILE, text) if text is not None else \
        config_values.Config(None, {}, (), config_values.Policy(), {}, {}) if given.host else config_values.load()
    if not config.roots:
        return ["you have no roots of your own; use tukyamid root add KEY"]
    names = _names(config.roots)
    return [*(_shown(fpr, amount, names) for fpr, amount in config.roots.items()), f"of {config.path}"]


def _shown(fpr: str, amount: int, names: dict[str, str]) -> str:
    return " ".join(filter(None, (fpr, names.get(fpr, ""), f"({amount})")))


def _names(keys: Mapping[str, int]) -> dict[str, str]:
    """A user ID of each key, as far as a service that already runs knows one."""
    from ..client.service_client import connect_in_time
    from ..keyrings.service_keyring import served_keyring
    try:
        keyring = served_keyring(connect_in_time(runtime_file("tukyamid.socket"), 5.0, ()))
    except (ServiceMissing, TukyamidError, OSError):
        return {}
    try:
        return {fpr: printable(name.decode("utf-8", "replace")) for fpr in keys if (name := _name(keyring, fpr))}
    finally:
        keyring.close()


def _name(keyring: Keyring, fpr: str) -> bytes | None:
    found = keyring.name(fpr) if keyring.certificate(fpr) is not None else None
    if found is None:
        say(f"the service's keyring doesn't have {fpr}")
    return found
