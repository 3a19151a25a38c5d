"""The sets of trust roots that the operator names: those of the configuration file, or of the command's words."""

from __future__ import annotations

from collections.abc import Mapping, Sequence

from ..command.exit_statuses import WrongWords
from ..configuration.config_values import MOST_SETS, is_set, load, read_text
from ..web.page_requests import MOST_ROOTS

Sets = Mapping[str, Mapping[str, int]]


def read_sets(words: Sequence[str]) -> Sets:
    """The sets of the words NAME=FILE, or without any those of the configuration file. The first is the default one.
    WrongWords says what is wrong with one."""
    if not words:
        return {name: _checked(name, "the configuration file", roots) for name, roots in load().sets.items()}
    sets: dict[str, Mapping[str, int]] = {}
    for word in words:
        name, equals, path = word.partition("=")
        if not equals or not is_set(name):
            raise WrongWords(f"--roots takes NAME=FILE, with a name of up to 32 letters, digits, - and _, not {word!r}")
        if name in sets or len(sets) == MOST_SETS:
            raise WrongWords(f"the set of roots {name} is given twice, or more than {MOST_SETS} sets are given")
        sets[name] = _read_set(name, path)
    return sets


def set_named(sets: Sets, name: object) -> Mapping[str, int]:
    """The set of this name. ValueError if there is none."""
    if not isinstance(name, str) or name not in sets:
        raise ValueError(f"there is no set of roots {str(name)[:40]!r}: {', '.join(sets) or 'none has a name'}")
    return sets[name]


def _read_set(name: str, path: str) -> Mapping[str, int]:
    try:
        with open(path, encoding="utf-8") as file:
            roots = read_text(file.read()).roots
    except (OSError, ValueError) as error:
        said = error.strerror if isinstance(error, OSError) else str(error)
        raise WrongWords(f"the set of roots {name}: {path}: {said}") from None
    if not roots:
        raise WrongWords(f"the set of roots {name}: {path} has no table [roots] with fingerprints and amounts")
    return _checked(name, path, roots)


def _checked(name: str, path: str, roots: Mapping[str, int]) -> Mapping[str, int]:
    """The roots, unless they are more than a question of the page has."""
    if len(roots) > MOST_ROOTS:
        raise WrongWords(f"the set of roots {name}: {path} has more than {MOST_ROOTS} roots in it")
    return roots
