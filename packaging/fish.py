"""Completion for fish, from parsers of the command's words. shtab, which writes those of other shells, can't."""

import argparse
from collections.abc import Iterator, Mapping, Sequence

# Which of the names stands first; options before it are those of questions.
_BEGINNING = """\
# Completion of tukyamid for fish.
function __tukyamid_name
    for word in (commandline -opc)[2..]
        if contains -- $word {names}
            echo $word
            return
        end
    end
end
function __tukyamid_is
    test (__tukyamid_name | string collect --allow-empty) = "$argv"
end
complete -c tukyamid -f
"""


def script(parsers: Mapping[str, Sequence[argparse.Action]], files: Sequence[str], folders: Sequence[str],
           files_of: Sequence[str], choices_of: Mapping[str, Sequence[str]]) -> str:
    """The completion of these commands, each with its options; those of the name `` stand before any command. `files`
    and `folders` are options with such values, `files_of` are commands with files after them, and `choices_of` are
    those with words after them."""
    names = [name for name in parsers if name]
    lines = [f"complete -c tukyamid -n '__tukyamid_is' -a {_quoted(name)}" for name in names]
    for name, options in parsers.items():
        front = f"complete -c tukyamid -n {_quoted(f'__tukyamid_is {name}'.strip())}"
        lines += [front + words for option in options for words in _option(option, files, folders)]
    for name, words in choices_of.items():
        test = f"__tukyamid_is {name}; and not __fish_seen_subcommand_from {' '.join(words)}"
        lines.append(f"complete -c tukyamid -n {_quoted(test)} -a {_quoted(' '.join(words))}")
    for name in files_of:
        after = f"; and __fish_seen_subcommand_from {' '.join(choices_of[name])}" if name in choices_of else ""
        lines.append(f"complete -c tukyamid -n {_quoted(f'__tukyamid_is {name}{after}')} -F")
    return _BEGINNING.format(names=" ".join(names)) + "\n".join(lines) + "\n"


def _option(option: argparse.Action, files: Sequence[str], folders: Sequence[str]) -> Iterator[str]:
    """What fish has to know of an option, for each of its spellings."""
    value = ""
    if option.nargs != 0:
        value = " -x"
        if option.choices is not None:
            value += f" -a {_quoted(' '.join(map(str, option.choices)))}"
        elif set(option.option_strings) & set(folders):
            value += " -a '(__fish_complete_directories)'"
        elif set(option.option_strings) & set(files):
            value = " -r -F"
    told = f" -d {_quoted(option.help.replace('%%', '%'))}" if option.help else ""
    for spelling in option.option_strings:
        kind = "-l" if spelling.startswith("--") else "-s"
        yield f" {kind} {spelling.lstrip('-')}{value}{told}"


def _quoted(text: str) -> str:
    return "'" + " ".join(text.split()).replace("\\", "\\\\").replace("'", "\\'") + "'"
