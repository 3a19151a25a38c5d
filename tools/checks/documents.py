"""Links, paths and commands in documents lead somewhere: the file, the heading, the program and its options exist."""

import re
from collections.abc import Iterator

from .finding import Finding
from .tree import Tree, line_of

LINK = re.compile(r"\[[^\]]*\]\(([^)\s]+)\)")
SPAN = re.compile(r"`([^`\n]+)`")
BLOCK = re.compile(r"^[ \t]*```[^\n]*\n(.*?)^[ \t]*```", re.MULTILINE | re.DOTALL)
PATH = re.compile(r"[\w.-]+(?:/[\w.+-]+)+/?")
OPTION = re.compile(r"(?<!\S)(--[a-z][a-z-]+)")
HEADING = re.compile(r"^#+ +(.+?) *$", re.MULTILINE)
PROGRAM = re.compile(r"(?:\./)?((?:tools|tests|model|bench|packaging|python/bin|examples)/[\w./-]+|wot)\Z")
LAUNCHERS = {"tukyamid", "tukyamid-server", "tukyamid-service"}
ALWAYS = {"--help"}
# What this page says of earlier releases was so then.
HISTORY = "CHANGELOG.md"
MADE = re.compile(r"(?:^|/)out/|^out/|target/")


def anchors_of(text: str) -> set[str]:
    """The anchors of a page's headings, as GitHub makes them."""
    plain = (re.sub(r"[`*]", "", heading) for heading in HEADING.findall(text))
    return {re.sub(r"[^\w\- ]", "", heading.lower()).replace(" ", "-") for heading in plain}


def joined(base: str, target: str) -> str:
    """The path that a link of this page leads to, from the top."""
    parts = [] if target.startswith("/") else base.split("/")[:-1]
    for part in target.strip("/").split("/"):
        parts = parts[:-1] if part == ".." else parts if part in (".", "") else [*parts, part]
    return "/".join(parts)


def links(tree: Tree) -> Iterator[Finding]:
    """Links to files and headings that aren't there."""
    for page in tree.documents():
        text = tree.text(page)
        for found in LINK.finditer(text):
            target, _, anchor = found[1].partition("#")
            if re.match(r"[a-z]+:", target):
                continue
            path = joined(page, target) if target else page
            line = line_of(text, found.start())
            if not tree.exists(path):
                yield Finding(page, line, f"the link leads to {path}, which isn't there", "fix or remove it")
            elif anchor and path.endswith(".md") and anchor not in anchors_of(tree.text(path)):
                yield Finding(page, line, f"{path} has no heading #{anchor}", "name a heading that it has")


def pages(tree: Tree) -> list[str]:
    """The pages that speak of the repository as it is now."""
    return [page for page in tree.documents() if page != HISTORY]


def is_path(tree: Tree, text: str, tops: set[str]) -> bool:
    """Whether a span of code is meant as a path of the repository."""
    return bool(PATH.fullmatch(text)) and text.split("/")[0] in tops and not re.search(r"[A-Z]{3,}(?!\.md)", text)


def paths(tree: Tree) -> Iterator[Finding]:
    """Paths in code spans that aren't there. What a build makes, and words in capitals, are left out."""
    tops = {path.split("/")[0] for path in tree.files if "/" in path}
    for page in pages(tree):
        text = tree.text(page)
        for found in SPAN.finditer(text):
            path = found[1].removeprefix("./").rstrip("/")
            if not is_path(tree, path, tops) or MADE.search(path):
                continue
            if not tree.exists(path) and not tree.exists(joined(page, path)):
                line = line_of(text, found.start())
                yield Finding(page, line, f"there is no {path}", "name the file where it is now")


def commands_in(text: str) -> Iterator[tuple[int, str]]:
    """The command lines of a page, each with its line: those of blocks, and spans that begin with a program."""
    for block in BLOCK.finditer(text):
        for offset, line in enumerate(block[1].splitlines()):
            yield line_of(text, block.start(1)) + offset, line.strip().removeprefix("$ ").removeprefix("# ")
    for span in SPAN.finditer(text):
        yield line_of(text, span.start()), span[1]


def sources_of(tree: Tree, program: str) -> str:
    """The text in which a program's options stand: its own, and that of the Python package that it starts."""
    if program in LAUNCHERS or program.startswith("python/bin/"):
        own = [path for path in tree.ending(".py") if path.startswith("python/tukyamid/")]
    else:
        folder = program.rsplit("/", 1)[0] + "/"
        own = [program, *(path for path in tree.ending(".py") if path.startswith(folder) and "/" in program)]
    return "\n".join(tree.text(path) for path in own)


def program_of(tree: Tree, word: str) -> str:
    """The program of ours that a word names, or the empty text."""
    found = PROGRAM.match(word)
    return found[1].rstrip("/") if found else word if word in LAUNCHERS else ""


def commands(tree: Tree) -> Iterator[Finding]:
    """Shown commands whose program, suite or option isn't there."""
    for page in pages(tree):
        for line, command in commands_in(tree.text(page)):
            words = re.sub(r"^(?:[A-Z_]+=\S+ )+", "", command).split("#")[0].split()
            program = program_of(tree, words[0]) if words else ""
            if not program or re.search(r"[A-Z]{3,}", program) or program.endswith((".md", ".wot", ".py")):
                continue
            if program not in LAUNCHERS and not (tree.root / program).is_file():
                if not (tree.root / program).is_dir():
                    yield Finding(page, line, f"there is no program {program}", "show one that is there")
                continue
            text = sources_of(tree, program)
            for option in OPTION.findall(" ".join(words[1:])):
                # A program may make options of a table's names: there the name stands alone.
                known = option in ALWAYS or option in text or f'"{option[2:]}"' in text
                if text and not known:
                    yield Finding(page, line, f"{program} has no option {option}", "show one that it has")
            for suite in words[1:] if program == "tests/run" else ():
                if re.fullmatch(r"[a-z]+", suite) and not tree.exists(f"tests/suites/{suite}"):
                    yield Finding(page, line, f"there is no suite {suite}", "show one that is there")
