"""The commands and conversations that the documents show: they are run, and what they print is what is shown."""

import hashlib
import os
import re
import shlex
import subprocess
import unittest
from pathlib import Path
from typing import Any

from commands import ITS_PAGES, OF_ANOTHER_SUITE, OTHER_PAGES, PAGES, Shown, matches, run, shown_in, workshop
from pages import PROGRAM, ROOT, Block, page, pages
from wot_model.machine import COMMANDS

# How a line of a block begins that is a command.
PROGRAMS = r"\$ |sudo |apt(-get)? |rt |\./wot |tukyamid|wot-verdicts |(python/bin|tools|tests|model|bench|verifier)/"
A_COMMAND = re.compile(PROGRAMS)
QUICKSTART = ROOT / "examples/quickstart.wot"


def replies_to(lines: list[bytes]) -> list[list[str]]:
    """The reply to each of these lines, by asking for something known behind each."""
    script = b"".join(line + b"\nview no-such-view close\n" for line in lines)
    ended = subprocess.run([PROGRAM, "run"], input=script, capture_output=True, check=True)
    replies: list[list[str]] = [[]]
    for reply in ended.stdout.decode().splitlines():
        if reply == "refused view":
            replies.append([])
        else:
            replies[-1].append(reply)
    return replies[:-1]


def conversation(block: Block) -> list[tuple[str, list[str]]]:
    """The lines of a block, each with the lines behind `>` that follow it."""
    found: list[tuple[str, list[str]]] = []
    for line in block.lines:
        if line.startswith("> "):
            found[-1][1].append(line[2:])
        else:
            found.append((line, []))
    return found


def packets_of(octets: bytes) -> list[tuple[int, bytes]]:
    """The packets of a text with lengths of one octet: the type and the body of each."""
    found = []
    while octets:
        found.append((octets[0] & 0x3F, octets[2 : 2 + octets[1]]))
        octets = octets[2 + octets[1] :]
    return found


@unittest.skipUnless(os.access(PROGRAM, os.X_OK), f"the engine isn't built: {PROGRAM}")
class Commands(unittest.TestCase):
    def test_shown_commands(self) -> None:
        """Each command ends with status 0 and prints what is shown; one that isn't run is there."""
        count = 0
        with workshop() as top:
            self.fill_the_service(top)
            for shown in (each for name in PAGES for each in shown_in(page(name))):
                count += 1
                with self.subTest(page=shown.page, line=shown.line, command=shown.command):
                    self.check(shown, top)
        self.assertGreater(count, 10)

    def fill_the_service(self, top: Path) -> None:
        """The database of the service, for the commands about it: the certificates and verdicts of the quickstart."""
        lines = QUICKSTART.read_bytes().splitlines(keepends=True)
        (top / "start.wot").write_bytes(b"".join(line for line in lines if line.startswith((b"import", b"verdict"))))
        self.assertEqual(run("tukyamid-server import-dump start.wot", top).returncode, 0)

    def test_every_page_with_commands_is_run(self) -> None:
        """A page that shows a command is run here, or named with the reason; and a block of commands says so."""
        shown = {document.name for document in pages() if any(shown_in(document))}
        self.assertEqual(shown - set(PAGES) - set(OTHER_PAGES), set())
        unmarked = [f"{document.name}:{block.line}" for document in pages() for block in document.blocks
                    if not block.word and any(A_COMMAND.match(line) for line in block.lines)]
        self.assertEqual(unmarked, [])

    def check(self, shown: Shown, top: Path) -> None:
        if shown.reason:
            program = shlex.split(shown.command)[0]
            if "/" in program and "=" not in program and "/out/" not in program:
                self.assertTrue(os.access(ROOT / program, os.X_OK), program)
            return
        if shown.command.startswith(OF_ANOTHER_SUITE):
            texts = ((ROOT / name).read_text(encoding="utf-8") for name in ITS_PAGES if (ROOT / name).exists())
            told = " ".join(word for text in texts for word in text.replace("\\\n", " ").split())
            self.assertIn(" ".join(shown.command.split()), told, f"none of {ITS_PAGES} has this command")
            return
        ended = run(shown.command, top)
        self.assertEqual(ended.returncode, 0, ended.stderr[-2000:])
        if shown.output is not None:
            self.assertTrue(matches(shown.output, ended.stdout.splitlines()), ended.stdout)


@unittest.skipUnless(os.access(PROGRAM, os.X_OK), f"the engine isn't built: {PROGRAM}")
class Conversations(unittest.TestCase):
    def test_the_example_of_the_protocol(self) -> None:
        """The whole conversation, from a fresh program."""
        shown = [conversation(block) for block in page("docs/PROTOCOL.md").blocks
                 if any(line.startswith("> ") for line in block.lines)]
        self.assertEqual(len(shown), 1)
        lines = "".join(line + "\n" for line, _ in shown[0]).encode()
        ended = subprocess.run([PROGRAM, "run"], input=lines, capture_output=True, check=True)
        self.assertEqual(ended.stdout.decode().splitlines(), [reply for _, replies in shown[0] for reply in replies])

    def test_the_example_of_the_readme(self) -> None:
        """What is shown of the quickstart is a line of it with its reply."""
        lines = [line for line in QUICKSTART.read_bytes().splitlines() if line and not line.startswith(b"#")]
        replies = replies_to(lines)
        self.assertEqual(len(replies), len(lines))
        known = [(line.decode(), reply) for line, reply in zip(lines, replies)]
        shown = [each for block in page("README.md").blocks if any(line.startswith("> ") for line in block.lines)
                 for each in conversation(block)]
        self.assertGreater(len(shown), 0)
        for each in shown:
            self.assertIn(each, known)

    def test_the_quickstart(self) -> None:
        ended = subprocess.run([PROGRAM, "run"], input=QUICKSTART.read_bytes(), capture_output=True, check=True)
        self.assertEqual(ended.stdout, QUICKSTART.with_suffix(".expected").read_bytes())


class Protocol(unittest.TestCase):
    def test_the_table_has_each_command(self) -> None:
        """The page's forms of commands are those that the model reads, where V is any name and N any count."""
        first = [line.split("`")[1] for line in page("docs/PROTOCOL.md").lines if line.startswith("| `")]
        forms = {re.sub(r"\bM\b", "N", re.sub(r"\b[CW]\b", "V", cell)) for cell in first}
        self.assertEqual(set(COMMANDS) - forms, set())

    def test_the_numbers_of_signatures(self) -> None:
        """The function that the profile shows gives the numbers that the protocol's example uses."""
        shown = next(block for block in page("docs/PROFILE.md").blocks if block.word == "python")
        names: dict[str, Any] = {"hashlib": hashlib}
        exec("\n".join(shown.lines), names)
        lines = (ROOT / "docs/PROTOCOL.md").read_text(encoding="utf-8").splitlines()
        imported = next(line for line in lines if line.startswith("import c607"))
        (_, key), (_, signature) = packets_of(bytes.fromhex(imported.split(" ")[1]))
        verdict = next(line for line in lines if line.startswith("verdict "))
        self.assertEqual(names["number"](key, 0, b"", signature), verdict.split(" ")[1])

    def test_the_tables_have_each_reason(self) -> None:
        """The words of the page are those that the engine's definitions have."""
        text = (ROOT / "crates/wot_reply_lines/specs/Words.antt").read_text(encoding="utf-8")
        spelled = re.findall(r'"([a-z-]+)"', text)
        profile = page("docs/PROFILE.md").lines
        begun = profile.index("## Reasons")
        words = [line.split("`")[1] for line in profile[begun : profile.index("## Limits")] if line.startswith("| `")]
        self.assertEqual(sorted(words), sorted(spelled))
