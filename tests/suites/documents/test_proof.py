"""The page on proofs: its sentences are the README's, its clauses stand in the contracts, its quotes in the code."""

import re
import unittest
from pathlib import Path

from pages import ROOT, SPAN, page


class Proof(unittest.TestCase):
    """The table of clauses: each row's file has its call, whose contract has its clauses."""

    def rows(self) -> list[list[str]]:
        document = page("docs/PROOF.md")
        begun = document.lines.index("| sentence | clause | call | file |")
        rows = []
        for line in document.lines[begun + 2 :]:
            if not line.startswith("|"):
                break
            rows.append([cell.strip() for cell in line.strip("|").split("|")])
        return rows

    def test_each_clause_stands_on_its_call(self) -> None:
        rows = self.rows()
        self.assertGreater(len(rows), 20)
        for sentence, clauses, call, file in rows:
            with self.subTest(sentence=sentence, call=call):
                path = ROOT / file.strip("`")
                contract = contract_of(path.read_text(encoding="utf-8"), call.strip("`"))
                if "`" not in clauses:
                    self.assertEqual(len(re.findall(r"\bensures\b", contract)), 1)
                for named in clauses.split(";") if ":" in clauses else clauses.split(","):
                    clause, *parts = re.findall(r"`(\w+)`", named) or [""]
                    if clause:
                        found = re.search(rf"\bensures\*? {clause} \{{\W*(\w*)", contract)
                        self.assertTrue(found, clause)
                        self.assertLessEqual(set(parts), fields_of(path.parent.parent, found.group(1) if found else ""))

    def test_each_sentence_has_its_clauses(self) -> None:
        """The sentences of the README are those of the table, by number."""
        readme = page("README.md")
        begun = readme.lines.index("## What is proved")
        after = [line for line in readme.lines[begun + 1 :]]
        ends = next(at for at, line in enumerate(after) if line.startswith("## "))
        numbers = {int(found.group(1)) for line in after[:ends] if (found := re.match(r"(\d+)\. ", line))}
        carried = {int(found.group(1)) for row in self.rows() if (found := re.match(r"(\d+)", row[0]))}
        told = {int(found.group(1)) for line in page("docs/PROOF.md").lines if (found := re.match(r"(\d+)\. ", line))}
        self.assertGreaterEqual(len(numbers), 5)
        self.assertEqual(numbers - carried, set())
        self.assertEqual(carried, told)

    def test_each_crate_has_what_is_said_of_it(self) -> None:
        """A paragraph that begins with crates names clauses, calls and types of these crates alone."""
        document = page("docs/PROOF.md")
        paragraphs = [line for _, line in document.prose if line.startswith("**wot_")]
        self.assertGreater(len(paragraphs), 15)
        for line in paragraphs:
            crates = re.findall(r"wot_[a-z_]+", line.split(".**")[0])
            words = {word for crate in crates for word in words_in(crate)}
            named = {part for span in SPAN.findall(line) for part in span.split("::") if re.fullmatch(r"\w+", part)}
            with self.subTest(crates=crates):
                self.assertEqual(named - words, set())

    def test_quotes_are_of_the_code(self) -> None:
        """What the page on reading quotes of contracts and definitions stands in the crates, line by line."""
        code = "\n".join(
            path.read_text(encoding="utf-8")
            for folder in ("src", "specs")
            for path in sorted(ROOT.glob(f"crates/*/{folder}/**/*"))
            if path.suffix in {".rt", ".antt"}
        )
        lines = {re.sub(r"\s+", " ", line.strip()) for line in code.splitlines()}
        joined = re.sub(r"\s+", " ", code)
        for block in page("docs/READING-PROOFS.md").blocks:
            for line in block.lines:
                quoted = re.sub(r"\s+", " ", line.strip())
                if quoted and ".." not in quoted:
                    with self.subTest(line=block.line, quoted=quoted):
                        self.assertTrue(quoted in lines or quoted in joined)


def words_in(crate: str) -> set[str]:
    """Each word of a crate's code."""
    files = (ROOT / "crates" / crate / "src").rglob("*.rt")
    return {word for file in files for word in re.findall(r"\w+", file.read_text(encoding="utf-8"))}


def fields_of(crate: Path, record: str) -> set[str]:
    """The fields of a record among a crate's definitions."""
    for file in sorted((crate / "specs").rglob("*.antt")):
        text = file.read_text(encoding="utf-8")
        if found := re.search(rf"^pub record {record}\b.*?(?=^\S|\Z)", text, re.M | re.S):
            return set(re.findall(r"^  pub (\w+) :", found.group(0), re.M))
    return set()


def contract_of(text: str, call: str) -> str:
    """What stands between a function's name and its body."""
    begun = re.search(rf"\bfn {call}\b", text)
    if not begun:
        raise AssertionError(f"there is no function {call}")
    rest = text[begun.end() :]
    ends = re.search(r"^ *\{(\}?)$", rest, re.M)
    return rest[: ends.start()] if ends else rest
