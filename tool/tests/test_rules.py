"""docs/RULES.md: its numbers, and what cites them; and docs/TRACE.md and docs/PROMISES.md, whose names must be there."""

import re
import unittest
from pathlib import Path

ROOT = Path(__file__).resolve().parents[2]
SPECS, PROOFS = ROOT / "crates/rules/specs", ROOT / "crates/rules/proofs"
RULES = (ROOT / "docs/RULES.md").read_text()
TRACE = (ROOT / "docs/TRACE.md").read_text()
PROMISES = (ROOT / "docs/PROMISES.md").read_text()

NUMBER = r"\d+\.\d+"
# "rule 5.3", "rules 4.1, 4.2 and 7.8", "rules 5.3 to 5.7"
CITED = re.compile(rf"\b[Rr]ules? ({NUMBER}(?:(?:, | and |, and | to ){NUMBER})*)")
# "section 5", "sections 5 to 7", "sections 3 and 13"
CITED_SECTIONS = re.compile(r"\b[Rr]ules, sections? (\d+(?:(?:, | and | to )\d+)*)")
# `a`, `b` and `c` (File) or (File; words)
NAMED = re.compile(r"((?:`[^`]+`(?:, | and )?)+) \(((?:proofs/|Code/)?[A-Z]\w*3?)(?:;[^)]*)?\)")
# edits `a`, `b` (`crate`, `crate`)
EDITS = re.compile(r"[Ee]dits? ((?:`[^`]+`(?:, | and )?)+) \(((?:`\w+`(?:, )?)+)\)")


def order(number):
    """5.10 comes after 5.9."""
    return tuple(int(part) for part in number.split("."))


NUMBERS = sorted(set(re.findall(rf"(?m)^- \*\*({NUMBER})\b", RULES)), key=order)
SECTIONS = [int(number) for number in re.findall(r"(?m)^## (\d+)\. ", RULES)]


def expanded(cited):
    """The numbers of "5.3 to 5.7, 6.1"."""
    numbers = []
    for part in re.split(r", and |, | and ", cited):
        first, _, last = part.partition(" to ")
        last = last or first
        numbers += [first, last]
        numbers += [number for number in NUMBERS if order(first) < order(number) < order(last)]
    return numbers


def sources():
    """Every text of the repository that may cite a rule, with its name."""
    kinds = {".md", ".rt", ".antt", ".rs", ".h", ".c", ".py", ".sh", ".edit"}
    for folder in ["crates", "docs", "include", "reference", "tool"]:
        for path in sorted((ROOT / folder).rglob("*")):
            inside = path.relative_to(ROOT)
            if path.suffix in kinds and not {"target", "out"} & set(inside.parts):
                yield str(inside), path.read_text()
    for name in ["README.md", "sheet", ".ci/run"]:
        yield name, (ROOT / name).read_text()


def names(listed):
    return re.findall(r"`([^`]+)`", listed)


def file_of(name):
    """The file of the rules that TRACE names so."""
    if name.startswith("proofs/"):
        return PROOFS / f"{name.removeprefix('proofs/')}.antt"
    found = [SPECS / f"{name}.antt", SPECS / f"Examples/{name}.antt"]
    return next((path for path in found if path.is_file()), found[0])


class Rules(unittest.TestCase):
    def test_they_are_numbered_without_a_gap(self):
        self.assertEqual(SECTIONS, list(range(1, len(SECTIONS) + 1)))
        last = {}
        for number in re.findall(rf"(?m)^- \*\*({NUMBER})\b", RULES):
            section, place = order(number)
            self.assertEqual(place, last.get(section, 0) + 1, number)
            last[section] = place
        self.assertGreater(len(NUMBERS), 60)

    def test_what_is_cited_is_there(self):
        cited = 0
        for name, text in sources():
            # A citation may be broken over two lines of a comment.
            text = re.sub(r"\n\s*(?:--|//[/!]?|\*|#)?\s*", " ", text)
            for found in CITED.findall(text):
                cited += 1
                for number in expanded(found):
                    self.assertIn(number, NUMBERS, name)
            for found in CITED_SECTIONS.findall(text):
                for number in re.findall(r"\d+", found):
                    self.assertIn(int(number), SECTIONS, name)
        self.assertGreater(cited, 100)

    def test_each_file_of_the_rules_cites_them(self):
        for path in SPECS.glob("*.antt"):
            if path.stem not in {"Base", "Code", "Examples", "Lib"}:
                self.assertRegex(path.read_text(), CITED, path.name)

    def test_every_rule_is_traced(self):
        cells = re.findall(rf"(?m)^\| .*? \| ((?:{NUMBER}|, | to )+) \| ", TRACE)
        traced = {number for cell in cells for number in expanded(cell)}
        self.assertEqual([number for number in NUMBERS if number not in traced], [])

    def test_no_comment_cites_what_is_not_here(self):
        allowed = {"docs/TRACE.md", "docs/FORMS.md", "tool/tests/test_rules.py"}
        citing = [name for name, text in sources() if re.search(r"document 0\d", text, re.IGNORECASE)]
        self.assertEqual([name for name in citing if name not in allowed], [])


class Trace(unittest.TestCase):
    def test_every_definition_law_and_claim_is_where_it_is_said(self):
        seen = 0
        for listed, name in NAMED.findall(TRACE):
            text = file_of(name).read_text()
            for word in names(listed):
                seen += 1
                self.assertRegex(text, rf"(?<![\w-]){re.escape(word)}(?![\w-])", f"{word} ({name})")
        self.assertGreater(seen, 150)

    def test_every_edit_is_there(self):
        seen = 0
        for listed, crates in EDITS.findall(TRACE):
            for crate in names(crates):
                for edit in names(listed):
                    seen += 1
                    self.assertTrue((ROOT / f"crates/{crate}/must-fail/{edit}.edit").is_file(), f"{edit} ({crate})")
        self.assertGreater(seen, 30)

    def test_every_wrong_answer_that_is_promised_against_is_an_edit(self):
        edits = {path.stem for path in ROOT.glob("crates/*/must-fail/*.edit")}
        promised = re.findall(r"\(`([a-z0-9_]+)`\)", PROMISES)
        self.assertGreater(len(promised), 60)
        crates = {path.name for path in (ROOT / "crates").iterdir()}
        self.assertEqual([name for name in promised if name not in edits | crates], [])
