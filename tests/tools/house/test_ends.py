"""The table of exit codes (told/ends.py) is that of the program's source, of the pages and of what `nozhgiva --help` says of the program's words."""

import re
import unittest
from typing import Dict, List, Set

from nozhgiva_tools.command.commands import COMMANDS
from nozhgiva_tools.operate import endings
from nozhgiva_tools.places import DOCS, TOP
from nozhgiva_tools.told.ends import Code, TEXTS

STATUS = TOP / "crates" / "vr_base" / "src" / "status.rt"
FIELDS = {"{line}": "N", "{found}": "C R N", "{asked}": "C R N"}


def snake(name: str) -> str:
    return re.sub(r"(?<!^)(?=[A-Z])", "_", name).upper()


def rows_of(page: str, heading: str) -> List[List[str]]:
    """The cells of the first table behind a heading of a page."""
    text = (DOCS / page).read_text(encoding="utf-8").split(f"\n## {heading}\n", 1)[1]
    table = re.search(r"(?m)(^\|.*\n)+", text)
    assert table is not None
    return [[cell.strip() for cell in line.strip("|").split("|")] for line in table[0].splitlines()[2:]]


def with_fields(text: str) -> str:
    """A text of the sources with its fields as the pages name them."""
    return re.sub(r"\{\w+\}", lambda field: FIELDS[field[0]], text)


def of_node() -> Dict[Code, List[str]]:
    return {Code(int(cells[0])): cells for cells in rows_of("NODE.md", "When something is wrong")}


@unittest.skipUnless(STATUS.is_file(), "no sources")
class Sources(unittest.TestCase):
    def test_codes_are_the_sources(self) -> None:
        found = re.findall(r"Status::(\w+)(?:\(.*?\))? => (\d+),", STATUS.read_text(encoding="utf-8"))
        self.assertEqual({snake(name): int(code) for name, code in found}, {code.name: int(code) for code in Code})

    def test_texts_are_the_sources(self) -> None:
        source = STATUS.read_text(encoding="utf-8").split("impl fmt::Display for Status", 1)[1]
        found: Dict[str, str] = dict(re.findall(r'Status::(\w+)(?:\([^)]*\))? => (?:\{[^}]*?)?(?:.*?\n)*?.*?write!\(f, "([^"]*)"\)', source.split("Ok(()),", 1)[1]))
        texts = {snake(name): with_fields(text) for name, text in found.items()}
        self.assertEqual(texts, {code.name: text for code, text in TEXTS.items() if text})


class Pages(unittest.TestCase):
    def test_node_has_each_code_with_its_text(self) -> None:
        self.assertEqual({code: cells[1].strip("`") for code, cells in of_node().items()}, TEXTS)

    def test_schedule_has_those_of_a_replay(self) -> None:
        found: Dict[int, str] = {}
        for cells in rows_of("SCHEDULE.md", "How a replay ends"):
            codes, texts = re.findall(r"\d+", cells[0]), re.findall(r"`([^`]*)`", cells[1]) or [""]
            found.update(zip(map(int, codes), texts))
        wanted = (Code.DONE, Code.USAGE, Code.REFUSED, Code.READ_FAULT, Code.WRITE_FAULT, Code.NO_MEMORY)
        self.assertEqual(found, {code: TEXTS[code] for code in wanted})

    def test_node_says_what_starts_a_member_again(self) -> None:
        told = re.search(r"A supervisor, as `operate/keep`, may start a member again after a second at (\d+), (\d+) and (\d+),", (DOCS / "NODE.md").read_text(encoding="utf-8"))
        assert told is not None
        self.assertEqual(set(map(int, told.groups())), set(endings.AGAIN))


class Help(unittest.TestCase):
    """Each code of a member, a client and a trial is said where `nozhgiva --help` tells of their words, and no other one."""

    def at(self, *places: str) -> Set[int]:
        return {int(code) for code, cells in of_node().items() if cells[2] in places}

    def told(self, name: str) -> Set[int]:
        return {int(code) for command in COMMANDS if command.name == name and not command.calls for code, _ in command.codes}

    def test_codes_of_the_programs_words(self) -> None:
        client = self.at("client", "both")
        self.assertEqual(self.told("node"), self.at("member", "both"))
        self.assertEqual(self.told("client"), client)
        self.assertEqual(self.told("trial"), client - {Code.REFUSED, Code.READ_FAULT} | self.at("trial"))
        self.assertEqual(self.told("replay"), {Code.DONE, Code.USAGE, Code.REFUSED, Code.READ_FAULT, Code.WRITE_FAULT, Code.NO_MEMORY})
        self.assertEqual(self.told("soak"), {Code.DONE, Code.USAGE, Code.WRITE_FAULT, Code.NO_MEMORY})


if __name__ == "__main__":
    unittest.main()
