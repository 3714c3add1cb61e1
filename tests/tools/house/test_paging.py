"""Each fault that ./nozhgiva pages tells, planted in pages of a few lines; and that pages without one are left alone."""

import subprocess
import unittest
from typing import Iterable, List

from nozhgiva_tools.house.paging import checks, counting, Pages, texts, Tree
from nozhgiva_tools.places import NOZHGIVA

TREE = Tree(
    rows={"base": ["vr_low"], "laws": ["law_1_first"]}, laws={"law_1_first": ["one_holds"], "vr_low": ["low_laws"]},
    commands={"replay": True, "keep": False}, guards=["too_few"])
NUMBERS = {"crates": "74", "gate_tests": "54", "gate_crates": "19"}
INDEX = """# The pages

Begin with [the tour](ARCHITECTURE.md).

## Who uses it

- [COMMAND](COMMAND.md), 5 minutes: the words, and [their rules](ARCHITECTURE.md).

## Who runs it

- [SECURITY](../SECURITY.md), 3 minutes

## Who works on it

| page | minutes | of what |
|---|---|---|
| [ARCHITECTURE](ARCHITECTURE.md) | 12 | the map; [SAFETY](SAFETY.md) |
| [CHANGELOG](../CHANGELOG.md), [CONTRIBUTING](../CONTRIBUTING.md) | 4 | |

## Who believes it or not

- [SAFETY](SAFETY.md), [WHY-BELIEVE](WHY-BELIEVE.md), 9 minutes: why
- [PROGRAM](promises/PROGRAM.md), [LAWS](promises/LAWS.md), 8 minutes
"""


def some_pages() -> Pages:
    """Pages in which there is nothing to mend."""
    return {
        "README.md": "# It\n\nIt is [small](docs/COMMAND.md#words).\n",
        "CHANGELOG.md": "Nothing yet.\n",
        "CONTRIBUTING.md": "Write.\n",
        "SECURITY.md": "Tell us.\n",
        "docs/README.md": INDEX,
        "docs/ARCHITECTURE.md": "`vr_low`, `law_1_first`. The tree has 74 crates.\n",
        "docs/COMMAND.md": "# The command\n\n## Words\n\n`replay`, and\n\n    ./nozhgiva keep --log x\n",
        "docs/SAFETY.md": "| edit | why |\n|---|---|\n| `too_few` | it is one |\n\nThe gate has 54 of them.\n",
        "docs/WHY-BELIEVE.md": "the gate has 54 of them, of 19\ncrates\n",
        "docs/promises/LAWS.md": "`law_1_first`: `one_holds`.\n",
        "docs/promises/PROGRAM.md": "`vr_low`: `low_laws`. `replay` does it.\n",
    }


def with_more(path: str, text: str) -> Pages:
    pages = some_pages()
    pages[path] = pages.get(path, "") + text
    return pages


def with_other(path: str, old: str, new: str) -> Pages:
    pages = some_pages()
    assert old in pages[path]
    pages[path] = pages[path].replace(old, new)
    return pages


def words(count: int) -> str:
    return "\n" + "word " * (count - 1) + "word.\n"


class Case(unittest.TestCase):
    def check(self, told: Iterable[str], *begin: str) -> None:
        """What is told: so many lines, each of which begins so."""
        lines: List[str] = list(told)
        self.assertEqual(len(lines), len(begin), lines)
        for line, front in zip(sorted(lines), sorted(begin)):
            self.assertTrue(line.startswith(front), line)


class Nothing(Case):
    def test_pages_without_a_fault(self) -> None:
        pages = some_pages()
        self.check(checks.faults(pages, TREE))
        self.check(counting.bad_numbers(pages, NUMBERS))


class Links(Case):
    def test_no_file(self) -> None:
        self.check(checks.bad_links({"docs/COMMAND.md": "[a](NONE.md) [b](../README.md) [c](https://nowhere.none/) [d](#none)"}), "docs/COMMAND.md: no file NONE.md",
                   "docs/COMMAND.md: no heading #none")

    def test_no_heading(self) -> None:
        pages = {"README.md": "[a](docs/COMMAND.md#words) [b](docs/COMMAND.md#deeds)", "docs/COMMAND.md": "## Words\n```\n## Deeds\n```\n"}
        self.check(checks.bad_links(pages), "README.md: no heading docs/COMMAND.md#deeds")

    def test_code_has_none(self) -> None:
        self.check(checks.bad_links({"README.md": "```\n[a](NONE.md)\n```\n"}))


class Roads(Case):
    def test_a_page_on_no_road(self) -> None:
        self.check(checks.bad_roads(with_more("docs/NEW.md", "New.\n")), "docs/NEW.md: on no road")

    def test_a_page_on_two(self) -> None:
        self.check(checks.bad_roads(with_other("docs/README.md", "- [SECURITY](../SECURITY.md)", "- [SECURITY](../SECURITY.md), [COMMAND](COMMAND.md)")), "docs/COMMAND.md: on uses it and runs it")

    def test_a_page_twice_on_one(self) -> None:
        self.check(checks.bad_roads(with_other("docs/README.md", "- [SAFETY](SAFETY.md), ", "- [SAFETY](SAFETY.md), [LAWS](promises/LAWS.md#a), ")),
                   "docs/promises/LAWS.md: on believes it and believes it")

    def test_a_link_of_a_sentence_is_no_road(self) -> None:
        self.check(checks.bad_roads(with_other("docs/README.md", "| [ARCHITECTURE](ARCHITECTURE.md)", "| the map")), "docs/ARCHITECTURE.md: on no road")

    def test_no_minutes(self) -> None:
        self.check(checks.bad_roads(with_other("docs/README.md", ", 3 minutes", "")), "docs/README.md: no minutes: - [SECURITY]")

    def test_a_road_without_a_page(self) -> None:
        self.check(checks.bad_roads(with_other("docs/README.md", "## Who runs it", "## Who walks it")), 'docs/README.md: no page stands on the road "runs it"', "SECURITY.md: on no road")

    def test_no_index(self) -> None:
        pages = some_pages()
        del pages["docs/README.md"]
        self.check(checks.bad_roads(pages), "no page docs/README.md")


class Names(Case):
    def test_no_such_crate(self) -> None:
        self.check(checks.bad_names(with_more("SECURITY.md", "`vr_none`, vr_low\n"), TREE), "SECURITY.md: no crate vr_none")

    def test_left_out(self) -> None:
        for path, name, told in (
            ("docs/ARCHITECTURE.md", "`vr_low`", "docs/ARCHITECTURE.md: nothing of the crate vr_low"),
            ("docs/promises/PROGRAM.md", "`vr_low`", "docs/promises: nothing of the crate vr_low"),
            ("docs/promises/PROGRAM.md", "`low_laws`", "docs/promises: nothing of the law low_laws"),
            ("docs/promises/PROGRAM.md", "`replay`", "docs/promises/PROGRAM.md: nothing of the command replay"),
            ("docs/promises/LAWS.md", "`one_holds`", "docs/promises/LAWS.md: nothing of the law one_holds"),
            ("docs/COMMAND.md", "nozhgiva keep", "docs/COMMAND.md: nothing of the command keep"),
            ("docs/COMMAND.md", "`replay`", "docs/COMMAND.md: nothing of the command replay"),
            ("docs/SAFETY.md", "`too_few`", "docs/SAFETY.md: nothing of the mutation test too_few"),
        ):
            with self.subTest(name=name):
                self.check(checks.left_out(with_other(path, name, "it"), TREE), told)

    def test_a_law_of_the_ladder_has_one_page(self) -> None:
        pages = with_other("docs/promises/LAWS.md", "`one_holds`", "it")
        pages["docs/promises/PROGRAM.md"] += "`one_holds`\n"
        self.check(checks.left_out(pages, TREE), "docs/promises/LAWS.md: nothing of the law one_holds")


class Sentences(Case):
    def test_by_the_page(self) -> None:
        self.check(checks.long_sentences(with_more("docs/SAFETY.md", words(45))))
        self.check(checks.long_sentences(with_more("docs/SAFETY.md", words(46))), "docs/SAFETY.md: a sentence of 46 words")
        self.check(checks.long_sentences(with_more("README.md", words(30))))
        self.check(checks.long_sentences(with_more("README.md", words(31))), "README.md: a sentence of 31 words")

    def test_what_ends_one(self) -> None:
        for text in ("a. b? c! **d.** e", "- a\n- b\n- c\n- d\n- e", "| a | b | c | d | e |", "a\n\nb\n\nc\n\nd\n\ne"):
            with self.subTest(text=text):
                self.assertEqual(len([one for one in texts.sentences(text) if one.strip()]), 5)

    def test_code_is_a_word(self) -> None:
        self.check(checks.long_sentences(with_more("docs/SAFETY.md", "\n`" + "a " * 50 + "`.\n\n```\n" + "a " * 50 + "\n```\n\n    " + "a " * 50 + "\n")))

    def test_cells_of_promises(self) -> None:
        table = "| a | b |\n|---|---|\n| %s | c |\n"
        self.check(checks.long_cells({"docs/promises/LAWS.md": table % ("x" * 200)}))
        self.check(checks.long_cells({"docs/promises/LAWS.md": table % ("x" * 201), "docs/RULES.md": table % ("x" * 201)}), "docs/promises/LAWS.md: a cell of 201")


class Spellings(Case):
    def test_by_the_table(self) -> None:
        for word in ("wrong bodies", "Acknowledgment", "colours", "linearisable", "super block"):
            with self.subTest(word=word):
                self.check(checks.bad_spellings(with_more("docs/SAFETY.md", f"\nThe {word} of it.\n")), f"docs/SAFETY.md: {word.lower()}, which is spelled")

    def test_with_and_without_a_hyphen(self) -> None:
        pages = with_more("docs/SAFETY.md", "\nA re-start.\n")
        self.check(checks.bad_spellings(pages))
        pages["README.md"] += "\nA restart.\n"
        self.check(checks.bad_spellings(pages), "docs/SAFETY.md: re-start, and README.md: restart")

    def test_code_is_spelled_as_it_is(self) -> None:
        self.check(checks.bad_spellings(with_more("docs/SAFETY.md", "\n[mutation tests](../wrong-bodies/README.md), `wrong bodies`\n\n    colours\n")))


class Tables(Case):
    TABLE = "\n| a | b |\n|---|---|\n| 1 | 2 |\n| 3 | 4 |\n"

    def test_an_equal_row_of_equal_tables(self) -> None:
        pages = with_more("docs/COMMAND.md", self.TABLE)
        self.check(checks.doubled_rows(pages))
        pages["SECURITY.md"] += self.TABLE.replace("| 3 |", "| 5 |").replace("1 ", "1   ")
        self.check(checks.doubled_rows(pages), "docs/COMMAND.md: a row that SECURITY.md has too: 1 | 2")

    def test_other_headers(self) -> None:
        pages = with_more("docs/COMMAND.md", self.TABLE)
        pages["SECURITY.md"] += self.TABLE.replace("| b |", "| c |")
        self.check(checks.doubled_rows(pages))


class Torn(Case):
    WHOLE = "\n| a | b |\n|---|---|\n| 1 | `x | y` |\n| 3 | 4 |\n"

    def told(self, table: str) -> None:
        self.check(checks.torn_tables(with_more("docs/COMMAND.md", table)), "docs/COMMAND.md: a row outside of its table, or not as wide: ")

    def test_a_whole_table(self) -> None:
        self.check(checks.torn_tables(with_more("docs/COMMAND.md", self.WHOLE)))

    def test_a_gap(self) -> None:
        self.told(self.WHOLE.replace("| 3", "\n| 3"))

    def test_a_row_that_is_cut(self) -> None:
        self.told(self.WHOLE.replace("| 3 | 4 |", "3 | 4 |"))

    def test_another_width(self) -> None:
        self.told(self.WHOLE.replace("| 3 | 4 |", "| 3 |"))

    def test_no_header(self) -> None:
        self.told(self.WHOLE.replace("| a | b |\n", ""))


class Numbers(Case):
    def test_another_number(self) -> None:
        pages = with_other("docs/WHY-BELIEVE.md", "54", "53")
        self.check(counting.bad_numbers(pages, NUMBERS), "docs/WHY-BELIEVE.md: gate_tests is 54, and the page says 53")
        self.assertEqual(counting.put_right(pages["docs/WHY-BELIEVE.md"], NUMBERS), some_pages()["docs/WHY-BELIEVE.md"])

    def test_a_number_that_no_page_tells(self) -> None:
        self.check(counting.bad_numbers(with_other("docs/ARCHITECTURE.md", "The tree has", "There are"), NUMBERS), "no page tells crates, which is 74")

    def test_minutes(self) -> None:
        pages = {"docs/README.md": "| [A](A.md#b) | 1 | a 5 |\n| [B](../B.md) | 1 | |\n- [C](C.md), 7 minutes\n", "docs/A.md": "word " * 801, "B.md": "word", "docs/C.md": "word"}
        self.check(counting.bad_minutes(pages, "docs/README.md"), "docs/README.md: the minutes of this row aren't")
        pages["docs/README.md"] = counting.with_minutes(pages, "docs/README.md")
        self.assertIn("| [A](A.md#b) | 5 | a 5 |\n| [B](../B.md) | 1 |", pages["docs/README.md"])
        self.check(counting.bad_minutes(pages, "docs/README.md"))

    def test_blocks_that_are_made_of_crates_txt(self) -> None:
        for begin in (counting.BEGIN, counting.LAYERS, counting.CRATES):
            page, made = {"docs/DEVELOPING.md": f"a\n{begin}- old\n{counting.END}b\n"}, {begin: "- new\n"}
            self.check(counting.bad_blocks(page, made), f"docs/DEVELOPING.md: what stands behind {begin.strip()} isn't")
            self.check(counting.bad_blocks({"docs/DEVELOPING.md": counting.with_blocks(page["docs/DEVELOPING.md"], made)}, made))
            self.check(counting.bad_blocks({"docs/DEVELOPING.md": "a\n"}, made))

    def test_more_mutation_tests_than_the_gate_may_have(self) -> None:
        self.check(counting.bad_gate({"gate_tests": "12", "gate_crates": "4"}))
        self.check(counting.bad_gate({"gate_tests": "13", "gate_crates": "4"}), "crates/*/must-fail: gate_tests is 13, and 12 at most")
        self.check(counting.bad_gate({"gate_tests": "12", "gate_crates": "5"}), "crates/*/must-fail: gate_crates is 5, and 4 at most")

    def test_laws_without_a_number_are_no_rungs(self) -> None:
        self.assertEqual([counting.is_rung(name) for name in ("law_1_machine", "law_12_last", "law_repair", "vr_law")], [True, True, False, False])


class Words(Case):
    def test_what_it_takes(self) -> None:
        for given, status, said in ((["--help"], 0, "nozhgiva pages --write"), (["--none"], 2, "usage: "), (["--write", "x"], 2, "usage: ")):
            ran = subprocess.run([str(NOZHGIVA), "pages", *given], capture_output=True, text=True, timeout=60, check=False)
            self.assertEqual(ran.returncode, status)
            self.assertIn(said, ran.stdout + ran.stderr)


if __name__ == "__main__":
    unittest.main()
