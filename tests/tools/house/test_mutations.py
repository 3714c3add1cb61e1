"""Each mutation test can be tried: its file is the crate's, each old text stands there once, and its name is its own."""

import re
import unittest
from typing import Dict, Iterator, List, Tuple, Union

from nozhgiva_tools.house.mutations import BAD, Edit, edits_of, ending_of, LEFT, LIMITED, PASSED, REFUSED, sections, summed, Tried, UNTRIED
from nozhgiva_tools.places import TOP

CRATES = sorted(path.stem for path in (TOP / "mutations").glob("*.edits"))
WHY = re.compile(r"why: (.+)\n")
LINE = re.compile(r"(why|file|old|new):(?: (.*))?")


def each() -> Iterator[Tuple[str, Edit]]:
    for crate in CRATES:
        for edit in edits_of(crate, True):
            yield crate, edit


@unittest.skipUnless((TOP / "crates").is_dir(), "no sources")
class Mutations(unittest.TestCase):
    def test_a_file_of_two(self) -> None:
        text = "== one\nwhy: a\nfile: src/a.rt\nold:     == x\nnew:     != x\n== two\nwhy: b\n"
        self.assertEqual(sections(text), [Edit("one", "why: a\nfile: src/a.rt\nold:     == x\nnew:     != x\n"), Edit("two", "why: b\n")])

    def test_what_came_of_an_edit(self) -> None:
        """By the words of the toolchain; an earlier kit answers with a truth value."""
        limit = "refused, as it must be (only by a limit of the prover, which gave no verdict, so this says less of the contract: choose a change that it refuses sooner): src/a.rt"
        outcomes: List[Tuple[Union[bool, str], str, str]] = [
            ("refused", "refused, as it must be: src/a.rt:1:2: error", REFUSED), (True, "refused, as it must be", REFUSED),
            ("limit", limit, LIMITED), (True, limit, LIMITED), ("missed", "NOT REFUSED: the crate is still proved", PASSED),
            (False, "NOT REFUSED: the crate is still proved", PASSED), ("bad", "BAD EDIT: it did not reach the prover", BAD),
            (False, "BAD EDIT: it did not reach the prover", BAD), ("unsure", "NOT TRIED: its check was killed", UNTRIED)]
        for answer, text, ending in outcomes:
            with self.subTest(answer=answer, text=text):
                self.assertEqual(ending_of(answer, text), ending)

    def test_the_sum_and_its_status(self) -> None:
        for endings, words, status in (([REFUSED, REFUSED], "2 of 2 refused in 3 minutes", 0), ([REFUSED, LIMITED], "2 of 2 refused in 3 minutes, 1 of them only by a limit", 0),
                                       ([REFUSED, PASSED, LEFT], "1 of 3 refused in 3 minutes, 1 let through, 1 left", 1), ([BAD], "0 of 1 refused in 3 minutes, 1 bad", 1),
                                       ([LIMITED, UNTRIED], "1 of 2 refused in 3 minutes, 1 of them only by a limit, 1 not tried", 1), ([REFUSED, LEFT], "1 of 2 refused in 3 minutes, 1 left", 3)):
            with self.subTest(endings=endings):
                self.assertEqual(summed([Tried("a", ending, 1.0, "") for ending in endings], 3.2), (words, status))

    def test_each_file_is_a_crates_and_has_some(self) -> None:
        self.assertTrue(CRATES)
        for crate in CRATES:
            names = [edit.name for edit in edits_of(crate, True)]
            self.assertTrue((TOP / "crates" / crate).is_dir(), crate)
            self.assertEqual((bool(names), len(set(names))), (True, len(names)), crate)

    def test_each_says_in_its_first_line_why_it_is_wrong(self) -> None:
        """Of those of mutations/; a word alone is no reason."""
        told = [(crate, edit.name, WHY.match(edit.text)) for crate in CRATES for edit in edits_of(crate, False)]
        self.assertEqual([(crate, name) for crate, name, why in told if why is None or len(why[1].split()) < 4], [])

    def test_each_old_text_stands_once_in_its_file(self) -> None:
        for crate, edit in each():
            with self.subTest(crate=crate, edit=edit.name):
                texts: Dict[str, str] = {}
                path, old = "", ""
                for line in edit.text.splitlines():
                    found = LINE.fullmatch(line)
                    assert found is not None, line
                    if found[1] == "file":
                        path = found[2]
                        texts.setdefault(path, (TOP / "crates" / crate / path).read_text(encoding="utf-8"))
                    elif found[1] == "old":
                        old = found[2]
                        self.assertEqual(texts[path].count(old), 1, line)
                    elif found[1] == "new":
                        texts[path] = texts[path].replace(old, found[2] or "")
                self.assertTrue(old)


if __name__ == "__main__":
    unittest.main()
