"""A run of rows and tests fails where one fails, isn't in the program, or writes something else; by a program that pretends."""

import shutil
import tempfile
import unittest
from pathlib import Path
from typing import Dict, List, Tuple

from nozhgiva_tools.command import sources, tested
from nozhgiva_tools.places import TOP

from .common import write_script

# It lists its tests; each writes what it is given, or does as its name says.
PROGRAM = """#!/bin/sh
case $1 in
--list) printf '%s: test\\n' LISTED ;;
*fails) echo 'why it fails' >&2; exit 134 ;;
*silent) ;;
*) cat; printf '\\ntest result: ok\\n' ;;
esac
"""
ROWS = "rows::disk::told"


class Runs(unittest.TestCase):
    def setUp(self) -> None:
        room = tempfile.TemporaryDirectory()
        self.addCleanup(room.cleanup)
        self.top = Path(room.name)
        (self.top / "tests" / "rows" / "disk").mkdir(parents=True)
        for name in ("stdin", "stdout"):
            (self.top / "tests" / "rows" / "disk" / name).write_text("== a row\n", encoding="ascii")
        self.said: List[str] = []

    def run_of(self, written: int, listed: str, *words: str) -> int:
        (self.top / "tests" / "lib.rt.txt").write_text("#[test]\nfn one() {}\n" * written, encoding="ascii")
        (self.top / "out").mkdir(exist_ok=True)
        write_script(self.top / tested.PROGRAM, PROGRAM.replace("LISTED", listed))
        self.said.clear()
        return tested.run(self.top, words, self.said.append)

    def test_what_fails_is_counted(self) -> None:
        rows: Tuple[Tuple[int, str, int], ...] = (
            (2, f"{ROWS} units::a::passes", 0), (2, f"{ROWS} units::a::fails", 1), (2, f"{ROWS} units::a::silent", 1), (3, f"{ROWS} units::a::passes", 1), (1, f"{ROWS} units::a::passes", 1))
        for written, listed, failed in rows:
            with self.subTest(written=written, listed=listed):
                self.assertEqual(self.run_of(written, listed), failed)
                self.assertEqual(self.said[-1], f"{len(listed.split())} of {written} tests were run, {failed} failed")

    def test_no_tests_at_all_fail(self) -> None:
        self.assertGreater(self.run_of(0, ""), 0)
        self.assertGreater(self.run_of(1, "units::a::passes", "nonesuch"), 0)

    def test_a_failure_tells_why(self) -> None:
        self.run_of(1, "units::a::fails")
        self.assertIn("why it fails", "\n".join(self.said))
        self.assertIn("status 134", "\n".join(self.said))

    def test_rows_are_compared(self) -> None:
        (self.top / "tests" / "rows" / "disk" / "stdout").write_text("== another row\n", encoding="ascii")
        self.assertEqual(self.run_of(1, ROWS), 1)
        self.assertIn("-== another row", "\n".join(self.said))

    def test_a_program_is_of_its_sources_alone(self) -> None:
        self.run_of(1, ROWS)
        (self.top / "crates.txt").write_text("", encoding="ascii")
        (self.top / "tests" / "libraries.txt").write_text("hex\n", encoding="ascii")
        self.assertFalse(tested.is_made(self.top))
        sources.note_of(self.top / tested.PROGRAM).write_text(tested.digest(self.top), encoding="ascii")
        self.assertTrue(tested.is_made(self.top))
        for name in ("lib.rt.txt", "libraries.txt"):
            with self.subTest(name=name):
                path = self.top / "tests" / name
                before = path.read_text(encoding="ascii")
                path.write_text(f"{before}\n", encoding="ascii")
                self.assertFalse(tested.is_made(self.top))
                path.write_text(before, encoding="ascii")
                self.assertTrue(tested.is_made(self.top))

    def test_some_are_chosen_by_words(self) -> None:
        self.assertEqual(self.run_of(2, f"{ROWS} units::a::fails", "rows::"), 0)


class Sources(unittest.TestCase):
    def test_below_is_all_that_names_stand_on(self) -> None:
        lines: Dict[str, str] = {"low": "low: sha2", "middle": "middle: low", "high": "high: middle low", "other": "other: low"}
        self.assertEqual(sorted(tested.below(lines, ["hex", "middle"])), ["low", "middle"])

    def test_the_tests_of_this_tree_are_one_crate(self) -> None:
        if not (TOP / tested.FOLDER).exists():
            self.skipTest("only a clone has the rows and tests")
        with tempfile.TemporaryDirectory() as folder:
            crate = tested.assemble(TOP, Path(folder))
            self.assertTrue((crate / "src" / "lib.rt").exists())
            found = [path.relative_to(crate / "src") for path in sorted(crate.rglob("*.rt"))]
            self.assertEqual(len(found), len(tested.own_sources(TOP)))
            for path in found:
                own = crate / "src" / path
                module = own.parent / "mod.rt" if path.name != "mod.rt" else own.parent.parent / "mod.rt"
                above = module if module.exists() and module != own else crate / "src" / "lib.rt"
                with self.subTest(path=str(path)):
                    name = path.stem if path.name != "mod.rt" else path.parent.name
                    self.assertTrue(path.name == "lib.rt" or f"mod {name};" in above.read_text(encoding="utf-8"))
            shutil.rmtree(crate)


if __name__ == "__main__":
    unittest.main()
