"""What ./nozhgiva map reads of crates.txt, tells of it, and finds wrong in it: over maps of a few lines, and over the clone's own."""

import subprocess
import tempfile
import unittest
from pathlib import Path
from typing import List, Tuple

from nozhgiva_tools.house import mapping
from nozhgiva_tools.places import NOZHGIVA, TOP

MAP = """# What the file is.

## low: what all use
# lists and numbers
app_low: sha2
# the disk
app_disk: app_low

## high: what is run
# the log
app_log: app_low app_disk  # and a remark
"""
THERE = {"app_low", "app_disk", "app_log"}


def run(*words: str) -> Tuple[int, str, str]:
    ran = subprocess.run([str(NOZHGIVA), "map", *words], capture_output=True, text=True, check=False)
    return ran.returncode, ran.stdout, ran.stderr


def faults(text: str) -> List[str]:
    return list(mapping.faults(mapping.read_map(text), THERE))


class Reading(unittest.TestCase):
    def test_rows_crates_and_sentences(self) -> None:
        low, high = mapping.read_map(MAP)
        self.assertEqual((low.name, low.sentence), ("low", "what all use"))
        self.assertEqual(low.crates, (mapping.Crate("app_low", "lists and numbers", ("sha2",)), mapping.Crate("app_disk", "the disk", ("app_low",))))
        self.assertEqual(high.crates, (mapping.Crate("app_log", "the log", ("app_low", "app_disk")),))

    def test_a_sentence_belongs_to_the_line_below_it_alone(self) -> None:
        (row,) = mapping.read_map("## low: all\n# of nobody\n\napp_low:\n")
        self.assertEqual(row.crates, (mapping.Crate("app_low", "", ()),))

    def test_a_word_is_found_in_names_sentences_and_rows(self) -> None:
        rows = mapping.read_map(MAP)
        for word, names in (("LOG", ["app_log"]), ("numbers", ["app_low"]), ("low", ["app_low", "app_disk"]), ("nothing", [])):
            self.assertEqual([crate.name for row in mapping.fitting(rows, word) for crate in row.crates], names, word)


class Faults(unittest.TestCase):
    def test_a_right_map_has_none(self) -> None:
        self.assertEqual(faults(MAP), [])

    def test_each_is_told(self) -> None:
        for old, new, told in (
            ("# the disk\napp_disk: app_low\n", "", "crates.txt: no line of the crate app_disk"),
            ("# the disk\n", "", "crates.txt: no sentence above app_disk"),
            ("# the disk\n", f"# {'x' * 161}\n", "crates.txt: the sentence of app_disk has 161 characters, 160 at most"),
            ("app_low: sha2", "app_low: app_log", "crates.txt: app_low stands above app_log, which it uses"),
            ("## high: what is run", "## high", "crates.txt: a row without a name and a sentence, '## NAME: SENTENCE', above app_log"),
            ("## low: what all use\n", "", "crates.txt: a row without a name and a sentence, '## NAME: SENTENCE', above app_low"),
            ("# the log\n", "# again\napp_low:\n# the log\n", "crates.txt: app_low has two lines"),
        ):
            self.assertIn(told, faults(MAP.replace(old, new)), told)


class Pages(unittest.TestCase):
    def test_the_picture_begins_with_the_highest_row(self) -> None:
        self.assertEqual(mapping.layers(mapping.read_map(MAP)), "```\n high  app_log\n low   app_low  app_disk\n```\n")

    def test_each_row_has_a_table(self) -> None:
        self.assertIn("### High\n\nWhat is run.\n\n| crate | what it is |\n|---|---|\n| `app_log` | the log |\n", mapping.tables(mapping.read_map(MAP)))


class Script(unittest.TestCase):
    def test_the_map_of_this_clone_is_right(self) -> None:
        self.assertEqual(run("--check")[::2], (0, ""))

    def test_all_crates_are_printed_with_their_lines(self) -> None:
        status, told, _ = run()
        self.assertEqual(status, 0)
        for name in mapping.folders():
            self.assertRegex(told, rf"(?m)^  {name} +[\d,]+  \S")

    def test_lines_are_those_of_the_files(self) -> None:
        source = TOP / "crates" / "vr_base"
        count = sum(len(path.read_text().splitlines()) for part in ("src", "specs", "proofs") for path in (source / part).rglob("*.*t*") if path.is_file())
        self.assertEqual(mapping.lines_of("vr_base"), count)

    def test_seconds_of_a_saved_run(self) -> None:
        with tempfile.TemporaryDirectory() as folder:
            saved = Path(folder) / "cost"
            saved.write_text('[{"vr_base": {"proof": 80.2, "seed": 20}}, 101]')
            self.assertRegex(run("--cost", str(saved), "vr_base")[1], r"(?m)^  vr_base +[\d,]+ +100 s  \S")
            saved.write_text("not JSON")
            self.assertEqual(run("--cost", str(saved)), (2, "", f"map: {saved} is nothing that ./nozhgiva gate-cost --save wrote\n"))

    def test_what_cannot_be_told(self) -> None:
        self.assertEqual(run("no such thing")[0], 1)
        self.assertEqual(run("--cost", "/nonesuch")[0], 2)
        self.assertEqual(run("--check", "word")[0], 2)
        self.assertEqual(run("--no-such-word")[0], 2)


if __name__ == "__main__":
    unittest.main()
