"""Each fault that ./nozhgiva check-commands tells, planted in pages of a few lines; and that pages without one are left alone."""

import tempfile
import unittest
from pathlib import Path
from typing import Iterable, List

from nozhgiva_tools.house.commanding import finding, listing, running

PAGE = "docs/SOME.md"
CHECKS = frozenset(("faults",))


def texts(page: str) -> List[str]:
    return [one.text for one in finding.find(PAGE, page)[0]]


def listed(text: str) -> listing.Listing:
    with tempfile.TemporaryDirectory() as folder:
        path = Path(folder) / "commands.txt"
        path.write_text(text, encoding="utf-8")
        return listing.read(path, CHECKS)


class Case(unittest.TestCase):
    def check(self, told: Iterable[str], *parts: str) -> None:
        """What is told: so many sentences, each with one of these parts."""
        lines = list(told)
        self.assertEqual(len(lines), len(parts), lines)
        for line, part in zip(lines, parts):
            self.assertIn(part, line)


class Finding(Case):
    def test_commands_stand_in_blocks_that_are_fenced_or_indented(self) -> None:
        self.assertEqual(texts("Take\n\n    ./nozhgiva play\n\nor\n\n```\nrt ci\n```\n\npython3 here is a word\n"), ["./nozhgiva play", "rt ci"])

    def test_comments_and_prompts_are_no_part_and_lines_are_joined(self) -> None:
        self.assertEqual(texts("    nozhgiva run a   # why\n"), ["nozhgiva run a"])
        self.assertEqual(texts("    $ rt check\n    note: no\n"), ["rt check"])
        self.assertEqual(texts("    nozhgiva roll 3 \\\n        --hold\n"), ["nozhgiva roll 3 --hold"])

    def test_assignments_and_loops_are_commands_and_lines_of_files_are_not(self) -> None:
        self.assertEqual(texts("    A='b c'\n    B=1 rt ci\n    for r in 0; do nozhgiva; done\n"), ["A='b c'", "B=1 rt ci", "for r in 0; do nozhgiva; done"])
        self.assertEqual(texts("    deliver 0\n\n    go 1.19\n\n    MTU = 1\n\n    nozhgiva backup 1\n    op 96\n"), [])

    def test_an_unknown_word_beside_commands_is_told(self) -> None:
        self.check(finding.find(PAGE, "    rt ci\n    frobnicate x\n")[1], f"{PAGE}:2: not known as a command")
        self.check(finding.find(PAGE, "    frobnicate x\n")[1])

    def test_a_command_of_a_sentence_is_found_where_it_stands(self) -> None:
        self.assertEqual(finding.in_sentence(PAGE, "so\n`rt ci` does\n", "rt ci"), (PAGE, 2, "rt ci"))
        self.assertIsNone(finding.in_sentence(PAGE, "rt ci does `rt cite`\n", "rt ci"))


class Listed(Case):
    def test_a_command_in_neither_place_is_told(self) -> None:
        for text in ("useradd me", "nozhgiva run a && apt install b", "python3 a; rt ci", "for r in 0; do docker run; done", "printf x | ssh m || nft y"):
            commands, _ = finding.find(PAGE, f"    {text}\n")
            self.check(listed("").neither(commands), f"{PAGE}:1: neither run nor in commands.txt: {text}")
            self.check(listed(f"[needs root]\n{PAGE}: {text[:5]}*\n").neither(commands))
        self.check(listed("").neither(finding.find(PAGE, "    A=1\n    nozhgiva a > b & printf 'x; y'\n    ./nozhgiva pages && cd a\n")[0]))

    def test_an_idle_entry_is_told(self) -> None:
        commands, _ = finding.find(PAGE, "    nozhgiva run FILE\n")
        pages = frozenset((PAGE,))
        self.check(listed(f"[serves]\n{PAGE}: nozhgiva r*\n[words]\n{PAGE}: FILE = a\n[shows]\n{PAGE}: nozhgiva run FILE => b\n").idle(commands, pages))
        self.check(listed(f"[needs root]\n{PAGE}: nozhgiva keep*\n").idle(commands, pages), "commands.txt:2: an idle entry")
        self.check(listed(f"[also]\n{PAGE}: nozhgiva draw\n").idle(commands, pages), "commands.txt:2")
        self.check(listed("[needs root]\nother.md: nozhgiva run FILE\n").idle(commands, pages), "commands.txt:2")
        self.check(listed(f"[words]\n{PAGE}: FIL = a\n[shows]\n{PAGE}: nozhgiva => b\n[before]\nno.md: true\n").idle(commands, pages), ":6:", ":4:", ":2:")

    def test_a_reason_that_is_none_is_told(self) -> None:
        self.check(listed("[no wish]\n[run by the check faults]\n[run by the check sleep]\nwhat\n").faults, ":1: no reason", ":3: no check sleep", ":4: neither")

    def test_words_in_capitals_become_values(self) -> None:
        words = {"R": ["0", "1"], "N": ["5", "6"]}
        self.assertEqual(listing.with_words("keep $R R/N", words), ["keep $R 0/5", "keep $R 1/6"])
        self.assertEqual(listing.with_words("keep RN", words), ["keep RN"])


class Runs(Case):
    def run_page(self, page: str, entries: str = "") -> List[str]:
        with tempfile.TemporaryDirectory() as folder:
            place = running.Place(Path(folder), "no program")
            place.clone.mkdir()
            commands, faults = finding.find(PAGE, page)
            self.assertEqual(faults, [])
            return running.Page(PAGE, page, commands, listed(entries), place).run()

    def test_commands_run_in_one_shell_and_in_order(self) -> None:
        self.check(self.run_page("    A=5\n    printf $A > /tmp/a\n\n    grep 5 /tmp/a && cd /tmp/.\n    grep 5 a\n"))

    def test_a_command_that_fails_is_told_and_the_next_ones_run(self) -> None:
        self.check(self.run_page("    printf x\n    grep y /tmp/none\n    printf z\n"), f"{PAGE}:2: grep y /tmp/none\n  it ended with status 2")
        self.check(self.run_page("    grep y /dev/null | printf x\n"), "it ended with status 1")

    def test_what_is_listed_is_not_run(self) -> None:
        self.check(self.run_page("    grep y /tmp/none\n", f"[needs root]\n{PAGE}: grep *\n"))

    def test_output_that_differs_from_the_page_is_told(self) -> None:
        page = "    printf 'a\\nb\\nc\\n'\n\nwrites\n\n    a\n    %s\n"
        entry = f"[shows]\n{PAGE}: printf 'a\\nb\\nc\\n' => a\n"
        self.check(self.run_page(page % "b", entry))
        self.check(self.run_page(page % "c", entry), "it doesn't write what the page shows")

    def test_a_command_that_should_serve_and_ends_is_told(self) -> None:
        entry = f"[serves]\n{PAGE}: python3 *\n"
        self.check(self.run_page("    python3 -c 'import time; time.sleep(60)'\n", entry))
        self.check(self.run_page("    python3 -c 'pass'\n", entry), "it ended with status 1")

    def test_a_process_that_is_left_is_told_and_ended(self) -> None:
        self.check(self.run_page("    python3 -c 'import os, time; os.fork() or (os.setsid(), time.sleep(60))'\n"), "it leaves a process")

    def test_addresses_become_ports_of_this_machine_and_folders_are_new(self) -> None:
        one, other = running.here(["nozhgiva a 10.0.0.1:4000 10.0.0.2:4000 > /tmp/x", "nozhgiva b 10.0.0.2:4000 x/tmp/y"], Path("/new"))
        first, second = one.split()[2:4]
        self.assertEqual((one.split()[-1], other), ("/new/tmp/x", f"nozhgiva b {second} x/tmp/y"))
        self.assertNotEqual(first, second)
        self.assertTrue(first.startswith("127.0.0.1:"))


if __name__ == "__main__":
    unittest.main()
