"""Each fault that ./nozhgiva addresses tells, planted in crates of a few lines; and that crates without one are left alone."""

import shutil
import subprocess
import sys
import tempfile
import unittest
from pathlib import Path
from typing import Dict, List

from nozhgiva_tools.house import addresses
from nozhgiva_tools.house.addressing import checks, Tree
from nozhgiva_tools.places import TOOLS

# Three crates, each on the ones before. Rooms stand in `vr_low`.
CRATES = {
    "crates.txt": "## base: the first\n# low\nvr_low: hex\nvr_mid: vr_low # the middle\n\n## rows: the last\nvr_top: vr_low vr_mid\n",
    "crates/vr_low/src/lib.rt": "//! Rooms.\nuse hex::encode;\npub struct Room;\n",
    "crates/vr_low/specs/Lib.antt": "pub mod Rooms\n",
    "crates/vr_low/specs/Rooms.antt": "-- rooms\nunfoldable pub ◌⨾◌ : A\npub room : A\n",
    "crates/vr_low/proofs/Lib.antt": "pub mod Halls\n",
    "crates/vr_low/proofs/Halls.antt": "pub hall : A\n",
    "crates/vr_mid/src/lib.rt": (
        "ghost use Rattle.vr_low.specs.Rooms.{◌⨾◌, room};\n\n#[tactic(auto, using(vr_low::proofs::Halls::hall))]\npub fn walk()\n"
        "    ensures { room ⨾ room }\n{}\n"),
    "crates/vr_mid/specs/Lib.antt": "pub mod Walks\n",
    "crates/vr_mid/specs/Walks.antt": "use Rattle.vr_low.specs.declared.Room.{Room}\npub walk : A\n",
    "crates/vr_top/src/lib.rt": "pub fn run() {}\n",
    "crates/vr_top/specs/Lib.antt": "pub mod Runs\n",
    "crates/vr_top/specs/Runs.antt": "use Rattle.std.specs.Prelude.{ℕ}\nuse Rattle.vr_low.specs.Rooms as rooms\nuse Rattle.vr_mid.specs.Walks.{walk as goes}\n",
}


def laid(folder: str, *changes: Dict[str, str]) -> Path:
    """The crates with changed files, in a folder."""
    files = {path: text for some in (CRATES, *changes) for path, text in some.items()}
    for path, text in files.items():
        (Path(folder) / path).parent.mkdir(parents=True, exist_ok=True)
        (Path(folder) / path).write_text(text, encoding="utf-8")
    return Path(folder)


def told(*changes: Dict[str, str]) -> List[str]:
    with tempfile.TemporaryDirectory() as folder:
        return list(checks.faults(Tree(laid(folder, *changes))))


def with_line(path: str, line: str) -> Dict[str, str]:
    return {path: line + CRATES[path]}


PASSED_MODULE = with_line("crates/vr_mid/specs/Lib.antt", "pub use Rattle.vr_low.specs.Rooms\n")
PASSED_NAME = with_line("crates/vr_mid/specs/Walks.antt", "unfoldable pub use Rattle.vr_low.specs.Rooms.{room as stay, ◌⨾◌}\n")
PASSED_ON = "crates/vr_mid/specs/{}.antt:1: vr_low.specs.Rooms is passed on; whoever needs it names it himself"


class Citations(unittest.TestCase):
    def test_true_ones_are_left_alone(self) -> None:
        self.assertEqual(told(), [])

    def test_what_a_module_passes_on_is_told(self) -> None:
        self.assertEqual(told(PASSED_MODULE), [PASSED_ON.format("Lib")])
        self.assertEqual(told(PASSED_NAME), [PASSED_ON.format("Walks")])

    def test_a_name_of_a_module_that_is_passed_on(self) -> None:
        line = "use Rattle.vr_mid.specs.Rooms.{room}\n"
        fault = "crates/vr_top/specs/Runs.antt:1: vr_mid.specs.Rooms.room stands in vr_low.specs.Rooms.room"
        self.assertEqual(told(PASSED_MODULE, with_line("crates/vr_top/specs/Runs.antt", line)), [PASSED_ON.format("Lib"), fault])

    def test_a_name_that_is_passed_on_under_another_one(self) -> None:
        line = "    ghost use Rattle.vr_mid.specs.Walks.{stay, walk, ◌⨾◌};\n"
        faults = [
            "crates/vr_top/src/lib.rt:1: vr_mid.specs.Walks.stay stands in vr_low.specs.Rooms.room",
            "crates/vr_top/src/lib.rt:1: vr_mid.specs.Walks.◌⨾◌ stands in vr_low.specs.Rooms.◌⨾◌"]
        self.assertEqual(told(PASSED_NAME, with_line("crates/vr_top/src/lib.rt", line)), [PASSED_ON.format("Walks"), *faults])

    def test_a_module_under_another_name(self) -> None:
        passed = with_line("crates/vr_mid/specs/Lib.antt", "pub use Rattle.vr_low.specs.declared.Room as Place\n")
        line = "use Rattle.vr_mid.specs.Place.TheVariants as place\n"
        fault = "crates/vr_top/specs/Runs.antt:1: vr_mid.specs.Place.TheVariants stands in vr_low.specs.declared.Room.TheVariants"
        self.assertIn(fault, told(passed, with_line("crates/vr_top/specs/Runs.antt", line)))

    def test_a_path_in_an_attribute(self) -> None:
        passed = with_line("crates/vr_mid/specs/Lib.antt", "pub use Rattle.vr_low.specs.Rooms\n")
        line = "#[tactic(auto, unfolding(vr_mid::specs::Rooms::room), using(crate::proofs::Ends::end))]\n"
        fault = "crates/vr_top/src/lib.rt:1: vr_mid.specs.Rooms.room stands in vr_low.specs.Rooms.room"
        self.assertIn(fault, told(passed, with_line("crates/vr_top/src/lib.rt", line)))

    def test_two_steps_are_one_fault(self) -> None:
        passed = {"crates/vr_top/specs/Lib.antt": "pub mod Runs\npub use Rattle.vr_mid.specs.Rooms\n"}
        line = "use Rattle.vr_top.specs.Rooms.{room}\n"
        fault = "crates/vr_top/specs/Runs.antt:1: vr_top.specs.Rooms.room stands in vr_low.specs.Rooms.room"
        self.assertIn(fault, told(PASSED_MODULE, passed, with_line("crates/vr_top/specs/Runs.antt", line)))


class Entries(unittest.TestCase):
    def test_a_library_that_no_file_names(self) -> None:
        crates = CRATES["crates.txt"].replace("vr_mid: vr_low", "vr_mid: hex vr_low")
        comment = with_line("crates/vr_mid/specs/Walks.antt", "-- hex\n")
        self.assertEqual(told({"crates.txt": crates}, comment), ["crates.txt: vr_mid doesn't name hex"])


class Standing(unittest.TestCase):
    def test_how_many_stand_above_each(self) -> None:
        with tempfile.TemporaryDirectory() as folder:
            lines = list(addresses.above(Tree(laid(folder))))
        self.assertEqual(lines, ["- *base*: `vr_low` 2, `vr_mid` 1", "- *rows*: `vr_top` 0"])

    def test_the_longest_chain(self) -> None:
        self.assertEqual(addresses.chain({"a": ["b", "c"], "b": ["c", "hex"], "c": []}, "a"), ["a", "b", "c"])


class Script(unittest.TestCase):
    def run_in(self, folder: str, *words: str) -> "subprocess.CompletedProcess[str]":
        tools = Path(folder) / "tools"
        if not tools.is_dir():
            shutil.copytree(TOOLS, tools, ignore=shutil.ignore_patterns("__pycache__"))
        return subprocess.run([sys.executable, "-B", str(tools), "-m", "nozhgiva_tools.house.addresses", *words], capture_output=True, text=True, check=False)

    def test_its_status_and_its_words(self) -> None:
        with tempfile.TemporaryDirectory() as folder:
            laid(folder)
            told = self.run_in(folder)
            self.assertEqual(told.stdout, "6 citations of 3 crates, nothing to mend\nlongest chain: 3 crates, vr_top vr_mid vr_low\n")
            self.assertEqual(told.returncode, 0)
            laid(folder, PASSED_MODULE, with_line("crates/vr_top/specs/Runs.antt", "use Rattle.vr_mid.specs.Rooms.{room}\n"))
            told = self.run_in(folder)
            self.assertIn("8 citations of 3 crates, 2 to mend\n", told.stdout)
            self.assertEqual(told.returncode, 1)
            self.assertEqual(self.run_in(folder, "--above").stdout, "- *base*: `vr_low` 2, `vr_mid` 1\n- *rows*: `vr_top` 0\n")
            self.assertEqual(self.run_in(folder, "--help").returncode, 0)
            for words in (["vr_top"], ["--above", "vr_top"], ["--no"]):
                told = self.run_in(folder, *words)
                self.assertEqual((told.returncode, told.stdout), (2, ""))
                self.assertIn("usage: addresses", told.stderr)


if __name__ == "__main__":
    unittest.main()
