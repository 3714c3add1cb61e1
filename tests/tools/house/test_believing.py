"""What stands below the clauses of a function, in crates of a few lines; and that ./nozhgiva believed tells a page which isn't that."""

import shutil
import subprocess
import sys
import tempfile
import unittest
from pathlib import Path
from typing import Dict, Set

from nozhgiva_tools.house import believed
from nozhgiva_tools.house.addressing import Tree
from nozhgiva_tools.house.addressing.definitions import Definitions
from nozhgiva_tools.places import TOOLS

CRATES = {
    "crates.txt": "vr_low:\nvr_top: vr_low\n",
    "crates/vr_low/src/lib.rt": (
        "//! Rooms.\nmod room;\n/// As many.\npub const MOST: usize = 3;\npub use room::{Room, Door};\n"),
    "crates/vr_low/src/room.rt": (
        "ghost use Rattle.vr_low.specs.Rooms.{doors_of};\n\n/// { A room }\n#[derive(Clone)]\npub struct Room {\n    // its doors\n    pub doors: Vec<Door>,\n}\n\n"
        "pub struct Door;\n\npub struct Garden;\n\nimpl Model for Room {\n    ghost view = { λ room. doors_of room };\n}\n\n"
        "pub fn open(room: &Room)\n    ensures { doors_of room.now ≡ doors_of room.now }\n{ let brace = '{'; }\n"),
    "crates/vr_low/specs/Lib.antt": "pub mod Rooms\n",
    "crates/vr_low/specs/Rooms.antt": (
        "use Rattle.vr_low.specs.declared.room.Room.{Room}\nuse Rattle.vr_low.specs.declared.TheConstants.{MOST}\n\n"
        "infixr 20 ◌⨾◌\n-- one after the other\nunfoldable pub ◌⨾◌ : A → A → A\n(a ⨾ b) = a\n\n"
        "pub doors_of : Room → A\ndoors_of room = room.doors ⨾ few\n\nfew : A\nfew =\n  -- as many\n  MOST\n\n"
        "pub size : A → A\nsize spare = spare\n\nspare : A\nspare = few\n\npub data Kind : Type 0 where\n  Small : Kind\n  Large : Kind\n\nidle : A\nidle = few\n"),
    "crates/vr_top/src/lib.rt": "mod command;\n",
    "crates/vr_top/src/command.rt": (
        "ghost use Rattle.vr_top.specs.Runs.{IsRun, IsQuiet};\nuse vr_low::Room;\n\npub fn run(room: &Room, size: u8)\n"
        "    // it runs\n    ensures headline { IsRun room.now }\n    ensures other { IsQuiet size }\n{ let x = \"ensures { IsLoud }\"; }\n"),
    "crates/vr_top/specs/Lib.antt": "pub mod Runs\n",
    "crates/vr_top/specs/Runs.antt": (
        "use Rattle.vr_low.specs.Rooms as rooms\nuse Rattle.vr_low.specs.Rooms.{Small}\n\n"
        "pub record IsRun (room : A) : Type 0 where\n  pub doors : rooms.size (rooms.doors_of room) ≡ room\n\n"
        "abbrev pub IsQuiet : A → Type 0\nIsQuiet x = x ≡ Small\n\npub IsLoud : A\n"),
}


def laid(folder: str, changes: Dict[str, str]) -> Path:
    """The crates with changed files, in a folder."""
    for path, text in {**CRATES, **changes}.items():
        (Path(folder) / path).parent.mkdir(parents=True, exist_ok=True)
        (Path(folder) / path).write_text(text, encoding="utf-8")
    return Path(folder)


def below(label: str, changes: Dict[str, str]) -> Set[str]:
    with tempfile.TemporaryDirectory() as folder:
        definitions = Definitions(Tree(laid(folder, changes)))
        run, scope = believed.function(definitions, ("vr_top", "command"), "run")
        found = believed.below(definitions, [clause.text for clause in run.clauses if clause.label == label], scope)
        return {f"{declaration.kind} {declaration.name}" for declaration in found.values()}


HEADLINE = {
    "record IsRun", "definition size", "definition doors_of", "definition ◌⨾◌", "definition few", "const MOST", "struct Room", "struct Door", "impl Room"}


class Below(unittest.TestCase):
    def test_what_a_clause_cites_and_so_on_down(self) -> None:
        self.assertEqual(below("headline", {}), HEADLINE)

    def test_a_variant_stands_for_its_type(self) -> None:
        self.assertEqual(below("other", {}), {"definition IsQuiet", "data Kind"})

    def test_a_definition_that_passes_through_another_module(self) -> None:
        runs = CRATES["crates/vr_top/specs/Runs.antt"].replace("rooms.size", "rooms.spare")
        self.assertEqual(below("headline", {"crates/vr_top/specs/Runs.antt": runs}), HEADLINE - {"definition size"} | {"definition spare"})

    def test_a_variable_hides_a_definition(self) -> None:
        rooms = CRATES["crates/vr_low/specs/Rooms.antt"]
        self.assertIn("size spare = spare", rooms)
        self.assertEqual(below("headline", {"crates/vr_low/specs/Rooms.antt": rooms.replace("size spare = spare", "size some = spare")}), HEADLINE | {"definition spare"})

    def test_a_function_without_a_contract(self) -> None:
        with tempfile.TemporaryDirectory() as folder:
            definitions = Definitions(Tree(laid(folder, {"crates/vr_top/src/command.rt": "pub fn run() {}\n"})))
            with self.assertRaisesRegex(believed.NoFunction, "no function run with a contract"):
                believed.function(definitions, ("vr_top", "command"), "run")


class Script(unittest.TestCase):
    def run_in(self, folder: str, *words: str) -> "subprocess.CompletedProcess[str]":
        return subprocess.run([sys.executable, "-B", str(Path(folder) / "tools"), "-m", "nozhgiva_tools.house.believed", *words], capture_output=True, text=True, check=False)

    def test_a_page_that_is_written_is_right_until_a_definition_changes(self) -> None:
        with tempfile.TemporaryDirectory() as folder:
            laid(folder, {"docs/BELIEVED.md": "# It\n\n<!-- ./nozhgiva believed -->\n<!-- end -->\nAfter.\n"})
            shutil.copytree(TOOLS, Path(folder) / "tools", ignore=shutil.ignore_patterns("__pycache__"))
            page = Path(folder) / "docs" / "BELIEVED.md"
            self.assertEqual(self.run_in(folder).returncode, 1)
            self.assertEqual(self.run_in(folder, "--write").returncode, 0)
            text = page.read_text(encoding="utf-8")
            self.assertIn("9 definitions in 17 lines of 4 files, of 2 crates.", text)
            self.assertIn("| `vr_low` | 15 | `specs/Rooms.antt` 4, `src/lib.rt` 1, `src/room.rt` 3 |", text)
            self.assertTrue(text.startswith("# It\n") and text.endswith("<!-- end -->\nAfter.\n"))
            self.assertEqual(self.run_in(folder).returncode, 0)
            self.assertIn("crates/vr_top/specs/Runs.antt:7: IsQuiet, 2 lines, not below headline\n", self.run_in(folder, "--list").stdout)
            runs = CRATES["crates/vr_top/specs/Runs.antt"].replace("x ≡ Small", "x ≡ IsLoud")
            laid(folder, {"crates/vr_top/specs/Runs.antt": runs})
            told = self.run_in(folder)
            self.assertEqual(told.returncode, 1)
            self.assertIn("docs/BELIEVED.md isn't what the clauses of run cite", told.stdout)
            page.write_text("# It\n", encoding="utf-8")
            self.assertIn("has no place for the list", self.run_in(folder, "--write").stdout)
            self.assertEqual(self.run_in(folder, "run").returncode, 2)
            self.assertEqual(self.run_in(folder, "--help").returncode, 0)


if __name__ == "__main__":
    unittest.main()
