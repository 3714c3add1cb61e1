"""Keys and values that are the words of a line, as `op 33`, change nothing of what explains a run: of one that is played, and of one that members wrote."""

import json
import shutil
import subprocess
import tempfile
import unittest
from pathlib import Path
from typing import Callable, Dict, List, Tuple

from nozhgiva_tools.pages.explorer.members import merge_members, read_outputs
from nozhgiva_tools.pages.explorer.reading import read_run, ShownRun
from nozhgiva_tools.pages.explorer.rules import read_rules
from nozhgiva_tools.places import EXAMPLES
from nozhgiva_tools.told.lines import owner_of

NODE = shutil.which("node")
EXPLAINED = Path(__file__).with_name("explained.mjs")
PLAIN = "color green"
WORDS = ("op 33", "op 1", "view 9", "commit 5", "head 7", "checkpoint 3")


def example(pair: str) -> str:
    """The example `put-get` with another key and value."""
    return (EXAMPLES / "put-get.txt").read_text(encoding="ascii").replace(PLAIN, pair)


def outputs(pair: str) -> List[str]:
    return [line.strip() for line in example(pair).splitlines() if line.startswith("  ")]


def told(run: ShownRun) -> List[Tuple[List[int], List[str], bool]]:
    """Of each step what it answers, its rules, and whether it may be of one event with the one before."""
    return [(step["came"], step["rules"], step["unsure"]) for step in run["steps"]]


class Words(unittest.TestCase):
    def setUp(self) -> None:
        folder = tempfile.TemporaryDirectory()
        self.addCleanup(folder.cleanup)
        self.folder = Path(folder.name)

    def file(self, name: str, text: str) -> str:
        path = self.folder / name
        path.write_text(text, encoding="ascii")
        return str(path)

    def of_outputs(self, pair: str) -> ShownRun:
        return read_outputs(self.file("outputs", "\n".join(outputs(pair)) + "\n"))

    def of_members(self, pair: str) -> ShownRun:
        texts: Dict[int, str] = {}
        for line in outputs(pair):
            owner = owner_of(line.split(" "))
            texts[owner] = texts.get(owner, "") + line + "\n"
        return merge_members([self.file(f"out.{owner}", text) for owner, text in sorted(texts.items())])

    def test_what_members_wrote(self) -> None:
        ways: List[Callable[[str], ShownRun]] = [self.of_outputs, self.of_members]
        for way in ways:
            plain = told(way(PLAIN))
            for pair in WORDS:
                with self.subTest(f"{way.__name__}: {pair}"):
                    self.assertEqual(told(way(pair)), plain)

    @unittest.skipUnless(NODE, "no node")
    def test_a_schedule(self) -> None:
        plain = self.explained(PLAIN)
        # In lines 5 to 7 the put is prepared, taken and counted.
        self.assertEqual(plain[:7], [[], ["Made"], ["Next"], ["Counted"], ["Made"], ["Next"], ["Counted"]])
        for pair in WORDS:
            with self.subTest(pair):
                self.assertEqual(self.explained(pair), plain)

    def explained(self, pair: str) -> List[List[str]]:
        """The rules that the page names for each line."""
        run: Dict[str, object] = {**read_run(self.file("example", example(pair))), "rules": read_rules()}
        made = subprocess.run([NODE or "node", str(EXPLAINED)], input=json.dumps(run), capture_output=True, text=True, check=True)
        rules: List[List[str]] = json.loads(made.stdout)
        return rules


if __name__ == "__main__":
    unittest.main()
