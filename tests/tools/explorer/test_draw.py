"""Pictures: every example is drawn, no arrow runs through words, colours can be read, and what can't be drawn is said in a sentence."""

import os
import re
import subprocess
import tempfile
import unittest
import xml.etree.ElementTree as ElementTree
from pathlib import Path
from typing import List, Tuple

from nozhgiva_tools.pages.explorer import picture
from nozhgiva_tools.pages.explorer.reading import read_run
from nozhgiva_tools.places import EXAMPLES, words_of_module

from .browser import contrast, parts_of

SVG = "{http://www.w3.org/2000/svg}"
LETTER = 7.23  # the width of a letter of 12 pixels in the fonts named


Point = Tuple[float, float]
Box = Tuple[float, float, float, float]
"""Left, top, right, bottom."""
Rows = List[Tuple[Tuple[str, ...], int]]
"""Words, and the code with which a script ends."""


def points_of(way: str) -> List[Point]:
    """The corners of a path of M, L, H, V and l."""
    points: List[Point] = []
    x, y = 0.0, 0.0
    for kind, numbers in re.findall(r"([MLHVlh])([-\d. ]+)", way):
        values = [float(number) for number in numbers.split()]
        if kind in "ML":
            x, y = values
        elif kind == "l":
            x, y = x + values[0], y + values[1]
        elif kind == "V":
            y = values[0]
        else:
            x = values[0] if kind == "H" else x + values[0]
        points.append((x, y))
    return points


def crosses(one: Point, other: Point, box: Box) -> bool:
    """Whether a line from one point to another comes into a box: it is cut to it, side by side."""
    (x, y), (to_x, to_y), (left, top, right, bottom) = one, other, box
    begin, end = 0.0, 1.0
    for start, way, least, most in ((x, to_x - x, left, right), (y, to_y - y, top, bottom)):
        if way == 0:
            if not least < start < most:
                return False
            continue
        near, far = sorted(((least - start) / way, (most - start) / way))
        begin, end = max(begin, near), min(end, far)
    return begin < end


class Drawing(unittest.TestCase):
    def test_every_example_is_drawn_and_no_arrow_runs_through_words(self) -> None:
        arrows = 0
        for path in sorted(EXAMPLES.glob("*.txt")):
            root = ElementTree.fromstring(picture.Picture(read_run(str(path))).svg())
            boxes: List[Tuple[Box, str]] = []
            for text in root.iter(f"{SVG}text"):
                if text.get("text-anchor") is None:
                    x, y, words = float(text.attrib["x"]), float(text.attrib["y"]), text.text or ""
                    boxes.append(((x, y - 8, x + LETTER * len(words), y + 1), words))
            for line in root.iter(f"{SVG}path"):
                if line.get("class") == "arrow":
                    points = points_of(line.attrib["d"])
                    for one, other in zip(points, points[1:]):
                        for box, words in boxes:
                            if crosses(one, other, box):
                                self.fail(f"{path.name}: {line.get('d')} runs through {words}")
                    arrows += 1
        self.assertGreater(arrows, 1_000)

    def test_a_line_meets_a_box(self) -> None:
        for one, other, wanted in (((0, 0), (10, 10), True), ((0, 5), (4, 5), False), ((6, 0), (6, 20), True), ((0, 9), (20, 9), False)):
            self.assertEqual(crosses(one, other, (4, 4, 8, 8)), wanted, (one, other))

    def test_colours(self) -> None:
        for name, colour in picture.COLOURS.items():
            with self.subTest(name):
                self.assertGreaterEqual(contrast(parts_of(colour), parts_of(picture.GROUND)), 4.5)

    def test_a_key_of_what_is_there(self) -> None:
        keys = {"view-change.txt": ["normal", "change", "client", "tick", "stop", "start", "view"], "redirect.txt": ["client"], "bad-slot.txt": ["normal", "repair", "client", "tick"]}
        told = dict(picture.KEY + picture.MARKS)
        for name, wanted in keys.items():
            svg = picture.Picture(read_run(str(EXAMPLES / name))).svg()
            with self.subTest(name):
                self.assertEqual([words for words in told.values() if f">{words}</text>" in svg], [told[key] for key in wanted])

    def run_script(self, name: str, *words: str) -> "subprocess.CompletedProcess[str]":
        return subprocess.run(words_of_module(f"nozhgiva_tools.pages.{name}", *words), stdout=subprocess.PIPE, stderr=subprocess.PIPE, text=True, check=False)

    def test_words(self) -> None:
        """How the scripts end, and that they end in a sentence."""
        with tempfile.TemporaryDirectory() as folder:
            files = {"empty": b"", "hello": b"hello\n", "bytes": b"\xff\xfe\n", "outputs": b"commit 0 op 1 view 0 client 7 request 0 register\n"}
            for name, text in files.items():
                (Path(folder) / name).write_bytes(text)
            rows: Rows = [((), 2), (("--no",), 2), (("a", "b"), 2), (("--help",), 0), (("missing",), 3), ((folder,), 3)]
            rows += [((os.path.join(folder, name),), 3) for name in ("empty", "hello", "bytes")]
            more: List[Tuple[str, Rows]] = [
                ("draw", [((os.path.join(folder, "outputs"),), 3)]), ("explore", [(("--members", os.path.join(folder, name)), 3) for name in ("empty", "hello")])]
            for script, its in more:
                for words, code in rows + its:
                    with self.subTest(script=script, words=words):
                        made = self.run_script(script, *words)
                        self.assertEqual(made.returncode, code, made.stderr)
                        self.assertNotIn("Traceback", made.stderr)
                        self.assertEqual(code == 3, bool(re.fullmatch(rf"{script}: .+\n", made.stderr)), made.stderr)

    def test_nobody_reads(self) -> None:
        for script in ("draw", "explore"):
            read, write = os.pipe()
            os.close(read)
            made = subprocess.run(words_of_module(f"nozhgiva_tools.pages.{script}", str(EXAMPLES / "put-get.txt")), stdout=write, stderr=subprocess.PIPE, check=False)
            os.close(write)
            self.assertEqual((made.returncode, made.stderr), (0, b""), script)


if __name__ == "__main__":
    unittest.main()
