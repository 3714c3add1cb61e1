"""The page's program under node, beside the native one: the same bytes, the same refusals, the same sums; and the watch, which sees what is broken.
PLAY_LONG=1 takes 300 schedules and 20 numbers in place of a few."""

import hashlib
import json
import os
import subprocess
import sys
import tempfile
import unittest
from pathlib import Path
from typing import Any, List, Tuple

from nozhgiva_tools.places import EXAMPLES, words_of_module
from tests.program import soak_check

from .making import LONG, NODE, NODE_REASON, NODE_WORDS, PROGRAM, WASM
from .schedules import schedule

HERE = Path(__file__).resolve().parent
SCHEDULES, LINES = (300, 260) if LONG else (12, 160)
SEEDS, COUNT = (20, 2000) if LONG else (4, 300)
ANEW_MS, STEP_MS = 250, 50

# A schedule's lines so far, the next line, and whether it is refused (docs/SCHEDULE.md, "Lines of a schedule" and "Why a line is refused").
THREE, TWO_V2 = ["cluster 3"], ["cluster 2 v2"]
Rows = List[Tuple[List[str], str]]
"""The lines before, and a line."""
REFUSED: Rows = [
    ([], ""), ([], "cluster 1"), ([], "cluster 7"), ([], "cluster 0 v2"), ([], "cluster 3 v2 careful"), ([], "cluster 3 strict"), ([], "tick 0"), ([], "cluster 03"), ([], " cluster 3"),
    (THREE, "cluster 3"), (THREE, ""), (THREE, "# a comment"), (THREE, "tick 3"), (THREE, "tick"), (THREE, "tick 0 "), (THREE, "tick  0"), (THREE, "tick 0 0"), (THREE, "tick 00"),
    (THREE, "tick +1"), (THREE, "tick -1"), (THREE, "Tick 0"), (THREE, "tick\t0"), (THREE, "tick 0\r"), (THREE, "deliver"), (THREE, "deliver x"), (THREE, f"deliver {2**64}"),
    (THREE, "request 0 0 0 register"), (THREE, "request 0 7 1 register"), (THREE, "request 0 7 0 put a b"), (THREE, "request 0 7 1 put a"), (THREE, "request 0 7 1 put a b c"),
    (THREE, "request 0 7 1 get"), (THREE, "request 0 7 1 del a b"), (THREE, "request 0 7 1 cut a"), (THREE, "request 0 7 1"), (THREE, f"request 0 7 {2**32} get a"),
    (THREE, f"request 0 {2**64} 0 register"), (THREE, f"request 0 7 1 get {'k' * 65}"), (THREE, f"request 0 7 1 put a {'v' * 1025}"), (TWO_V2, f"request 0 7 1 put a {'v' * 3001}"),
    (THREE, "request 0 7 1 get caf\u00e9"), (THREE, "damage 0 1424"), (TWO_V2, "damage 0 3984"), (THREE, "stale 0"), (THREE, "unread 3 0"), (THREE, "misdirect 0 5 5"),
    (THREE, "misdirect 0 5"), (THREE, "misdirect 0 5 1424"), (THREE, "fuse 0 0 0"), (THREE, "fuse 0 1000001 0"), (THREE, f"fuse 0 1 {2**64}"), (THREE, "fuse 0 1"),
    (THREE, "migrate"), (THREE, "start 0 now"), (THREE, "nonsense"), (THREE, "constructor 0"), (THREE, "request 0 7 1 toString a"), (THREE, "x" * 1136),
]
TAKEN: Rows = [
    ([], "cluster 1 v2"), ([], "cluster 6 careful v2"), (THREE, f"deliver {2**64 - 1}"), (THREE, f"request 2 {2**64 - 1} {2**32 - 1} get {'k' * 64}"), (THREE, "request 0 7 0 register"),
    (THREE, f"request 0 7 1 put a {'v' * 1024}"), (TWO_V2, f"request 1 7 1 put a {'v' * 3000}"), (THREE, "request 0 7 1 put !~ ~!"), (THREE, "damage 2 1423"), (TWO_V2, "damage 1 3983"),
    (THREE, "misdirect 0 0 1423"), (THREE, f"fuse 0 1000000 {2**64 - 1}"), (THREE, "migrate 0"), (THREE, "tick 0"), (THREE, "deliver 0"),
]


def native(*words: str, text: bytes = b"") -> "subprocess.CompletedProcess[bytes]":
    """A run of the native program."""
    return subprocess.run([PROGRAM, *words], input=text, capture_output=True, check=False)


def at_work(*words: str) -> Any:
    """What the page's parts come to under node (at_work.mjs)."""
    made = subprocess.run([*NODE_WORDS, str(HERE / "at_work.mjs"), str(WASM), *words], capture_output=True, check=False)
    if made.returncode:
        raise AssertionError(made.stderr.decode())
    return json.loads(made.stdout)


def text_of(lines: List[str]) -> bytes:
    """A schedule as it is read."""
    return "".join(line + "\n" for line in lines).encode()


@unittest.skipIf(NODE_REASON, NODE_REASON)
class SameBytes(unittest.TestCase):
    """The program in WebAssembly writes what the native one does."""

    def setUp(self) -> None:
        folder = tempfile.TemporaryDirectory()
        self.addCleanup(folder.cleanup)
        self.folder = Path(folder.name)

    def test_random_schedules(self) -> None:
        files, wanted, kinds = [], [], set()
        for seed in range(SCHEDULES):
            lines = schedule(seed, LINES)
            kinds |= {line.split()[0] for line in lines}
            files.append(self.folder / f"{seed}.txt")
            files[-1].write_bytes(text_of(lines))
            made = native("replay", text=text_of(lines))
            digest = hashlib.sha256(made.stdout).hexdigest()
            wanted.append({"whole": digest, "status": 0, "stepped": digest, "ending": "", "broken": []})
            self.assertEqual(made.returncode, 0, f"schedule {seed}: {made.stderr.decode()}")
        self.assertEqual(len(kinds), 12, "all lines of the language")
        for seed, (made, want) in enumerate(zip(at_work("replay", *map(str, files)), wanted)):
            self.assertEqual(made, want, f"schedule {seed}")

    def test_numbers_that_surprise(self) -> None:
        seeds = [str(seed) for seed in [0, 7, 2**64 - 1, *range(100, 100 + SEEDS - 3)]]
        for drawn in at_work("soak", str(COUNT), *seeds):
            summary = native("soak", drawn["seed"], str(COUNT)).stdout.decode()
            self.assertEqual(drawn["summary"], summary)
            self.assertEqual(drawn["sum"], summary.split()[-1], f"the lines of {drawn['seed']}, played one by one")

    @unittest.skipUnless(LONG, "PLAY_LONG=1 measures")
    def test_how_soon(self) -> None:
        made = at_work("times", str(self.long_schedule()))
        print(made, file=sys.stderr)
        self.assertLess(made["anew"], ANEW_MS)
        self.assertLess(made["more"], STEP_MS)

    def long_schedule(self) -> Path:
        path = self.folder / "long.txt"
        subprocess.run(words_of_module(soak_check, "7", "2000", str(path)), env={**os.environ, "NOZHGIVA_PROGRAM": PROGRAM}, check=True, capture_output=True)
        return path


@unittest.skipIf(NODE_REASON, NODE_REASON)
class Lines(unittest.TestCase):
    """Why a line is refused: the page says a reason exactly where the program refuses."""

    def test_refusals(self) -> None:
        with tempfile.NamedTemporaryFile("w", suffix=".json") as file:
            json.dump(REFUSED + TAKEN, file)
            file.flush()
            reasons = at_work("why", file.name)
        for (before, line), reason in zip(REFUSED + TAKEN, reasons):
            made = native("replay", text=text_of([*before, line]))
            is_refused = (before, line) in REFUSED
            wanted = (3, f"refused: line {len(before) + 1}") if is_refused else (0, "")
            self.assertEqual((made.returncode, made.stderr.decode().strip()), wanted, repr(line[:60]))
            self.assertEqual(bool(reason), is_refused, f"{line[:60]!r}: {reason}")

    def test_addresses(self) -> None:
        made = at_work("address", str(EXAMPLES / "view-change.txt"))
        self.assertEqual((made["same"], made["at"], made["lost"], made["broken"]), (True, 2, [3, 5], None))

    def test_scenes(self) -> None:
        for scene in at_work("scenes"):
            self.assertEqual(scene["before"], {"ending": "", "solved": False}, scene["title"])
            self.assertEqual(scene["after"], {"ending": "", "solved": True}, scene["title"])


@unittest.skipUnless(NODE, "no node")
class Watching(unittest.TestCase):
    """The watch finds each promise broken where outputs are forged, that one alone, and none in what the program writes (SameBytes)."""

    def test_forged_outputs(self) -> None:
        made = subprocess.run([NODE, str(HERE / "forged.mjs")], capture_output=True, text=True, check=False)
        self.assertEqual(made.stderr, "")
        rows = json.loads(made.stdout)
        self.assertEqual({promise for row in rows for promise in row["wanted"]}, {"lines", "one", "rests", "replies", "once", "kept", "cut"})
        for row in rows:
            self.assertEqual(row["broken"], row["wanted"], row["name"])


if __name__ == "__main__":
    unittest.main()
