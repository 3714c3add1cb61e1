"""A program with a quorum that is too small, planted: its page is refused where its sources are no longer there, and the watch finds it out at the first
request. PLAY_PLANTED=1 runs this; it compiles the program twice, which takes some seven minutes of a processor."""

import json
import os
import shutil
import subprocess
import tempfile
import unittest
from pathlib import Path
from typing import List

from nozhgiva_tools.places import TOP

from .making import NODE_WORDS

HERE = Path(__file__).resolve().parent
SOURCE, RIGHT, WRONG = "crates/vr_base/src/groups.rt", "        3 => (2, 2, 2),\n", "        3 => (1, 3, 3),\n"
FIRST_REQUEST = "cluster 3\nrequest 0 7 0 register\n"
REASON = "PLAY_PLANTED=1 compiles a wrong program" if os.environ.get("PLAY_PLANTED") != "1" else "" if NODE_WORDS else "no node that takes a memory of 64 bits"


@unittest.skipIf(REASON, REASON)
class Planted(unittest.TestCase):
    def setUp(self) -> None:
        room = tempfile.TemporaryDirectory()
        self.addCleanup(room.cleanup)
        self.top = Path(room.name) / "clone"
        for name in ("crates", "tools", "docs", "examples"):
            shutil.copytree(TOP / name, self.top / name, ignore=shutil.ignore_patterns("out", "__pycache__"))
        for name in ("nozhgiva", "VERSION", "crates.txt"):
            shutil.copy2(TOP / name, self.top / name)

    def call(self, *words: str, **env: str) -> "subprocess.CompletedProcess[bytes]":
        return subprocess.run([str(self.top / "nozhgiva"), *words], env={**os.environ, **env}, stdout=subprocess.PIPE, check=False)

    def broken(self, program: Path) -> List[object]:
        """What the watch finds broken, and at which line."""
        schedule = self.top.parent / "first.txt"
        schedule.write_text(FIRST_REQUEST, encoding="ascii")
        ran = subprocess.run([*NODE_WORDS, str(HERE / "at_work.mjs"), str(program), "replay", str(schedule)], stdout=subprocess.PIPE, check=True)
        return [(one["promise"], one["step"]) for one in json.loads(ran.stdout)[0]["broken"]]

    def test_a_quorum_of_one(self) -> None:
        source = self.top / SOURCE
        text, times = source.read_text(encoding="utf-8"), source.stat()
        self.assertEqual(text.count(RIGHT), 1)
        source.write_text(text.replace(RIGHT, WRONG), encoding="utf-8")
        self.assertEqual(self.call("build").returncode, 0)
        source.write_text(text, encoding="utf-8")
        os.utime(source, ns=(times.st_atime_ns, times.st_mtime_ns))
        self.assertEqual(self.call("play").returncode, 3)
        # Named, the module is taken: the page is that of the wrong program.
        made = self.call("play", "--wasm", PLAY_MODULE=str(self.top / "out" / "nozhgiva.bc"))
        self.assertEqual(made.returncode, 0)
        program = self.top.parent / "wrong.wasm"
        program.write_bytes(made.stdout)
        self.assertEqual(self.broken(program), [("rests", 1)])


if __name__ == "__main__":
    unittest.main()
