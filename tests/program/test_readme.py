"""Runs the lines of README.md as they stand there, twice: those that need no program without one, and those on the Python client. Afterwards nothing may be left of
what they started, nor of the files that they made, but for those that they name.

  ./nozhgiva test readme"""

import os
import shutil
import subprocess
import sys
from pathlib import Path
from typing import Dict, Iterator, List

from nozhgiva_tools.places import TOP

# What there is without a toolchain: bash, Python, and what scripts of a shell are made of.
TOOLS = "bash sh env dirname realpath basename cat sed awk grep mktemp rm mkdir find head tail"
CLIENT = "Use it from Python"
SAID = ["color is green", "color is None", "3"]


def block(part: str, wanted: int = 1) -> List[str]:
    """The lines of a part of README.md that stand four spaces in: the first of such blocks, or the one whose number is given. The first part has no heading."""
    at, inside, number, found = part == "", False, 0, []  # type: bool, bool, int, List[str]
    for line in (TOP / "README.md").read_text(encoding="utf-8").splitlines():
        if line.startswith("## "):
            at, number = line == f"## {part}", 0
        if at and (not line or line.startswith("    ")):
            number += not inside and bool(line)
            inside = inside or bool(line)
            if inside and number == wanted:
                found.append(line[4:])
        else:
            inside = False
    return found


class Reader:
    """Somebody who types lines of README.md."""

    def __init__(self, folder: Path, program: str) -> None:
        self.folder, self.named, self.left, self.bare = folder, folder / "named", folder / "left", folder / "bare"
        for path in (self.named, self.left, self.bare):
            path.mkdir()
        for tool in TOOLS.split():
            found = shutil.which(tool)
            if found:
                (self.bare / tool).symlink_to(found)
        (self.bare / "python3").symlink_to(sys.executable)
        self.env: Dict[str, str] = {**os.environ, "PYTHONDONTWRITEBYTECODE": "1", "TMPDIR": str(self.left), "NOZHGIVA_PROGRAM": program}

    def twice(self, what: str, lines: List[str], **env: str) -> str:
        """Runs lines two times, and each time they have to say the same, which is given."""
        script = self.folder / "lines"
        script.write_text("".join(f"{line}\n" for line in lines), encoding="utf-8")
        said = []
        for time in (1, 2):
            ran = subprocess.run(["bash", "-e", str(script)], cwd=TOP, env={**self.env, **env}, stdin=subprocess.DEVNULL, capture_output=True, text=True, check=False)
            assert ran.returncode == 0, f"{what}, time {time}: {ran.stderr}"
            said.append(ran.stdout)
        assert said[0] == said[1], f"{what}: the second time it says otherwise"
        return said[1]

    def processes(self) -> Iterator[str]:
        """The processes that have its folder among their words."""
        for path in Path("/proc").glob("[0-9]*/cmdline"):
            try:
                words = path.read_bytes().replace(b"\0", b" ").decode(errors="replace")
            except OSError:
                continue
            if str(self.left) in words:
                yield words


def test_its_lines_run_twice_as_they_stand_and_leave_nothing(program: str, tmp_path: Path) -> None:
    reader = Reader(tmp_path, program)
    without = [line.replace("/tmp/", f"{reader.named}/") for line in block("")]
    assert without, "no line that needs no program"
    reader.twice("what needs no program", without, PATH=str(reader.bare), NOZHGIVA_PROGRAM="")
    assert "</html>" in (reader.named / "run.html").read_text(encoding="utf-8")
    assert "</svg>" in (reader.named / "run.svg").read_text(encoding="utf-8")
    own = tmp_path / "own.py"
    own.write_text("\n".join(block(CLIENT, 2)) + "\n", encoding="utf-8")
    lines = block(CLIENT)
    assert reader.twice("the client", [*lines, *(line.replace("examples/hello.py", str(own)) for line in lines)]).splitlines() == SAID
    assert os.listdir(reader.left) == []
    assert sorted(os.listdir(reader.named)) == ["run.html", "run.svg"]
    assert list(reader.processes()) == []
