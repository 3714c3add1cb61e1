"""What ./nozhgiva clauses tells of two checkouts: a name counts for what it stands for."""

import subprocess
import sys
import tempfile
from typing import Dict, List

import pytest

from nozhgiva_tools.house.addressing import Tree
from nozhgiva_tools.house.addressing.contracts import Meanings
from nozhgiva_tools.house.clauses import tell
from nozhgiva_tools.places import TOOLS

from .test_believing import CRATES, laid

ROOMS, RUNS, COMMAND = "crates/vr_low/specs/Rooms.antt", "crates/vr_top/specs/Runs.antt", "crates/vr_top/src/command.rt"


def told(changes: Dict[str, str]) -> List[str]:
    with tempfile.TemporaryDirectory() as before, tempfile.TemporaryDirectory() as now:
        return list(tell((Meanings(Tree(laid(before, {}))), Meanings(Tree(laid(now, changes))))))


def changed(path: str, old: str, new: str) -> Dict[str, str]:
    assert old in CRATES[path]
    return {path: CRATES[path].replace(old, new)}


def test_nothing_differs() -> None:
    assert told({}) == ["before: 2 functions with 3 clauses; now: 2 functions with 3 clauses; moved as they are: 0", "of both read otherwise: 0; gone: 0; new: 0"]


def test_another_name_is_no_difference() -> None:
    assert told({**changed(ROOMS, "few", "scarce")})[-1] == "of both read otherwise: 0; gone: 0; new: 0"


@pytest.mark.parametrize("path, old, new, place", [
    (ROOMS, "  MOST\n", "  MOST MOST\n", "vr_low.specs.Rooms.few"),
    ("crates/vr_low/src/lib.rt", "usize = 3", "usize = 4", "vr_low.MOST"),
    ("crates/vr_low/src/room.rt", "doors_of room };", "room };", "vr_low.room.Room")])
def test_a_definition_far_below(path: str, old: str, new: str, place: str) -> None:
    lines = told(changed(path, old, new))
    assert lines[-1] == "of both read otherwise: 2; gone: 0; new: 0"
    assert any(line.startswith(f"definition {place}, of 2 ") for line in lines)


def test_a_clause_that_goes_and_one_that_comes() -> None:
    lines = told(changed(COMMAND, "    ensures other { IsQuiet size }\n", "    requires { IsQuiet size }\n"))
    assert lines[1:] == ["clauses of vr_top.command.run:", "    - ensures other { IsQuiet size }", "    + requires { IsQuiet size }",
                         "of both read otherwise: 1; gone: 0; new: 0"]


def test_functions_that_move_come_and_go() -> None:
    room = CRATES["crates/vr_low/src/room.rt"]
    front, function = room.split("pub fn open", 1)
    lines = told({"crates/vr_low/src/room.rt": front, "crates/vr_low/src/door.rt": "ghost use Rattle.vr_low.specs.Rooms.{doors_of};\nuse crate::room::Room;\n\npub fn open" + function})
    assert lines[0].endswith("moved as they are: 1")
    assert lines[1:] == ["of both read otherwise: 0; gone: 0; new: 0"]
    lines = told({"crates/vr_low/src/room.rt": front})
    assert lines[1:] == ["gone: vr_low.room.open", "of both read otherwise: 0; gone: 1; new: 0"]
    lines = told({"crates/vr_low/src/room.rt": room + "pub fn close(room: &Room)\n    ensures { room ≡ room }\n{}\n"})
    assert lines[1:] == ["new: vr_low.room.close", "of both read otherwise: 0; gone: 0; new: 1"]


def test_a_commit_that_is_none() -> None:
    done = subprocess.run([sys.executable, "-B", str(TOOLS), "clauses", "no-such-commit"], capture_output=True, text=True, check=False)
    assert done.returncode == 2 and "there is no commit no-such-commit" in done.stderr
