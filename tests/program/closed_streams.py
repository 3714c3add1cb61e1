"""Starts the program without its standard input, output or error, or without several of them, as `PROGRAM <&- >&- 2>&-` does. A file or socket that it
opens must not take such a stream's place: no line may be written over a member's file, and nothing that comes may be read as input.
  ./nozhgiva test closed-streams
A member needs no input and no error stream, so it runs without them; a command that has to write its output, or to read its input, ends with the code for
that. Each row is: what is closed, the exit code, and whether the file is that of the same run with all streams open."""

import argparse
import hashlib
import itertools
import os
import pathlib
import shutil
import subprocess
import tempfile
from functools import partial
from typing import Any, Callable, Dict, List, Sequence, Tuple

from nozhgiva_tools.run.built import or_end as program
from nozhgiva_tools.run.group import Group
from nozhgiva_tools.run.scripts import end, fail
from nozhgiva_tools.told.ends import Code

NAMES = ["input", "output", "error"]
CLOSINGS = [closed for count in (1, 2, 3) for closed in itertools.combinations(range(3), count)]


def addresses(scheme: str) -> List[str]:
    """Three of this machine that no other process has now."""
    base = 21000 + os.getpid() * 3 % 9000
    return [f"{scheme}127.0.0.1:{base + r}" for r in range(3)]


def without(closed: Sequence[int], words: Sequence[str], **streams: Any) -> int:
    """The exit code of the program with these streams closed, and all others at /dev/null but for those that are handed in."""
    closing = " ".join(f"{fd}{'<' if fd == 0 else '>'}&-" for fd in closed)
    given: Dict[str, Any] = {"stdin": subprocess.DEVNULL, "stdout": subprocess.DEVNULL, "stderr": subprocess.DEVNULL, **streams}
    code: int = subprocess.run(["sh", "-c", f'exec "$@" {closing}', "sh", program(), *words], timeout=60, check=False, **given).returncode
    return code


def sum_of(path: str) -> str:
    return hashlib.sha256(pathlib.Path(path).read_bytes()).hexdigest()


class Rows:
    """What was tried, a line each, and how many went wrong."""

    def __init__(self) -> None:
        self.wrong = 0

    def add(self, what: str, closed: Sequence[int], code: int, wanted: int, same: bool = True) -> None:
        names = ", ".join(NAMES[fd] for fd in closed)
        well = code == wanted and same
        self.wrong += not well
        print(f"{'' if well else 'WRONG: '}{what}, closed: {names}: {code}{'' if code == wanted else f' in place of {wanted:d}'}{'' if same else ', the file is another'}")


def try_file(rows: Rows, folder: str, what: str, words: Callable[[str], List[str]], wanted: Callable[[Sequence[int]], int]) -> None:
    """Runs a command on a copy of a member's file with each closing, and compares it with that of the run with all streams open."""
    path = f"{folder}/file"

    def run(closed: Sequence[int]) -> Tuple[int, str]:
        shutil.copy(f"{folder}/prepared", path)
        code = without(closed, words(path))
        return code, sum_of(path)

    code, whole = run(())
    if code != Code.DONE:
        fail(f"{what} with all streams open ends with {code}")
    for closed in CLOSINGS:
        code, found = run(closed)
        rows.add(what, closed, code, wanted(closed), found == whole)


def needs_output(closed: Sequence[int]) -> int:
    return Code.WRITE_FAULT if 1 in closed else Code.DONE


def try_commands(rows: Rows, folder: str) -> None:
    """Commands that take no file: what is closed is an input or an output that fails. A trial starts members, with streams of their own."""
    with open(f"{folder}/schedule", "w", encoding="ascii") as made:
        made.write("cluster 2\nrequest 1 7 0 register\n")
    for closed in ((0,), (1,), (0, 1)):
        with open(f"{folder}/schedule", "rb") as schedule:
            rows.add("replay", closed, without(closed, ["replay"], stdin=schedule), Code.READ_FAULT if 0 in closed else Code.WRITE_FAULT)
    rows.add("soak", (1,), without((1,), ["soak", "1", "100"]), Code.WRITE_FAULT)
    for closed in ((0, 2), (1,)):
        rows.add("trial", closed, without(closed, ["trial", "5", "10000", f"{folder}/{len(closed)}.", *addresses("")]), needs_output(closed))


def try_client(rows: Rows, scheme: str) -> None:
    """A client whose input is closed registers, and then can't read what to ask; one whose output is closed can't tell that it registered."""
    with Group(scheme=scheme) as group:
        group.start_all()
        group.ask(1, ["put color green"])
        for closed, wanted in (((0,), Code.READ_FAULT), ((1,), Code.WRITE_FAULT)):
            rows.add(f"client over {scheme or 'udp:'}", closed, without(closed, ["client", "5", "7", "10000", *group.addresses]), wanted)


def member(scheme: str, path: str, *more: str) -> List[str]:
    """The words of a member that starts, of which it tells a line, and ends after a turn."""
    return ["node", "5", "0", path, "1", *addresses(scheme), *more]


def main() -> None:
    argparse.ArgumentParser(description=__doc__, formatter_class=argparse.RawDescriptionHelpFormatter).parse_args()
    rows = Rows()
    with tempfile.TemporaryDirectory() as folder:
        if without((), member("", f"{folder}/prepared", "--fresh")) != Code.DONE:
            fail("no member's file could be made")
        for scheme in ("", "tcp:"):
            try_file(rows, folder, f"node over {scheme or 'udp:'}", partial(member, scheme), needs_output)
        try_file(rows, folder, "migrate", lambda path: ["migrate", "5", "0", "3", path], lambda _: Code.DONE)
        try_commands(rows, folder)
    for scheme in ("", "tcp:"):
        try_client(rows, scheme)
    if rows.wrong:
        fail(f"{rows.wrong} rows are wrong")
    print("no file and no socket took the place of a closed stream")


if __name__ == "__main__":
    end(main)
