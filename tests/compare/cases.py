"""Schedules, soaks and hostile input, on which the two programs are run."""

from __future__ import annotations

import random
import shutil
from functools import partial
from pathlib import Path
from typing import Callable, Iterator, List, NamedTuple, Tuple

from nozhgiva_tools.places import EXAMPLES, ROWS

from . import Case, Given, ran

SOAK_LINES = 1000
SPOILED = 3  # schedules that are made of each example
SEED = 1
SECTOR = 512
COPIES = tuple(20 * copy * SECTOR for copy in range(4))  # where the copies of the superblock begin
HEADERS, PREPARES, GRID, END = (at * SECTOR for at in (80, 144, 400, 3984))
CLUSTER = "5"


class Prepared(NamedTuple):
    """The data file of member 0 of a group of three that was asked, and the addresses of the group."""

    file: str
    addresses: Tuple[str, ...]


def replay(schedule: bytes) -> Callable[[str, str], Given]:
    return lambda program, folder: ran(program, ["replay"], schedule)


# ---- schedules

def schedule_of(path: Path) -> bytes:
    """The lines of an example, without comments and old outputs."""
    lines = path.read_bytes().splitlines(keepends=True)
    return b"".join(line for line in lines if line.strip() and line[:1] not in b" #")


def example_paths() -> List[Path]:
    return sorted(path for pattern in ("*.txt", "standstills/*.txt") for path in EXAMPLES.glob(pattern))


def examples() -> Iterator[Case]:
    for path in example_paths():
        yield Case(path.name, replay(schedule_of(path)))


def soak(seed: int, program: str, _: str) -> Given:
    return ran(program, ["soak", str(seed), str(SOAK_LINES)])


def soaks(count: int) -> Iterator[Case]:
    for seed in range(count):
        yield Case(f"soak {seed} {SOAK_LINES}", partial(soak, seed))


# ---- hostile input

def rows() -> Iterator[Case]:
    """The schedules of tests/rows/schedules, many of which are refused."""
    for row in (ROWS / "schedules" / "stdin").read_bytes().split(b"== ")[1:]:
        title, *lines = row.splitlines(keepends=True)
        schedule = b"".join(line[2:] if line.startswith(b"- ") else line for line in lines)
        yield Case(f"row: {title.decode().strip()}", replay(schedule))


def spoil(schedule: bytes, chance: random.Random) -> bytes:
    """A schedule that isn't quite as it was."""
    lines = schedule.splitlines(keepends=True)
    line, other, at = chance.randrange(len(lines)), chance.randrange(len(lines)), chance.randrange(len(schedule))
    way = chance.randrange(6)
    if way == 0:
        return schedule[:at] + bytes([chance.randrange(256)]) + schedule[at + 1:]
    if way == 1:
        return schedule[:at] + schedule[at + 1:]
    if way == 2:
        return schedule[:at]
    if way == 3:
        return b"".join([*lines[:line], lines[other], *lines[line:]])
    if way == 4:
        return b"".join([*lines[:line], *lines[line + 1:]])
    lines[line], lines[other] = lines[other], lines[line]
    return b"".join(lines)


def spoiled() -> Iterator[Case]:
    chance = random.Random(SEED)
    for path in example_paths():
        for number in range(SPOILED):
            yield Case(f"spoiled {path.name}, {number}", replay(spoil(schedule_of(path), chance)))


def odd_bytes() -> Iterator[Case]:
    whole = schedule_of(EXAMPLES / "put-get.txt")
    schedules = {
        "nothing": b"", "no last line end": whole[:-1], "CR before each line end": whole.replace(b"\n", b"\r\n"), "zeros": whole + bytes(5000),
        "a line of a million bytes": whole + b"a" * 10**6, "not UTF-8": whole + b"\xff\xfe\n", "empty lines": whole + b"\n\n"}
    for name, schedule in schedules.items():
        yield Case(f"bytes: {name}", replay(schedule))


def take_words(line: str, program: str, folder: str) -> Given:
    return ran(program, line.split()[1:], folder=folder)


def refused_words() -> Iterator[Case]:
    """The command lines of tests/rows/commands that have none of the forms."""
    lines = (ROWS / "commands" / "stdout").read_text(encoding="utf-8").splitlines()
    for line, read in zip(lines, lines[1:]):
        if line.startswith("words") and read == "  usage":
            yield Case(f"words: {line[6:]}", partial(take_words, line))


def damages() -> Iterator[Tuple[str, Callable[[bytearray], object]]]:
    """What is done to a data file."""
    yield "as it was", lambda data: None
    for k, at in enumerate(COPIES):
        yield f"copy {k} of the superblock", partial(flip, places=[at])
        yield f"copies but {k}", partial(flip, places=[other for other in COPIES if other != at])
    for k in range(4):
        yield f"a later sector of copy {k}", partial(flip, places=[COPIES[k] + 7 * SECTOR])
    yield "each copy", partial(flip, places=COPIES)
    yield "each header sector", partial(flip, places=range(HEADERS, PREPARES, SECTOR))
    yield "each prepare", partial(flip, places=range(PREPARES, GRID, SECTOR))
    yield "each block", partial(flip, places=range(GRID, END, SECTOR))
    for slot in range(0, 64, 16):
        yield f"header sector of slot {slot}", partial(flip, places=[HEADERS + slot * SECTOR + 40])
        yield f"prepare of slot {slot}", partial(flip, places=[PREPARES + 4 * slot * SECTOR + 40])
        yield f"slot {slot}", partial(flip, places=[HEADERS + slot * SECTOR + 40, PREPARES + 4 * slot * SECTOR + 40])
    for size in (0, 1, SECTOR, HEADERS, END - 1):
        yield f"cut to {size} bytes", partial(cut, size=size)
    yield "longer", lambda data: data.extend(bytes(SECTOR))
    yield "of drawn bytes", lambda data: data.__setitem__(slice(None), random.Random(SEED).getrandbits(8 * END).to_bytes(END, "little"))


def flip(data: bytearray, places: "range | List[int] | Tuple[int, ...]") -> None:
    for at in places:
        data[at] ^= 0x10


def cut(data: bytearray, size: int) -> None:
    del data[size:]


def files(prepared: Prepared) -> Iterator[Case]:
    """Members that are started on a file that was damaged, for a turn, and its migration."""
    whole = Path(prepared.file).read_bytes()
    for name, damage in damages():
        data = bytearray(whole)
        damage(data)
        yield Case(f"file: {name}", partial(opened, bytes(data), prepared.addresses))


def opened(data: bytes, addresses: Tuple[str, ...], program: str, folder: str) -> Given:
    given: Given = {}
    for name, words in (("node", ["node", CLUSTER, "0", "file", "1", *addresses]), ("migrate", ["migrate", CLUSTER, "0", "3", "file"]),
                        ("other", ["node", CLUSTER, "1", "file", "1", *addresses]), ("fresh", ["node", CLUSTER, "0", "file", "1", *addresses, "--fresh"])):
        file = Path(folder, name, "file")
        file.parent.mkdir()
        file.write_bytes(data)
        given.update({f"{name}, {part}": what for part, what in ran(program, words, folder=str(file.parent)).items()})
        given[f"{name}, file"] = file.read_bytes()
        shutil.rmtree(file.parent)
    return given


def hostile(prepared: Prepared) -> Iterator[Case]:
    yield from rows()
    yield from spoiled()
    yield from odd_bytes()
    yield from refused_words()
    yield from files(prepared)
