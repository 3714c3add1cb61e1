"""Walks through recordings, and draws crash states at their crash points: before each sync of a file or of its folder, and at the end."""

import collections
import itertools
import random
from typing import Deque, Iterator, List, NamedTuple, Tuple

from .damage import on_top, PutBack, swap_pages
from .disk import Disk, SECTORS_ALONE
from .judging import Case
from .reading import datafile
from .scenarios import is_point, Part, Recording
from .told import Told

# A round goes through all points in so many passes, so that a run that is cut short has seen some of everything.
PASSES = 32
# Of so many states one has damage on top.
DAMAGED = 10
SUPERBLOCK = 4 * datafile.COPY
# Of the superblock that is put back, so many changes of a copy before; a save changes four.
CHANGES = 10
# Planted faults, in words, with how many syncs the disk forgets.
SYNCS, COPY, PAGE = "syncs that do nothing", "an older superblock put back", "two pages of prepares swapped"
FORGOTTEN = 4


class Way(NamedTuple):
    """How states are drawn: by which number, how many at a point in a round, which fault is planted, if one is; and which of how many shares of the
    points is gone through; how many sectors the disk writes as one."""

    seed: int
    each: int
    plant: str = ""
    share: int = 0
    shares: int = 1
    unit: int = SECTORS_ALONE

    def has(self, turn: int, count: int) -> bool:
        """Whether a turn has the point of this number of a member."""
        return count % PASSES == turn % PASSES and (count // PASSES + turn) % self.shares == self.share


class Point(NamedTuple):
    """A crash point: of which member, which of its calls comes next, and what the disk and others had then."""

    member: int
    at: int
    disk: Disk
    told: Told
    older: bytes


def points(part: Part, member: int, lag: int) -> Iterator[Point]:
    """The crash points of a member, in order. The disk is that of the walk, which goes on."""
    disk, left = part.disk.copy(lag), iter(part.accounts)
    # The superblock after each of the last changes of a copy; the first of them is of an earlier value than any that the file may still open as.
    regions: Deque[bytes] = collections.deque([b""], CHANGES)
    for at, call in enumerate(part.calls):
        if is_point(part.calls, at):
            yield Point(member, at, disk, next(left), regions[0])
        disk.take(call)
        if call.kind == "sync" and disk.sure[:SUPERBLOCK] != regions[-1]:
            regions.append(bytes(disk.sure[:SUPERBLOCK]))
    yield Point(member, len(part.calls), disk, next(left), regions[0])


def cases(recordings: List[Recording], way: Way) -> Iterator[Tuple[str, bool, Case]]:
    """Cases without end, each with its scenario's name, and whether it is the first of its point. The same number over the same recordings gives
    the same ones."""
    parts = [(recording, member, part) for recording in recordings for member, part in enumerate(recording.parts)]
    for turn in itertools.count():
        for recording, member, part in parts:
            for count, point in enumerate(points(part, member, FORGOTTEN if way.plant == SYNCS else 0)):
                if way.has(turn, count):
                    yield from drawn(recording, point, way, turn // PASSES)


def drawn(recording: Recording, point: Point, way: Way, round_: int) -> Iterator[Tuple[str, bool, Case]]:
    """The cases of one point in one round. In later rounds the states with none and with all of the unsynced sectors aren't drawn again."""
    scenario, begin = recording.scenario, 0 if round_ == 0 else 2
    draw = random.Random(f"{way.seed} {scenario.name} {point.member} {point.at} {round_}")
    told = point.told
    for count, state in enumerate(itertools.islice(point.disk.states(draw, way.unit), begin, begin + way.each)):
        number = f"{way.seed} {scenario.name} {point.member} {point.at} {round_} {count}"
        how = "fresh" if scenario.story == "fresh" and not told.spoke else "start"
        if scenario.story == "migrate" and draw.random() < 0.5:
            how = "migrate"
        has_damage = not way.plant and way.unit == SECTORS_ALONE and how == "start" and scenario.size > 1 and draw.randrange(DAMAGED) == 0
        change = on_top if has_damage else PutBack(point.older) if way.plant == COPY and point.older else swap_pages if way.plant == PAGE else None
        case = Case(number, point.member, scenario.size, scenario.version, told, recording.log, state, how, change, has_damage or told.is_damaged or state.is_spoiled)
        yield scenario.name, round_ == 0 and count == 0, case


def case_at(recording: Recording, member: int, at: int, way: Way, round_: int) -> List[Tuple[str, bool, Case]]:
    """The cases of the point before one call of a member, in one round; none where that is no point."""
    if member >= len(recording.parts):
        return []
    part = recording.parts[member]
    return next((list(drawn(recording, it, way, round_)) for it in points(part, member, 0) if it.at == at), [])
