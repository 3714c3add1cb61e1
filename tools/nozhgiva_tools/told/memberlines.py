"""The files that running members write, as lines with their times: plain ones, and what operate/keep and operate/watch write, put aside or not."""

import os
import re
from datetime import datetime, timezone
from typing import Dict, List, NamedTuple, Optional, Tuple

from .lines import owner_of
from .store import FORMS as OPERATIONS

STAMP = re.compile(r"(\d{4}-\d\d-\d\dT\d\d:\d\d:\d\d\.\d{3}Z) (.*)")
REMARK = re.compile(r"(keep|watch): (.*)")
PART = re.compile(r"(.*)\.(\d+)")
MOST_LINES = 20_000
"""The most lines of a member that are read, the last ones."""

NUMBER = r"\d{1,20}"
OPERATION = "(" + "|".join(" ".join([word, *[r"\S+"] * len(names)]) for word, names in OPERATIONS.items()) + ")"
LETTERS = r"([hlwun]+|-)"
OUTCOME = r"(op # (session|ok|full|absent|value \S+)|old|gap|evicted|busy|redirect #)"
MESSAGES = (
    "prepare view # op # made # commit #", "prepare_ok view # op # made #", "commit view # op # commit #", "start_view_change view #",
    "do_view_change view # log # commit # head # parts " + LETTERS, "start_view view # op # commit #", "get_view view #", "get_prepare op # made #",
    "give_prepare op # made #", "get_block #", "give_block #", "get_sync view #", "sync_view view # op # commit # checkpoint #",
)
FORMS = (
    "send # [0-5] [0-5] (" + "|".join(MESSAGES) + ")", "commit [0-5] op # view # client # request # " + OPERATION, "reply [0-5] client # request # " + OUTCOME,
    "choose [0-5] view # log # commit # head # own " + LETTERS, "wait [0-5] view # op #", "start [0-5] view # log_view # commit #", "halt [0-5]",
)
OUTPUT = re.compile("|".join(f"({form})" for form in FORMS).replace("#", NUMBER))


class BadRun(Exception):
    """What was given can't be shown; the text says why."""


class Remark(NamedTuple):
    """What a keeper remarked, and when, where that is told."""

    stamp: Optional[str]
    text: str


class Line(NamedTuple):
    """What a member put out, when where that is told, and what its keeper remarked since the line before."""

    text: str
    stamp: Optional[str] = None
    remarks: Tuple[Remark, ...] = ()

    def seconds(self) -> Optional[float]:
        """Its time, since the epoch."""
        return None if self.stamp is None else seconds_of(self.stamp)


def seconds_of(stamp: str) -> float:
    """A time as keep and watch write it, since the epoch."""
    return datetime.strptime(stamp, "%Y-%m-%dT%H:%M:%S.%fZ").replace(tzinfo=timezone.utc).timestamp()


def read_texts(path: str) -> List[str]:
    with open(path, encoding="ascii", errors="replace") as file:
        texts = file.read().split("\n")
    return texts[:-1]  # What stands behind the last end of a line was cut.


def lines_of(path: str, texts: List[str]) -> List[Line]:
    """The lines of a file. In one with times what is no output is left out; in a plain one there is nothing else."""
    lines: List[Line] = []
    remarks: List[Remark] = []
    for number, text in enumerate(texts, 1):
        stamped = STAMP.fullmatch(text)
        stamp, text = (stamped[1], stamped[2]) if stamped else (None, text)
        remark = REMARK.fullmatch(text)
        if remark is not None:
            remarks.append(Remark(stamp, remark[2]))
        elif OUTPUT.fullmatch(text):
            lines.append(Line(text, stamp, tuple(remarks)))
            remarks = []
        elif stamp is None:
            raise BadRun(f"{path} isn't what a member writes: line {number}")
    if len({owner_of(line.text.split(" ")) for line in lines}) > 1:
        raise BadRun(f"{path} has lines of several members")
    return lines


def part_order(path: str, lines: List[Line]) -> Tuple[float, int]:
    """By what the files of one member are put in order: their times; else the numbers behind their names, the greatest first."""
    match = PART.fullmatch(path)
    return (lines[0].seconds() or 0.0, -int(match[2]) if match else 1)


def is_part(path: str, other: str) -> bool:
    """Whether one of two files is the other one, put aside."""
    stems = [match[1] if match else path for path in (path, other) for match in [PART.fullmatch(path)]]
    return path != other and (stems[0] == stems[1] or stems[0] == other or stems[1] == path)


def read_members(paths: List[str]) -> Tuple[Dict[int, List[Line]], int]:
    """The lines of each member, by its number, its files one behind the other; and how many files have none, of members that said nothing."""
    files: Dict[int, List[Tuple[str, List[Line]]]] = {}
    silent = 0
    for path in map(str, paths):
        lines = lines_of(path, read_texts(path))
        if not lines:
            silent += 1
            continue
        of_same = files.setdefault(owner_of(lines[0].text.split(" ")), [])
        if any(not (is_part(path, other) or path != other and lines[0].stamp and found[0].stamp) for other, found in of_same):
            raise BadRun(f"{os.path.basename(path)} and {os.path.basename(of_same[0][0])} are of the same member")
        of_same.append((path, lines))
    if not files:
        raise BadRun("no file has a line of a member")
    members = {}
    for member, parts in sorted(files.items()):
        parts.sort(key=lambda part: part_order(*part))
        members[member] = [line for _, lines in parts for line in lines]
    return members, silent
