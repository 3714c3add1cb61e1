"""What a keeper notes of its member, in the lock file beside the data file: of the file, so that one that went back to what it was isn't started; and of the
last operation that the member applied, so that it is seen where it applies another one under that number.

A note of the file is made of what was read and synced since, so that it never says more than what the disk has confirmed."""

import re
from typing import NamedTuple, Optional

from nozhgiva_tools.told.datafile import Report

SAID = re.compile(r"applied: replica (\d+) group (\d+) op (\d+) as ([0-9a-f]{32})")
FORM = re.compile(r"file: replica (\d+) group (\d+) sequence (\d+) head (\d+)")


class Note(NamedTuple):
    """Of a file: whose it is, the sequence of its superblock, and the last operation of its log."""

    replica: int
    group: int
    sequence: int
    head: int

    def follows(self, before: Optional["Note"]) -> bool:
        """Whether it may take the place of the one before: a note of one file never goes back."""
        return before is None or before[:2] != self[:2] or self[2:] > before[2:]

    def __str__(self) -> str:
        return f"file: replica {self.replica} group {self.group} sequence {self.sequence} head {self.head}"


class Said(NamedTuple):
    """Of an operation that a member applied: whose that is, and the name of what it said of it."""

    replica: int
    group: int
    op: int
    name: bytes

    def __str__(self) -> str:
        return f"applied: replica {self.replica} group {self.group} op {self.op} as {self.name.hex()}"


def read_said(text: str) -> Optional[Said]:
    """What a line of text says of an operation; None where it is none."""
    found = SAID.fullmatch(text)
    return Said(int(found[1]), int(found[2]), int(found[3]), bytes.fromhex(found[4])) if found is not None else None


def of_report(report: Report) -> Optional[Note]:
    """What is noted of a file; None while its superblock is being written, or isn't a member's."""
    value = report.value
    if value is None or not all(report.superblock.opens):
        return None
    return Note(value.replica, value.cluster, value.sequence, report.slots.head())


def read(text: str) -> Optional[Note]:
    """The note that a line of text is; None where it is none."""
    found = FORM.fullmatch(text)
    return Note(*map(int, found.groups())) if found is not None else None


def is_older(report: Report, note: Note) -> Optional[str]:
    """By what a file is older than the note that was made of it; None where it isn't, or is another member's. Damage is no age: only a slot that says that it
    never had the noted operation counts."""
    value = report.value
    if value is None or (value.replica, value.cluster) != (note.replica, note.group):
        return None
    if value.sequence < note.sequence:
        return f"its superblock is of sequence {value.sequence}, and was of {note.sequence}"
    if value.sequence == note.sequence and note.head in report.slots.found["nothing"]:
        return f"its log ends at operation {report.slots.head()}, and went to {note.head}"
    return None
