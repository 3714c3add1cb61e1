"""How the program ends: the one table of its exit codes with what it says on standard error. tests/tools/house/test_ends.py holds the program's source and the
pages' tables (docs/NODE.md, docs/SCHEDULE.md) against it; what tools say of a code is keyed by it."""

from enum import IntEnum
from typing import Dict


class Code(IntEnum):
    """An exit code."""

    DONE = 0
    USAGE = 2
    REFUSED = 3
    SESSION_LOST = 4
    READ_FAULT = 5
    WRITE_FAULT = 6
    DISK_FAULT = 7
    LINK_FAULT = 8
    SUPER_LOST = 9
    OTHER_MEMBER = 10
    NO_MEMORY = 11
    OCCUPIED = 12
    NO_ANSWER = 13
    SPAWN_FAULT = 14


# Numbers stand as N, a member (its group, its number, the size) as C R N.
TEXTS: Dict[Code, str] = {
    Code.DONE: "",
    Code.USAGE: "usage",
    Code.REFUSED: "refused: line N",
    Code.SESSION_LOST: "session lost",
    Code.READ_FAULT: "read fault",
    Code.WRITE_FAULT: "write fault",
    Code.DISK_FAULT: "disk fault",
    Code.LINK_FAULT: "link fault",
    Code.SUPER_LOST: "superblock lost",
    Code.OTHER_MEMBER: "other member: found C R N asked C R N",
    Code.NO_MEMORY: "no memory",
    Code.OCCUPIED: "occupied",
    Code.NO_ANSWER: "no answer",
    Code.SPAWN_FAULT: "spawn fault",
}
