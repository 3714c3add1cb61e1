"""How a member ends: which exit codes let it be started again at once, and what somebody has to look at after the others."""

from typing import Dict

from nozhgiva_tools.told.ends import Code, TEXTS

DISK_FAULT, LINK_FAULT, LOST = Code.DISK_FAULT, Code.LINK_FAULT, Code.SUPER_LOST
OLDER = 21  # a keeper's: the file is older than the one that it saw last
PASSING = 5  # so often a member that ends with 7 before its file is open is started again
AGAIN: Dict[int, str] = {Code.DONE: "its turns are done", **{code: TEXTS[code] for code in (Code.LINK_FAULT, Code.NO_MEMORY)}}
LOOK: Dict[int, str] = {
    Code.USAGE: "its words are none of a member's: look at the number of the group, the member's number, and the addresses",
    Code.WRITE_FAULT: "its output couldn't be written though keep read it: look at what the log says before this, and at this machine's memory and limits",
    Code.DISK_FAULT: "the data file couldn't be opened, made, written or synced: look, in this order, whether another process has it (lslocks, fuser), at its path, rights and "
                     "room, and only then at the disk",
    Code.SUPER_LOST: "no two good copies of the superblock agree: look whether FILE is the right one; if it is, this member is lost, and the group goes on with those that are left",
    Code.OTHER_MEMBER: "the data file is another member's: the line before says whose it is and whose the words say; mend the words",
    Code.OCCUPIED: "the data file holds a member already, and the words say --fresh: leave that out",
}
UNHEARD_OF = "no member ends so: look whether the program is the right one"


def is_again(code: int) -> bool:
    """Whether it may be started again by itself. A signal is a negative code."""
    return code < 0 or code in AGAIN


def sentence(code: int) -> str:
    """What a keeper says of an end."""
    if code < 0:
        return f"ended by signal {-code}, and is started again"
    if code in AGAIN:
        return f"ended with {code} ({AGAIN[code]}), and is started again"
    return f"ended with {code}, and isn't started again: {LOOK.get(code, UNHEARD_OF)}"
