"""What the files of members hold of what a whole quorum needs, found without reading them: in a second `replay` of the same lines the members are stopped and
started, so that each tells what its opening found. Only who has entered a view is told there, so that each states its log and nobody takes another one.

Where that doesn't tell, the worse is taken: a quorum that is called whole is whole."""

from typing import Dict, List, Optional

from nozhgiva_tools.told import whole
from nozhgiva_tools.told.lines import applied_of, message_of, owner_of

from .group import Group, Sent
from .pasts import Faults

TICKS = 40  # three views and more, of ten ticks each; too few for a visit to come to a block
BLOCKS = 32  # operations from checkpoint to checkpoint


class Opened:
    """What one member told after its start."""

    def __init__(self) -> None:
        self.commit = 0
        self.applied: List[int] = []
        self.stated: Optional[Sent] = None
        self.lacks_blocks = False
        self.asked: Optional[int] = None  # the first entry that it asked for

    def is_known(self) -> bool:
        return self.stated is not None


def open_all(group: Group, members: List[int]) -> Dict[int, Opened]:
    """Stops and starts these members in a group of their own that played the same lines."""
    other = Group(group.program, group.size, group.kind)
    try:
        other.play(group.lines[1:])
        other.take_new()
        opened = {member: Opened() for member in members}
        hear(opened, other.play([f"stop {member}" for member in members] + [f"start {member}" for member in members]))
        for _ in range(TICKS):
            if all(one.is_known() for one in opened.values()):
                break
            hear(opened, other.play([f"tick {member}" for member in members]))
            pass_entries(other, opened)
        return opened
    finally:
        other.end()


def pass_entries(group: Group, opened: Dict[int, Opened]) -> None:
    """Each of these members hears which views the others entered, and nothing else."""
    for _ in range(group.size):
        told = [message for message in group.take_new() if message.words[0] == "start_view_change" and message.receiver in opened]
        hear(opened, group.play([f"deliver {message.number}" for message in told]))


def hear(opened: Dict[int, Opened], outputs: List[str]) -> None:
    for output in outputs:
        words = output.split(" ")
        owner, message, applied = owner_of(words), message_of(words), applied_of(words)
        if words[0] == "start":
            opened[owner].commit = int(words[words.index("commit") + 1])
        elif applied is not None:
            opened[owner].applied.append(applied.op)
        elif message is not None and owner in opened:
            hear_message(opened[owner], Sent(*message, words[4:]))


def hear_message(one: Opened, message: Sent) -> None:
    if message.words[0] == "do_view_change":
        one.stated = message
    elif message.words[0] == "get_block":
        one.lacks_blocks = True
    elif message.words[0] == "get_prepare" and one.asked is None:
        one.asked = message.value("op")


def checkpoint_of(one: Opened, group: Group, member: int) -> int:
    """Its checkpoint: the operation before the first that it applied. Where it applied none, it lacks that one, or there is none; where it lacks blocks, the
    greatest that it can have."""
    traces = group.traces[member]
    if one.applied:
        return one.applied[0] - 1
    if one.lacks_blocks:
        return max([traces.applied // BLOCKS * BLOCKS] + [op for op in traces.given if op <= one.commit])
    return one.asked - 1 if one.asked is not None and one.asked <= one.commit else one.commit


def facts_of(one: Opened, stated: Sent, group: Group, member: int, faults: Faults) -> whole.Facts:
    """By its statement: letters of the operations above its commit number. Of those up to it that it can't apply, what isn't there is lost where disks failed, and
    was never there where none did."""
    checkpoint, commit = checkpoint_of(one, group, member), stated.value("commit")
    letters = stated.words[stated.words.index("parts") + 1]
    states = {} if letters == "-" else {commit + 1 + at: letter for at, letter in enumerate(letters)}
    lost = {op for op, letter in states.items() if letter == "l"}
    if faults.cuts or faults.damage:
        lost |= set(range(max([checkpoint] + one.applied) + 1, commit + 1))
    last = max([commit] + [op for op, letter in states.items() if letter in "hlw"])
    anchored = checkpoint == 0 or max(group.traces[member].head, last) < checkpoint + whole.WINDOW
    unknown = tuple(op for op, letter in states.items() if letter == "u")
    return whole.Facts(checkpoint, anchored, int(one.lacks_blocks), tuple(sorted(lost)), unknown, last)


def held(group: Group, members: List[int], faults: Faults) -> Dict[int, whole.Facts]:
    """What the files of these members hold now; nothing of a member that doesn't state its log."""
    return {member: facts_of(one, one.stated, group, member, faults) for member, one in open_all(group, members).items() if one.stated is not None}
