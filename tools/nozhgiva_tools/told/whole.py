"""Whether a quorum is whole: whether what its members' files hold is enough for it to go on without the others, as long as no disk fails and somebody restarts
a member that leads and stands still. And so whether a member may be stopped.

Nothing here reads a file, a clock or a socket: it is a function of what was found in the files (docs/OPERATING.md, "Whole quorums")."""

import itertools
from typing import Dict, Iterator, List, NamedTuple, Optional, Sequence, Tuple

VIEW_CHANGE = {1: 1, 2: 2, 3: 2, 4: 3, 5: 3, 6: 4}  # so many members a change of views takes, by the size of the group
WINDOW = 64  # operations above its checkpoint that a member can hold
OLD = 5.0  # seconds; what a look at a file found longer ago isn't relied on


class Facts(NamedTuple):
    """What one member's file holds of that. Operations are told by their numbers."""

    checkpoint: int
    anchored: bool  # whether the header of the checkpoint's operation is known; so it is where there is no checkpoint
    missing: int  # blocks of the checkpoint that can't be read
    lost: Tuple[int, ...]  # above the checkpoint: what was accepted, or may have been, of a known header, and can't be read
    unknown: Tuple[int, ...]  # above the checkpoint: where something may have been accepted
    last: int  # the last operation whose header is known


class Reason(NamedTuple):
    """Why a quorum isn't whole, or a member may not be stopped: a name for scripts, and a sentence."""

    name: str
    text: str


def ranges(numbers: Sequence[int]) -> str:
    """`7,9-12`; `-` for none."""
    runs: List[List[int]] = []
    for number in sorted(numbers):
        if runs and runs[-1][1] == number - 1:
            runs[-1][1] = number
        else:
            runs.append([number, number])
    return ",".join(f"{low}" if low == high else f"{low}-{high}" for low, high in runs) or "-"


def numbers(text: str) -> Tuple[int, ...]:
    """What `ranges` writes; ValueError where a text is none of these."""
    ends = [] if text == "-" else [[int(end) for end in run.split("-")] for run in text.split(",")]
    return tuple(number for run in ends for number in range(run[0], run[-1] + 1))


def words(facts: Optional[Facts]) -> Dict[str, object]:
    """The words of a line of health that tell it; `-` each where nothing is known."""
    if facts is None:
        return {name: "-" for name in Facts._fields}
    return dict(facts._asdict(), anchored="yes" if facts.anchored else "no", lost=ranges(facts.lost), unknown=ranges(facts.unknown))


def is_told(line: Dict[str, str]) -> bool:
    """Whether a line of health has words for it; those of earlier keepers have none."""
    return all(name in line for name in Facts._fields)


def of_line(line: Dict[str, str]) -> Optional[Facts]:
    """What a line of health tells; None where nothing is known, or it was found too long ago or before the process was started. A member that lacks blocks
    by its own lines lacks some, whatever its file has meanwhile."""
    try:
        age, up = float(line["looked"]), float(line["up"])
        found = Facts(int(line["checkpoint"]), line["anchored"] == "yes", int(line["missing"]), numbers(line["lost"]), numbers(line["unknown"]), int(line["last"]))
    except (KeyError, ValueError):
        return None
    if age > OLD or age > up:
        return None
    return found._replace(missing=max(1, found.missing)) if "lacks_blocks" in line["well"].split(",") else found


def members_of(members: Sequence[int]) -> str:
    return ("member " if len(members) == 1 else "members ") + ", ".join(map(str, members))


def lacks(quorum: Dict[int, Facts], top: Optional[int] = None) -> List[Reason]:
    """Why the members of these facts aren't whole, none where they are. `top`: the greatest checkpoint that somebody beside them has too."""
    greatest = max(facts.checkpoint for facts in quorum.values())
    found = list(of_entries(quorum, greatest))
    loaded = [member for member, facts in quorum.items() if facts.checkpoint == greatest and facts.missing == 0]
    if not loaded or (top is not None and top > greatest):
        found.append(Reason("blocks", f"none of {members_of(sorted(quorum))} has all blocks of checkpoint {max(greatest, top or 0)}, the greatest"))
        return found
    behind = [member for member, facts in quorum.items() if facts.checkpoint < greatest]
    full = [member for member, facts in quorum.items() if facts.last >= greatest + WINDOW]
    if not any(quorum[member].anchored for member in loaded):
        found.append(Reason("window", f"{members_of(loaded)} can't give checkpoint {greatest}: the header of that operation isn't known any more"))
    elif behind and full:
        found.append(Reason("window", f"{members_of(full)} has a log up to {greatest + WINDOW}, the end of the window of checkpoint {greatest}, and {members_of(behind)} "
                            "could take neither that log nor that checkpoint"))
    return found


def of_entries(quorum: Dict[int, Facts], greatest: int) -> Iterator[Reason]:
    """What can't be told, or read, above the greatest checkpoint."""
    for member, facts in quorum.items():
        unknown, lost = [op for op in facts.unknown if op > greatest], [op for op in facts.lost if op > greatest]
        if unknown:
            yield Reason("unsure", f"the file of member {member} can't tell of {len(unknown)} of its slots (operations {ranges(unknown)}): a change of views may wait for another member")
        if lost:
            yield Reason("lost", f"the file of member {member} has lost {len(lost)} entries above checkpoint {greatest} (operations {ranges(lost)})")


def whole_quorums(facts: Dict[int, Facts], size: int) -> List[Tuple[int, ...]]:
    """The smallest quorums of these members that are whole, beside the others of them. A greater one that has such a one in it goes on too."""
    top = max((one.checkpoint for one in facts.values()), default=0)
    return [chosen for chosen in itertools.combinations(sorted(facts), VIEW_CHANGE[size]) if not lacks({member: facts[member] for member in chosen}, top)]


def reasons(member: int, size: int, present: Dict[int, Optional[Facts]]) -> List[Reason]:
    """Why a member may not be stopped, none where it may. `present`: the members that run and take part, with what is known of their files."""
    rest = {other: facts for other, facts in present.items() if other != member}
    if len(rest) < VIEW_CHANGE[size]:
        return [Reason("few", f"{len(rest)} of {size} would be left that take part, and a change of views takes {VIEW_CHANGE[size]}")]
    known = {other: facts for other, facts in rest.items() if facts is not None}
    if whole_quorums(known, size):
        return []
    unseen = [Reason("unseen", f"what the file of member {other} holds isn't known") for other in rest if other not in known]
    return (lacks(known) if len(known) >= VIEW_CHANGE[size] else []) + unseen


def is_whole_alone(facts: Facts) -> bool:
    """Whether any quorum of members of which each is so is whole."""
    return facts.anchored and facts.missing == 0 and not facts.lost and not facts.unknown and facts.last < facts.checkpoint + WINDOW
