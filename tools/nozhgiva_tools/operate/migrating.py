"""Moves a group from files of version 1 to files of version 2, member by member, as docs/NODE.md describes ("Moving a group to version 2").

What stops, starts, moves, looks and waits is handed in, so that this is a function of what the members and their files tell."""

from typing import Any, Callable, Dict, List, NamedTuple, Optional, Set, Tuple

from . import rolling
from .rolling import Bounds, Health, LOOK, SLACK, Stopped

HANDOVER = {2: 2, 3: 2, 4: 3, 5: 3, 6: 4}  # by the members of the group: with which move version 2 has a quorum


ANY_AGE = float("inf")  # of a process that was started a while ago


class File(NamedTuple):
    """What `inspect` tells of a member's file. Places are texts, as `operation 97`; of a copy of the superblock none is told."""

    version: int
    lost: Set[str]  # places whose content the member has to get from the others, or that the file can't tell of
    idle: Set[str]  # damaged places that nothing stands on


class Hands(NamedTuple):
    """What a walk does to the outside. `migrate` gives the exit code."""

    health: Callable[[int], Optional[Health]]
    look: Callable[[int], File]
    stop: Callable[[int], None]
    start: Callable[[int], None]
    migrate: Callable[[int], int]
    sleep: Callable[[float], None]
    clock: Callable[[], float]
    say: Callable[[str], None]

    def as_rolling(self) -> rolling.Hands:
        """Those of a roll that only waits: clients aren't held here."""
        return rolling.Hands(self.health, self.start, None, None, self.sleep, self.clock, self.say)


def file_of(told: Dict[str, Any]) -> File:
    """The file that `inspect FILE json` tells of; ValueError where it is no member's."""
    try:
        places = {kind: {f"{what} {number}" for what, number in found if what != "copy"} for kind, found in told["places"].items()}
        return File(told["version"], places["mended"] | places["unsure"], places["idle"])
    except (KeyError, TypeError) as why:
        raise ValueError(f"no answer of inspect: {why}")


class Walk:
    """One walk through a group. `accepted`: members that may have lost something in their move, since somebody looked at their disk."""

    def __init__(self, hands: Hands, size: int, bounds: Bounds, accepted: Set[int]) -> None:
        self.hands, self.size, self.bounds, self.accepted = hands, size, bounds, accepted
        self.members = list(range(size))
        self.moved: List[int] = []
        self.away: List[int] = []  # who was stopped and isn't started yet
        self.revived: List[int] = []  # who wasn't moved, had no keeper, and was started at the beginning
        self.commit = 0  # what the group had committed before its handover

    # What there is to do.

    def look_around(self) -> None:
        """Which members are moved already, and whether each has what it should."""
        files = {member: self.look(member) for member in self.members}
        self.moved = [member for member in self.members if files[member].version == 2]
        for member, file in files.items():
            if file.lost and member not in self.accepted:
                raise Stopped(f"member {member}'s file has damage ({places(file.lost)}). " + (self.advice(member) if member in self.moved else
                              "Wait until it is mended (operate/inspect tells what becomes of it), and begin then."))

    def look(self, member: int) -> File:
        """What a member's file tells. One that was started a moment ago has some time to mend what its end had cut."""
        began = self.hands.clock()
        while True:
            file = self.hands.look(member)
            if not file.lost or member not in self.revived or self.hands.clock() - began > self.bounds.whole:
                return file
            self.hands.sleep(LOOK)

    def left_standing(self) -> List[int]:
        """Who isn't moved and has no keeper, as a walk leaves a member that was killed between its stop and its move."""
        return [member for member in self.members if self.hands.health(member) is None and self.hands.look(member).version == 1]

    def has_handed_over(self) -> bool:
        """Whether the members of version 2 answer already."""
        return len(self.moved) >= HANDOVER[self.size] and any((self.hands.health(member) or {}).get("state") == "leads" for member in self.moved)

    def batches(self) -> List[List[int]]:
        """Who is moved together, one batch after the other: one member at a time, the one that leads last. All at once where the group is of two, or
        where enough are moved and don't answer: then what one of them lost may be at those that are left alone."""
        left = sorted((member for member in self.members if member not in self.moved), key=self.comes_last)
        if self.size == 2 or (len(self.moved) >= HANDOVER[self.size] and not self.has_handed_over()):
            return [left] if left else []
        return [[member] for member in left]

    def comes_last(self, member: int) -> Tuple[bool, int]:
        return (self.hands.health(member) or {}).get("state") == "leads", member

    # The walk.

    def go(self) -> None:
        self.revive()
        self.look_around()
        batches = self.batches()
        self.away = [member for member in self.moved if self.hands.health(member) is None]
        if not batches:
            self.hands.say("all members are moved already")
            self.start_again(self.members)
        elif self.has_handed_over():
            self.start_again(list(self.away))
        for batch in batches:
            self.check(batch)
            self.move(batch)

    def revive(self) -> None:
        """Starts whoever a walk that was broken off left standing, so that the group is whole before anything else."""
        for member in self.left_standing():
            self.hands.say(f"member {member} isn't moved, and has no keeper: it is started first")
            began = self.hands.clock()
            self.hands.start(member)
            self.revived.append(member)
            self.await_process(member, began, ANY_AGE)

    def start_again(self, awaited: List[int]) -> None:
        """Starts whoever is moved and has no keeper, where version 2 has all that it needs, and waits until members are where they should be."""
        began = self.hands.clock()
        self.start_away()
        if awaited:
            self.settle(awaited, began)

    def start_away(self) -> None:
        for member in list(self.away):
            self.hands.start(member)
            self.away.remove(member)

    def check(self, batch: List[int]) -> None:
        """Before members are stopped: those of the version that answers are whole."""
        if not self.has_handed_over() and (len(self.moved) >= HANDOVER[self.size] or (self.size == 2 and self.moved)):
            return  # neither version has a quorum
        answering = self.moved if self.has_handed_over() else [member for member in self.members if member not in self.moved]
        rolling.wait_for_whole(self.hands.as_rolling(), answering, batch, self.bounds.whole if self.revived else self.bounds.hold)
        self.commit = max([self.commit] + [rolling.number(self.hands.health(member), "commit") for member in answering])

    def move(self, batch: List[int]) -> None:
        hands_over = len(self.moved) < HANDOVER[self.size] <= len(self.moved) + len(batch)
        for member in batch:
            self.hands.say(f"member {member} is stopped" + (": from here to a change of view the group pauses" if hands_over else ""))
            self.away.append(member)
            self.hands.stop(member)
        for member in batch:
            self.convert(member)
        self.moved += batch
        began = self.hands.clock()
        self.start_away()
        self.settle(batch, began)

    def convert(self, member: int) -> None:
        """Moves the file of a stopped member, and compares what it holds with what it held."""
        before = self.hands.look(member)
        code = self.hands.migrate(member)
        if code != 0:
            raise Stopped(f"member {member}: migrate ended with {code}. Its file is whole, of the one version or the other: mend the cause (docs/NODE.md has the codes) and run this again.")
        after = self.hands.look(member)
        more = (after.lost | after.idle) - (before.lost | before.idle)
        if after.version != 2:
            raise Stopped(f"member {member}: its file is of version {after.version} after it was moved: look whether the commands name the same file")
        if more and member not in self.accepted:
            self.moved.append(member)
            raise Stopped(f"member {member}'s file has lost what it held before it was moved ({places(more)}): its disk couldn't read that. It isn't started. " + self.advice(member))
        self.hands.say(f"member {member} is moved, and holds what it held" if not more else f"member {member} is moved, and has lost {places(more)}")

    def advice(self, member: int) -> str:
        """What to do where a moved member's file isn't whole."""
        look = "Look at its disk first (the system's log, smartctl)."
        if len(self.moved) < HANDOVER[self.size]:
            return (f"The others answer in version 1, and hold what it lost. {look} Then run this again with --accept {member}: it is started, "
                    "and has it from them after the handover.")
        return (f"The handover isn't made, and the group stands still. {look} Then run this again with --accept {member}: all members that are left are "
                "moved too before any is started, so that whoever holds what was lost is there.")

    def settle(self, batch: List[int], began: float) -> None:
        """Waits until the members of a batch are where they should be."""
        if len(self.moved) < HANDOVER[self.size]:
            for member in batch:
                self.await_process(member, began)
                self.hands.say(f"member {member} runs; it is heard again after the handover")
            return
        self.await_leader(began)
        for member in self.moved if len(self.moved) == HANDOVER[self.size] else batch:
            spent = rolling.settle(self.hands.as_rolling(), self.moved, member, self.bounds, ANY_AGE)
            self.hands.say(f"member {member} applies what the others commit, {spent:.1f} s later")

    def await_process(self, member: int, began: float, age: float = 0.0) -> None:
        """Waits until a member runs, whose process was at most `age` seconds old when it was started."""
        while True:
            health = self.hands.health(member)
            spent = self.hands.clock() - began
            if health is not None and health["state"] != "down" and rolling.seconds(health, "up") <= age + spent + SLACK:
                return
            if spent > self.bounds.whole:
                raise Stopped(f"member {member} doesn't run {self.bounds.whole:.0f} s after it was started: look at its log")
            self.hands.sleep(LOOK)

    def await_leader(self, began: float) -> None:
        """The group of version 2 answers: one leads, and has what was committed before."""
        while True:
            told = [self.hands.health(member) for member in self.moved]
            if any(health and health["state"] == "leads" and rolling.number(health, "commit") >= self.commit for health in told):
                return
            if self.hands.clock() - began > self.bounds.whole:
                raise Stopped(f"no member of version 2 leads with what was committed before ({self.commit}), {self.bounds.whole:.0f} s after the handover: look at "
                              "the lines of health, beside the table in docs/OPERATING.md; the members that are left can be moved by running this again")
            self.hands.sleep(LOOK)


def places(found: Set[str]) -> str:
    """Places in a sentence, the first of them where they are many."""
    shown = sorted(found, key=lambda place: (place.split()[0], int(place.split()[1])))[:8]
    return ", ".join(shown) + (f" and {len(found) - 8} more" if len(found) > 8 else "")
