"""What an event at a member answers: the messages of which some must have come before it; and by that, what surely came before what."""

from bisect import bisect_left
from typing import Dict, Iterable, List, NamedTuple, Optional, Set, Tuple

from .atoms import Atom, LOGS, Message, REPLICATION, VIEW_CHANGE

CARRY_COMMIT = ("prepare", "commit", "start_view", "sync_view")
MOST_TELLING = 100
"""The most messages that are looked at for who told a commit number."""
SKEW = 1.0
"""Seconds by which the clocks of two members may differ, and a line may be read late."""
KEYS = ("view", "op", "block")
Key = Tuple[int, str, Optional[str], Optional[int]]
"""By what messages are found: to whom, their kind, and the value of one of KEYS, or none of them."""


def is_thinned(atoms: List[Atom]) -> bool:
    """Whether a member's lines are as a keeper writes them from its start on: heartbeats and what repeats is left out, and nothing else."""
    if not atoms or atoms[0].lines[0].stamp is None or atoms[0].missing:
        return False
    applied = [(atom.life, atom.op) for atom in atoms if atom.kind == "apply"]
    return all(life != before or op in (last, last + 1) for (before, last), (life, op) in zip(applied, applied[1:]))


class Need(NamedTuple):
    """Messages of which some from so many members must have come; `soft` where it may go without. They stand in the order of their senders' lines."""

    messages: List[Message]
    members: int = 1
    soft: bool = False


class Group:
    """All that the members of a group put out."""

    def __init__(self, members: Dict[int, List[Atom]], silent: int = 0) -> None:
        """`silent` members more said nothing; where that are all that are missing, they are known too."""
        self.members = members
        messages = [message for atoms in members.values() for atom in atoms for message in atom.messages]
        self.size = max([message.to for message in messages] + list(members) + [0]) + 1
        missing = [index for index in range(self.size) if index not in members]
        members.update({index: [] for index in missing if len(missing) <= silent})
        self.whole = {index: index in members and not any(atom.missing for atom in members[index]) for index in range(self.size)}
        self.thinned = {index: index in members and is_thinned(members[index]) for index in range(self.size)}
        self.by_key: Dict[Key, List[Message]] = {}
        self.by_commit: Dict[int, List[Message]] = {index: [] for index in range(self.size)}
        for message in messages:
            for key in self.keys_of(message):
                self.by_key.setdefault(key, []).append(message)
            if message.kind in CARRY_COMMIT:
                self.by_commit[message.to].append(message)
        for carriers in self.by_commit.values():
            carriers.sort(key=lambda message: message.commit)
        self.commits = {index: [message.commit for message in carriers] for index, carriers in self.by_commit.items()}

    @staticmethod
    def keys_of(message: Message) -> Iterable[Key]:
        yield message.to, message.kind, None, None
        for name in KEYS:
            if name in message.numbers:
                yield message.to, message.kind, name, message.numbers[name]

    def found(self, to: int, kind: str, name: Optional[str] = None, number: Optional[int] = None) -> List[Message]:
        """The messages of a kind to a member; where a number is given, those that say it."""
        return self.by_key.get((to, kind, name, number), [])

    def telling(self, to: int, commit: int) -> List[Message]:
        """The messages to a member that tell this commit number or a greater one, the least first, at most MOST_TELLING."""
        at = bisect_left(self.commits[to], commit)
        return self.by_commit[to][at:at + MOST_TELLING]

    def logs_of(self, to: int, view: int, op: int = 0) -> List[Message]:
        """The logs of a view that were sent to a member and reach an op."""
        return [message for kind in LOGS for message in self.found(to, kind, "view", view) if message.op >= op]

    def is_known(self, member: int, heartbeats: bool = False) -> bool:
        """Whether all that the others sent a member is there, heartbeats among it or not: of what a keeper left out something alike is there."""
        return all(self.whole[other] or self.thinned[other] and not heartbeats for other in range(self.size) if other != member)


class Past:
    """What a member's lines tell, as far as they were read: what needs an answer of others, and what doesn't."""

    def __init__(self, group: Group, member: int) -> None:
        self.group, self.member = group, member
        self.commit = 0  # the greatest commit number that it surely knows without being told
        self.changes: Set[int] = set()  # the views that it said to enter in this life

    def read(self, atom: Atom) -> Optional[Need]:
        """What the next atom needs; what it tells is kept."""
        need = self.need(atom)
        if atom.kind == "start":
            self.changes, self.commit = set(), 0
        if atom.kind == "start_view_change":
            self.changes.add(atom.view)
        if atom.kind in ("start", "choose", "do_view_change", "beat", "prepare"):
            self.commit = max(self.commit, atom.commit)
        if atom.kind == "apply":
            self.commit = max(self.commit, atom.op)
        return need

    def need(self, atom: Atom) -> Optional[Need]:
        if atom.kind == "apply":
            return self.need_of_apply(atom)
        if atom.kind == "start_view_change":
            heard = self.group.found(self.member, "start_view_change", "view", atom.view) + self.group.found(self.member, "do_view_change", "view", atom.view)
            return None if atom.view in self.changes else Need(heard, soft=True)
        return self.need_of_message(atom)

    def need_of_apply(self, atom: Atom) -> Optional[Need]:
        group, op = self.group, atom.op
        if op <= self.commit or group.size == 1:
            return None
        if atom.replies:
            return Need(group.found(self.member, "prepare_ok", "op", op), REPLICATION[group.size] - 1)
        return Need(group.telling(self.member, op))

    def need_of_message(self, atom: Atom) -> Optional[Need]:
        group, me, others = self.group, self.member, VIEW_CHANGE[self.group.size] - 1
        if atom.kind == "prepare_ok":
            prepares = [message for message in group.found(me, "prepare", "op", atom.op) if message.view == atom.view]
            return Need(prepares + group.logs_of(me, atom.view, atom.op) + group.found(me, "give_prepare", "op", atom.op))
        if atom.kind == "do_view_change":
            return Need(group.found(me, "start_view_change", "view", atom.view), others)
        if atom.kind in ("choose", "wait"):
            return None if group.size == 1 else Need(group.found(me, "do_view_change", "view", atom.view), others)
        questions = self.questions(atom)
        return None if questions is None else Need([message for message in questions if message.sender == atom.to()])

    def questions(self, atom: Atom) -> Optional[List[Message]]:
        """Messages of which the one from the member that it goes to is answered; None where it answers none."""
        group, me = self.group, self.member
        if atom.kind == "start_view" and len(atom.messages) == 1:
            asked = group.found(me, "get_view") + group.found(me, "start_view_change", "view", atom.view) + group.found(me, "do_view_change", "view", atom.view)
            return [message for message in asked if message.view <= atom.view]
        if atom.kind == "sync_view":
            return [message for message in group.found(me, "get_sync") if message.view <= atom.view]
        if atom.kind == "get_view":
            return group.found(me, "prepare", "view", atom.view) + group.found(me, "commit", "view", atom.view)
        if atom.kind == "get_sync":
            return group.found(me, "start_view", "view", atom.view)
        if atom.kind == "give_prepare":
            return group.found(me, "get_prepare", "op", atom.op)
        return group.found(me, "get_block", "block", atom.messages[0].numbers["block"]) if atom.kind == "give_block" else None


def senders_of(messages: Iterable[Message]) -> Set[int]:
    return {message.sender for message in messages}


def holds_for_sure(group: Group, member: int, need: Need) -> bool:
    """Whether the need can be relied on: all that others might have sent for it is known."""
    return not need.soft and len(need.messages) < MOST_TELLING and len(senders_of(need.messages)) >= need.members and group.is_known(member, heartbeats=True)


class Clocks:
    """Gives each atom its clock: of each member how many of its atoms surely came before it, itself among them."""

    def __init__(self, group: Group) -> None:
        self.group = group
        self.now = {index: [0] * group.size for index in range(group.size)}

    def take(self, atom: Atom, need: Optional[Need]) -> None:
        """The next atom of a member, in an order that fits."""
        clock = list(self.now[atom.member])
        if need is not None and holds_for_sure(self.group, atom.member, need):
            clock = [max(pair) for pair in zip(clock, self.least(need))]
        clock[atom.member] = atom.place + 1
        atom.clock = self.now[atom.member] = clock

    def least(self, need: Need) -> List[int]:
        """What came before any messages that meet the need. A message that wasn't sent yet comes no sooner than what its sender has said."""
        first: Dict[int, List[int]] = {}
        for message in need.messages:
            clock = message.atom.clock or self.now[message.sender]
            known = first.get(message.sender)
            first[message.sender] = clock if known is None else [min(pair) for pair in zip(known, clock)]
        return [sorted(values)[need.members - 1] for values in zip(*first.values())]


def may_have_come(message: Message, atom: Atom) -> bool:
    """Whether a message may have come before an atom of its receiver, or with it: by what surely came before it, and by the times."""
    if message.atom.clock and message.atom.clock[atom.member] > atom.place:
        return False
    sent, now = message.atom.lines[0].seconds(), atom.lines[-1].seconds()
    return sent is None or now is None or sent <= now + SKEW
