"""What running members wrote, put together as one run.

A member writes what it puts out, and not what it received. So its lines stay in their order and are cut into events by the rules (cutting.py), and
between members an event stands after the messages that it answers (causes.py): an acknowledgement after its prepare, a chosen log after the
statements. Times, where a keeper wrote some, order what is left open; without them one of the orders that fit is taken.
"""

import re
from typing import Dict, FrozenSet, Iterator, List, Optional, Set, Tuple

from nozhgiva_tools.told.lines import owner_of
from nozhgiva_tools.told.memberlines import BadRun, Line, lines_of, MOST_LINES, read_members, read_texts

from .atoms import Atom, atoms_of, Message, NOT_SENT
from .causes import Clocks, Group, Need, Past, senders_of, SKEW
from .cutting import Cutter, TWO, UNSURE
from .naming import EVENTS, Namer
from .reading import shorten, ShownRun, ShownStep, step_of

MOST_STEPS = 5_000
ANSWERS, SPEAKS, GOES_WITHOUT, STARTS, WAITS = range(5)
"""Which steps come first: one that answers something, one that needs nothing, one that can go without what would explain it, a start, which is
as late as can be, and last one that waits for a message that never came to be written."""
MOST_REPLICAS = 6
Rank = Tuple[float, ...]
"""By what steps are put in order: the least comes first."""
Words = Tuple[str, ...]
ENDED = "It was started again later on, so it had ended by then; when, no line tells."
TOGETHER = "One event with this member's step before, or two: no line tells."


class Step:
    """Atoms of one event; `unsure` where it can't be told whether they are of one with those before."""

    def __init__(self, atoms: List[Atom], needs: List[Optional[Need]], unsure: bool = False) -> None:
        self.atoms, self.unsure = atoms, unsure
        self.needs = [need for need in needs if need is not None]
        self.kind, self.member = atoms[0].kind, atoms[0].member
        self.rules: List[str] = []
        self.events: Set[str] = set()  # the events that its rules are of
        self.view = 0
        applied = [atom.op for atom in atoms if atom.kind == "apply"]
        if applied and len(self.needs) > 1:
            self.needs = [self.telling(self.needs[0], applied[-1])] + self.needs[1:]

    @staticmethod
    def telling(need: Need, commit: int) -> Need:
        """Of the messages of a need those that told the commit number that was applied; all where none did."""
        fitting = [message for message in need.messages if message.numbers.get("commit", -1) >= commit]
        return need._replace(messages=fitting) if fitting else need

    def messages(self) -> List[Message]:
        return [message for atom in self.atoms for message in atom.messages]

    def lines(self) -> List[Line]:
        return [line for atom in self.atoms for line in atom.lines]

    def seconds(self) -> Optional[float]:
        return self.atoms[0].lines[0].seconds()

    def said(self) -> Words:
        """What it said, but for the numbers of messages; heartbeats all say the same."""
        return tuple("beat" if atom.kind == "beat" else re.sub(r"^send \d+", "send", line.text) for atom in self.atoms for line in atom.lines)


class Member:
    """The steps of one member, and how far they are taken."""

    def __init__(self, index: int, steps: List[Step]) -> None:
        self.index, self.steps = index, steps
        self.at = 0
        self.since = 0
        view = 0
        for step in steps:
            view = max([view] + [atom.view for atom in step.atoms if "view" in atom.numbers and atom.kind != "apply"])
            step.view = view

    def next(self) -> Optional[Step]:
        return self.steps[self.at] if self.at < len(self.steps) else None

    def share(self) -> float:
        return self.at / max(len(self.steps), 1)


class Merge:
    """Takes the members' steps one after the other."""

    def __init__(self, group: Group, members: List[Member]) -> None:
        self.group, self.members = group, members
        for message in (message for member in members for step in member.steps for message in step.messages()):
            message.number, message.came = NOT_SENT, False
        self.timed = all(step.seconds() is not None for member in members for step in member.steps)
        self.sent = 0

    def expected(self, need: Need, step: Step) -> Set[int]:
        """Who sent messages that a step would have to wait for; with times none that was sent later, but for clocks that differ where all is known that was sent."""
        now = step.seconds()
        if now is None or not self.timed:
            return senders_of(need.messages)
        least = now + (SKEW if self.group.is_known(step.member, heartbeats=step.kind == "apply") else 0)
        sent = ((message.sender, message.atom.lines[0].seconds()) for message in need.messages)
        return {sender for sender, when in sent if when is None or when <= least}

    def heard(self, need: Need, step: Step) -> Optional[List[Message]]:
        """The messages of a need that were sent by now, those that fit best first; None where the step has to wait."""
        sent = [message for message in need.messages if message.is_sent]
        if len(senders_of(sent)) < min(need.members, len(self.expected(need, step))):
            return None
        applied = max([atom.op for atom in step.atoms if atom.kind == "apply"], default=0)
        return sorted(sent, key=lambda message: (message.numbers.get("commit", applied) < applied, message.kind != "give_prepare",
                                                 message.numbers.get("commit", 0) if step.kind == "apply" else 0, message.number))

    def causes(self, member: Member, step: Step) -> Tuple[Optional[List[Message]], bool]:
        """The messages that a step answers, None where it has to wait for one, and whether it may go without."""
        chosen: Optional[List[Message]] = None
        for need in step.needs:
            sent = self.heard(need, step)
            if sent is None:
                return None, need.soft
            if not chosen:
                fitting = [message for message in sent if not step.events or message.kind in step.events]
                fresh = [message for message in fitting if not message.came and message.number >= member.since]
                chosen = self.one_each(fresh or fitting)[:need.members]
        return chosen or [], not step.needs

    @staticmethod
    def one_each(messages: List[Message]) -> List[Message]:
        """Of messages the first of each sender."""
        first: Dict[int, Message] = {}
        for message in messages:
            first.setdefault(message.sender, message)
        return list(first.values())

    def rank(self, member: Member, step: Step) -> Tuple[Rank, List[Message]]:
        """How soon a step comes, and what it answers."""
        causes, free = self.causes(member, step)
        now = step.seconds()
        if now is not None and self.timed:
            return (causes is None and not free, now, member.index), causes or []
        if step.kind == "start":
            rank = STARTS
        elif causes is None:
            rank = GOES_WITHOUT if free else WAITS
        else:
            rank = ANSWERS if causes else SPEAKS
        return (rank, step.view, member.share(), member.index), causes or []

    def choice(self) -> Optional[Tuple[Member, Step, List[Message]]]:
        """Whose step comes next, which it is, and what it answers; of those that are alike, the one of the earliest view."""
        ranked = [(*self.rank(member, step), member, step) for member in self.members for step in [member.next()] if step is not None]
        if not ranked:
            return None
        _, causes, member, step = min(ranked, key=lambda entry: entry[0])
        return member, step, causes

    def run(self) -> Iterator[Tuple[Member, Step, List[Message]]]:
        """Each step in its order, with what it answers."""
        while (choice := self.choice()) is not None:
            member, step, causes = choice
            member.at += 1
            if step.kind == "start":
                member.since = self.sent
            for message in causes:
                message.came = True
            for message in step.messages():
                message.number = self.sent
                self.sent += 1
            yield member, step, causes


class Played(Merge):
    """The same of lines that stand in their true order."""

    def __init__(self, group: Group, members: List[Member], order: List[int]) -> None:
        super().__init__(group, members)
        self.order = iter(order)

    def choice(self) -> Optional[Tuple[Member, Step, List[Message]]]:
        index = next(self.order, None)
        if index is None:
            return None
        member = next(member for member in self.members if member.index == index)
        step = member.steps[member.at]
        return member, step, self.causes(member, step)[0] or []


def needs_of(group: Group) -> Dict[int, List[Optional[Need]]]:
    """What each atom of each member needs; and each atom gets its clock, in an order that fits."""
    needs = {}
    for index, atoms in group.members.items():
        past = Past(group, index)
        needs[index] = [past.read(atom) for atom in atoms]
    clocks = Clocks(group)
    members = [Member(index, [Step([atom], [need]) for atom, need in zip(atoms, needs[index])]) for index, atoms in group.members.items()]
    for _, step, _ in Merge(group, members).run():
        clocks.take(step.atoms[0], needs[step.member][step.atoms[0].place])
    return needs


def steps_of(group: Group, index: int, needs: List[Optional[Need]], apart: FrozenSet[int] = frozenset()) -> List[Step]:
    """The events of a member, each with its rules. Before the places that are `apart` an event surely begins."""
    atoms = group.members[index]
    cutter = Cutter(group, index)
    cutter.apart = apart
    steps: List[Tuple[List[Atom], bool]] = []
    for atom, between in zip(atoms, cutter.cut(atoms)):
        if between in (TWO, UNSURE) or not steps:
            steps.append(([], between == UNSURE))
        steps[-1][0].append(atom)
    made = [Step(some, [needs[atom.place] for atom in some], unsure) for some, unsure in steps]
    names = Namer(group, index, atoms).of_steps([step.atoms for step in made], [step.unsure for step in made])
    for step, rules in zip(made, names):
        step.rules, step.events = rules, {EVENTS[rule] for rule in rules}
    return made


def shown(step: Step, causes: List[Message]) -> ShownStep:
    """A step, ready for the page."""
    made = step_of(f"member {step.member}", TOGETHER if step.unsure else "")
    made["outputs"] = [shorten(line.text) for line in step.lines()]
    made["came"] = [message.number for message in causes]
    made["rules"] = step.rules
    made["unsure"] = step.unsure
    stamp = step.atoms[0].lines[0].stamp
    if stamp is not None:
        made["time"] = stamp
    if step.kind in ("start", "halt"):
        made["words"] = [step.kind]
    return made


def end_before(step: Step) -> ShownStep:
    """The end of a member before it started again, as its keeper tells it."""
    remarks = [(stamp, text) for stamp, text in step.atoms[0].lines[0].remarks if " ended" in text or "is stopped and started" in text]
    made = step_of(f"stop {step.member}", remarks[-1][1] if remarks else ENDED)
    if remarks and remarks[-1][0]:
        made["time"] = remarks[-1][0]
    return made


class Shown:
    """The steps of the page, as they are taken; at most MOST_STEPS, and then without those that say again what their member said."""

    def __init__(self, merge: Merge, thin: bool) -> None:
        self.steps: List[ShownStep] = []
        self.ends: List[ShownStep] = []  # of members that ended and whose time hasn't come
        self.left_out, self.whole = 0, True
        said: Dict[int, Dict[str, Words]] = {member.index: {} for member in merge.members}
        for member, step, causes in merge.run():
            again = not step.unsure and not step.atoms[0].kind == "apply" and said[member.index].get(step.kind) == step.said()
            said[member.index][step.kind] = step.said()
            following = member.next()
            if again and thin and not (following and following.unsure):
                self.left_out += len(step.lines())
                self.drop(step, merge)
                continue
            if len(self.steps) >= MOST_STEPS:
                self.whole = False
                break
            self.tell_ends(step.atoms[0].lines[0].stamp)
            self.steps.append(shown(step, causes))
            if again and not causes:
                self.steps[-1]["again"] = True
            if following and following.kind == "start":
                self.ends.append(end_before(following))
                self.tell_ends(None)
        self.tell_ends("9")

    def tell_ends(self, stamp: Optional[str]) -> None:
        """The ends of members of which no line tells when they were, and those up to a time."""
        due = [end for end in self.ends if "time" not in end or stamp is not None and end["time"] <= stamp]
        self.ends = [end for end in self.ends if end not in due]
        self.steps += due

    @staticmethod
    def drop(step: Step, merge: Merge) -> None:
        """Its messages aren't shown: the others count on without them."""
        merge.sent -= len(step.messages())
        for message in step.messages():
            message.number = NOT_SENT


def absent(group: Group) -> List[int]:
    """The members that aren't known to run at first: those of which there is no line, and those that begin with a start."""
    return [index for index in range(group.size) if not group.members.get(index) or group.members[index][0].kind == "start"]


def check_size(group: Group) -> None:
    if group.size > MOST_REPLICAS:
        raise BadRun(f"a group has no replica {group.size - 1}")


def merge_members(paths: List[str]) -> ShownRun:
    """The run that the files of members tell, ready for the page."""
    lines, silent = read_members(paths)
    cut = any(len(of_member) > MOST_LINES for of_member in lines.values())
    group = Group({index: atoms_of(of_member[-MOST_LINES:]) for index, of_member in lines.items()}, silent)
    check_size(group)
    needs = needs_of(group)
    steps = {index: steps_of(group, index, needs[index]) for index in group.members}
    merge = Merge(group, [Member(index, of_member) for index, of_member in steps.items()])
    made = Shown(merge, sum(map(len, steps.values())) > MOST_STEPS)
    about = "What running members wrote, in the order of their times, as far as what was sent and answered allows." if merge.timed else \
        "What running members wrote, in an order that fits what was sent and answered; it needn't be that of the clock."
    about += f" Of each member the last {MOST_LINES:,} lines are read." if cut else ""
    about += f" {made.left_out:,} lines that say again what was said are left out." if made.left_out else ""
    about += "" if made.whole else f" Only the first {MOST_STEPS:,} steps are shown."
    return {"about": about, "size": group.size, "members": True, "absent": absent(group), "at": 0, "steps": made.steps}


def read_outputs(path: str) -> ShownRun:
    """The run that the outputs of a `replay` tell without its schedule, ready for the page: who sent what, and what it answers, but no line."""
    texts = [text for text in read_texts(path) if text not in ("done", "kept out") and not text.startswith("migrated ")]
    by_member: Dict[int, List[Line]] = {}
    places: Dict[int, List[int]] = {}
    for place, text in enumerate(texts):
        line = lines_of(path, [text])[0]
        owner = owner_of(text.split(" "))
        by_member.setdefault(owner, []).append(line)
        places.setdefault(owner, []).append(place)
    group = Group({owner: atoms_of(lines) for owner, lines in by_member.items()})
    check_size(group)
    needs = needs_of(group)
    steps: Dict[int, List[Step]] = {}
    order: List[Tuple[int, int]] = []
    for owner, atoms in group.members.items():
        firsts = first_places(atoms, places[owner])
        apart = frozenset(at for at in range(1, len(atoms)) if firsts[at] != places[owner][places[owner].index(firsts[at]) - 1] + 1)
        steps[owner] = steps_of(group, owner, needs[owner], apart)
        order += [(firsts[step.atoms[0].place], owner) for step in steps[owner]]
    merge = Played(group, [Member(owner, of_member) for owner, of_member in steps.items()], [owner for _, owner in sorted(order)])
    made = Shown(merge, False)
    about = "What `replay` wrote, without the lines of its schedule: what came is told as far as the outputs tell it."
    about += "" if made.whole else f" Only the first {MOST_STEPS:,} steps are shown."
    return {"about": about, "size": group.size, "members": True, "at": 0, "steps": made.steps}


def first_places(atoms: List[Atom], places: List[int]) -> List[int]:
    """Of each atom where its first line stands among all."""
    firsts, at = [], 0
    for atom in atoms:
        firsts.append(places[at])
        at += len(atom.lines)
    return firsts


OUTPUTS = ("send", "commit", "reply", "choose", "wait", "start", "halt", "done", "kept")
"""The words with which an output begins; no line of a schedule but `start` does so, and none begins a schedule."""


def is_outputs(path: str) -> bool:
    """Whether a file has outputs alone."""
    with open(path, encoding="ascii") as file:
        return file.readline().split(" ")[0] in OUTPUTS
