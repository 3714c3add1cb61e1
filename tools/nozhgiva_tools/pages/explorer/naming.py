"""Which rules may have made a member's event: those that fit what it put out, and that no known number excludes (told.json)."""

import re
from copy import copy
from typing import Dict, Iterable, List, NamedTuple, Optional, Pattern, Set, Tuple, Union

from .atoms import Atom, LOGS, Message, VIEW_CHANGE
from .causes import Group, may_have_come
from .rules import read_told

CHECKPOINT_EVERY = 32
FOREVER = float("inf")
MOST_AHEAD = 64
"""How far what is acknowledged may be ahead of what is applied: no log reaches farther above its checkpoint."""
BEGIN = "choose (start_view )*(prepare )*(apply (reply )?)*"
COMPARISON = re.compile(r"(.*) (<=|>=|<|>|=) (.*)")
Range = Tuple[float, float]
"""The least and the greatest that a number may be."""
Fact = Union[Range, bool, None]
"""What is known of a number, or of a statement: whether it holds, None where no line tells."""
Facts = Dict[str, Fact]


class Row(NamedTuple):
    """A row of told.json, its pattern ready to be matched."""

    rule: str
    event: str
    when: List[str]
    says: "Pattern[str]"


ROWS = [Row(row["rule"], row["event"], row["when"], re.compile(row["says"].replace("BEGIN", BEGIN))) for row in read_told()]
EVENTS = {row.rule: row.event for row in ROWS}
KEYS = (("acked = k", "op", "acked"), ("gave = k", "op", "gave"), ("gave = k", "block", "gave"), ("entered = v", "view", "entered"), ("now = v", "view", "now"),
        ("asked = v", "view", "asked"), ("v = given", "view", "given"))


def checkpoint_of(applied: float) -> float:
    return applied if applied == FOREVER else applied // CHECKPOINT_EVERY * CHECKPOINT_EVERY


class Known:
    """What is known of a member: the least and the greatest that a number may be; of a statement whether it holds, None where no line tells."""

    def __init__(self, group: Group, member: int, from_its_making: bool) -> None:
        self.group, self.member = group, member
        most = 0 if from_its_making else FOREVER
        self.view: Range = (0, most)
        self.log_view: Range = (0, most)
        self.head: Range = (0, most)
        self.applied: Range = (0, most)
        self.commit = 0
        self.started: Optional[bool] = True if from_its_making else None
        self.held: Set[Tuple[int, int]] = set()
        self.waited: Optional[int] = None if from_its_making else -1  # the view in which it waited for a log; -1 where no line tells

    def be_in(self, view: int, started: bool) -> None:
        """It speaks in a view."""
        if started and (self.started is not True or self.view != (view, view)):
            logs = [message.op for message in self.group.logs_of(self.member, view)]
            self.head = (self.commit, max([self.head[1], *logs]))
            self.log_view = (view, view)
            self.held = set()
        self.view, self.started = (view, view), started

    def reach(self, op: int) -> None:
        """Its log reaches an op."""
        self.head = (max(self.head[0], op), max(self.head[1], op))

    def learn(self, commit: int) -> None:
        self.commit = max(self.commit, commit)
        self.reach(self.commit)

    def read(self, atom: Atom) -> None:
        """What an atom tells."""
        kind = atom.kind
        if kind in ("prepare", "prepare_ok"):
            self.be_in(atom.view, True)
            self.reach(atom.op)
            self.held.add((atom.view, atom.op))
        elif kind in ("beat", "start_view", "sync_view", "choose"):
            self.be_in(atom.view, True)
            self.head = (atom.head if kind == "choose" else atom.op,) * 2
        elif kind in ("start_view_change", "wait"):
            self.be_in(atom.view, False)
            self.waited = atom.view if kind == "wait" else self.waited
        elif kind == "do_view_change":
            self.be_in(atom.view, False)
            self.log_view = (field_log(atom),) * 2
            self.head = (atom.head, atom.head)
        elif kind == "start":
            self.start(atom)
        elif kind == "apply":
            self.applied = (atom.op, atom.op)
            self.learn(atom.op)
        if kind in ("prepare", "beat", "start_view", "sync_view", "choose", "do_view_change"):
            self.learn(atom.commit)

    def start(self, atom: Atom) -> None:
        """It was recovered from its disk."""
        log = int(atom.words[5])
        self.view, self.log_view, self.started = (atom.view, atom.view), (log, log), atom.view == log
        self.head, self.applied, self.held = (0, self.head[1]), (0, self.applied[1]), set()
        self.commit, self.waited = 0, None
        self.learn(atom.commit)

    def before(self, atom: Atom) -> Facts:
        """What is known as an event begins: a log may have been taken over without a word."""
        logs = [message for kind in LOGS for message in self.group.found(self.member, kind) if self.may_take(message) and may_have_come(message, atom)]
        silent = any(message.view > self.view[0] or self.started is not True for message in logs)
        known = self.group.is_known(self.member)
        view = max([self.view[1], *(message.view for message in logs)]) if known else FOREVER
        head = max([self.head[1], *(message.op for message in logs)]) if known else FOREVER
        least = min([self.head[0], *(message.op for message in logs)]) if known else self.commit
        applied = max([self.applied[1], *(message.numbers.get("checkpoint", 0) for message in logs)]) if known else FOREVER
        started = None if silent or not known and self.started is False else self.started
        leads = started and (self.view[0] % self.group.size == self.member if self.view[0] == view or known else None)
        if started is None and self.view[1] != FOREVER and self.view[0] % self.group.size != self.member:
            leads = False
        return {
            "view": (self.view[0], view), "log_view": (self.view[0] if started else self.log_view[0], max(view, self.log_view[1])), "commit": (self.commit, FOREVER),
            "checkpoint": (checkpoint_of(self.applied[0]), checkpoint_of(applied)), "head": (least, head), "started": started, "leads": leads,
            "alone": self.group.size == 1, "quorum": (VIEW_CHANGE[self.group.size],) * 2, "waited": None if self.waited == -1 else self.waited == self.view[0],
        }

    def may_take(self, message: Message) -> bool:
        if message.view < self.view[0] or message.view % self.group.size == self.member:
            return False
        return message.view > self.view[0] or self.started is not True or message.op > self.head[0]


def field_log(atom: Atom) -> int:
    """The log view of a statement."""
    return int(atom.words[atom.words.index("log") + 1])


def range_of(words: str, known: Facts) -> Range:
    """`view + 1` as the least and the greatest number that it may be."""
    name, _, plus = words.partition(" + ")
    fact = (int(name), int(name)) if name.isdigit() else known.get(name)
    least, most = fact if isinstance(fact, tuple) else (0, FOREVER)
    return least + int(plus or 0), most + int(plus or 0)


def may_hold(condition: str, known: Facts) -> bool:
    """Whether a condition may hold, by what is known."""
    if " | " in condition:
        return any(may_hold(part, known) for part in condition.split(" | "))
    parts = COMPARISON.fullmatch(condition)
    if parts is None:
        return known.get(condition[1:]) is not True if condition.startswith("!") else known.get(condition) is not False
    (a, b), (c, d) = range_of(parts[1], known), range_of(parts[3], known)
    return {"<": a < d, "<=": a <= d, ">": b > c, ">=": b >= c, "=": a <= d and c <= b}[parts[2]]


def tokens_of(atoms: Iterable[Atom]) -> str:
    """What told.json has for the lines of an event."""
    tokens: List[str] = []
    for atom in atoms:
        tokens += ["apply"] + ["reply"] * (len(atom.lines) - 1) if atom.kind == "apply" else [atom.kind] * len(atom.lines)
    return "".join(token + " " for token in tokens)


def said_by(atoms: Iterable[Atom]) -> Dict[str, int]:
    """The numbers that an event put out, by the names that told.json has for them."""
    said: Dict[str, int] = {}
    for atom in atoms:
        kind = atom.kind
        if kind == "start_view_change":
            said["entered"] = atom.view
        if kind in ("do_view_change", "choose", "wait", "prepare_ok"):
            said["now"] = atom.view
        if kind == "prepare_ok":
            said.setdefault("least", atom.op)
            said["acked"] = atom.op
        if kind == "prepare":
            said.setdefault("prepared", atom.op)
        if kind in ("get_view", "get_sync"):
            said["asked"] = atom.view
        if kind == "start_view":
            said["given"] = atom.view
        if kind in ("give_prepare", "give_block"):
            said["gave"] = atom.messages[0].told()["k"]
        if kind == "apply":
            said.setdefault("from", atom.op)
            said["to"] = atom.op
    return said


class Namer:
    """Names the rules of one member's events."""

    def __init__(self, group: Group, member: int, atoms: List[Atom]) -> None:
        self.group, self.member = group, member
        fresh = bool(atoms) and not atoms[0].missing and atoms[0].kind != "start"
        self.known = Known(group, member, fresh)

    def names(self, atoms: List[Atom], known: Known) -> List[str]:
        """The rules that may have made an event, before which so much was known."""
        tokens, said, before = tokens_of(atoms), said_by(atoms), known.before(atoms[0])
        numbers: Facts = {**before, **{name: (number, number) for name, number in said.items()}}
        found: List[str] = []
        for row in ROWS:
            if row.rule not in found and row.says.fullmatch(tokens) and self.fits(row, atoms[0], numbers, said, known):
                found.append(row.rule)
        return found

    def fits(self, row: Row, first: Atom, numbers: Facts, said: Dict[str, int], known: Known) -> bool:
        if row.event in ("tick", "request"):
            return all(may_hold(condition, numbers) for condition in row.when)
        if not all(may_hold(condition, numbers) for condition in row.when):
            return False
        if not self.group.is_known(self.member, heartbeats=row.event == "commit"):
            return True
        return any(may_have_come(message, first) and self.agrees(row, message, numbers, known) for message in self.candidates(row, said))

    def candidates(self, row: Row, said: Dict[str, int]) -> List[Message]:
        """Messages to the member of the kind that the rule is of; where the rule says which, these."""
        for condition, key, name in KEYS:
            if condition in row.when and name in said:
                if key == "block" and not row.event.endswith("_block") or key == "op" and row.event.endswith("_block"):
                    continue
                return self.group.found(self.member, row.event, key, said[name])
        if row.event == "commit" and "to" in said:
            return [message for message in self.group.telling(self.member, said["to"]) if message.kind == "commit"]
        if row.event == "prepare_ok" and "from" in said:
            return [message for op in range(said["from"], said["from"] + MOST_AHEAD) for message in self.group.found(self.member, "prepare_ok", "op", op)]
        return self.group.found(self.member, row.event)

    def agrees(self, row: Row, message: Message, numbers: Facts, known: Known) -> bool:
        """Whether the rule's conditions may hold of this message."""
        view, op = message.numbers.get("view"), message.numbers.get("op")
        values: Facts = {
            **numbers, **{name: (number, number) for name, number in message.told().items()},
            "primary": None if view is None else view % self.group.size == self.member,
            "held": True if (view, op) in known.held and known.view == (view, view) else None,
            "fresh": True if op is not None and op > range_of("head", numbers)[1] else None,
        }
        return all(may_hold(condition, values) for condition in row.when)

    def of_steps(self, steps: List[List[Atom]], unsure: List[bool]) -> List[List[str]]:
        """The rules of each step. Where it can't be told whether a step is of one event with the one before, those of both together are named too."""
        before = []
        for atoms in steps:
            before.append(copy(self.known))
            before[-1].held = set(self.known.held)
            for atom in atoms:
                self.known.read(atom)
        names: List[List[str]] = [[] for _ in steps]
        for first in range(len(steps)):
            together: List[Atom] = []
            for last in range(first, min(first + MOST_TOGETHER, len(steps))):
                if last > first and not unsure[last]:
                    break
                together = together + steps[last]
                found = self.names(together, before[first])
                for at in range(first, last + 1):
                    names[at] += [name for name in found if name not in names[at]]
        return names


MOST_TOGETHER = 4
"""The most steps that are looked at as one event where it can't be told."""
