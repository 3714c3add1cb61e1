"""Where a member's lines are cut into events: by the rules of RULES.md, what others sent, and the times.

Between two atoms stands one of three: they are of one event, of two, or it can't be told."""

from typing import FrozenSet, Iterable, List, Optional, Set, Tuple

from .atoms import Atom, LOGS, Message, VIEW_CHANGE
from .causes import Group, may_have_come

ONE, TWO, UNSURE = "one", "two", "one or two"
APART = 0.5
"""Seconds; lines that are read so far apart are of two events."""
BEGINS = ("start", "halt", "redirect", "busy", "answer", "beat", "get_view", "get_sync", "sync_view", "give_prepare", "give_block")
"""What only begins an event."""


def among(one: bool, two: bool) -> str:
    """One of three, by which of them may be."""
    return UNSURE if one and two else ONE if one else TWO


class Told:
    """What a member's lines told in this life: what it said in which view, and what it asked for."""

    def __init__(self) -> None:
        self.begin()

    def begin(self) -> None:
        self.entered: Set[int] = set()
        self.stated: Set[int] = set()
        self.waited: Set[int] = set()
        self.asked: Set[Tuple[str, Optional[int]]] = set()  # and for which op; for a block there is none
        self.commit = 0  # the greatest commit number that it told
        self.normal = -1  # the last view in whose normal case it spoke

    def read(self, atom: Atom) -> None:
        if atom.kind == "start":
            self.begin()
            self.entered.add(atom.view)
        elif atom.kind == "start_view_change":
            self.entered.add(atom.view)
        elif atom.kind == "do_view_change":
            self.stated.add(atom.view)
        elif atom.kind == "wait":
            self.waited.add(atom.view)
        elif atom.kind in ("get_prepare", "get_block"):
            self.asked.add((atom.kind, atom.numbers.get("op")))
        elif atom.kind in ("prepare_ok", "prepare", "beat"):
            self.normal = atom.view
        if atom.kind in ("start", "choose", "do_view_change", "beat", "prepare"):
            self.commit = max(self.commit, atom.commit)


class Cutter:
    """Cuts the atoms of one member. `event` has those of the event that goes on, `again` whether it began with a change of view that was said before."""

    def __init__(self, group: Group, member: int) -> None:
        self.group, self.member, self.told = group, member, Told()
        self.event: List[Atom] = []
        self.again = False
        self.apart: FrozenSet[int] = frozenset()  # the places before which an event surely begins

    def cut(self, atoms: Iterable[Atom]) -> List[str]:
        """What stands before each atom."""
        return [self.take(atom) for atom in atoms]

    def take(self, atom: Atom) -> str:
        between = self.between(atom)
        if between == TWO:
            self.event = []
            self.again = atom.kind == "start_view_change" and atom.view in self.told.entered
        self.event.append(atom)
        self.told.read(atom)
        return between

    def between(self, atom: Atom) -> str:
        if not self.event or atom.kind in BEGINS or atom.missing or atom.place in self.apart or self.is_late(atom):
            return TWO
        last = self.event[-1]
        if atom.kind in ("get_prepare", "get_block"):
            return self.before_question(atom)
        if atom.kind in ("choose", "wait", "do_view_change"):
            return self.before_word(atom) if last.kind == "start_view_change" and last.view == atom.view else TWO
        by_kind = {"apply": self.before_apply, "prepare": self.before_prepare, "prepare_ok": self.before_ok, "start_view_change": self.before_change}
        if atom.kind in by_kind:
            return by_kind[atom.kind](atom, last)
        return ONE if atom.kind == "start_view" and last.kind == "choose" and atom.view == last.view else TWO

    def is_late(self, atom: Atom) -> bool:
        before, now = self.event[-1].lines[-1].seconds(), atom.lines[0].seconds()
        return before is not None and now is not None and now - before >= APART

    # What may have come before an event.

    def came(self, messages: Iterable[Message]) -> List[Message]:
        return [message for message in messages if may_have_come(message, self.event[0])]

    def is_known(self, heartbeats: bool = False) -> bool:
        """Whether all is known that others sent to it."""
        return self.group.is_known(self.member, heartbeats)

    def may_have_taken(self, view: int) -> bool:
        """Whether it may have taken over a log of this view or a later one."""
        messages = [message for kind in LOGS for message in self.group.found(self.member, kind) if message.view >= view]
        return bool(messages) or not self.is_known()

    # The kinds of atoms, each after those before it.

    def before_change(self, atom: Atom, last: Atom) -> str:
        """An opening tells the others where its view isn't started."""
        start = self.event[0]
        return ONE if start.kind == "start" and last.kind in ("start", "apply") and start.view == atom.view else TWO

    def before_word(self, atom: Atom) -> str:
        """Behind a change of view: by a tick that says all again; or by a message, which the change came with or came after."""
        group, view = self.group, atom.view
        if self.event[0].kind == "start":
            return TWO
        if self.again and atom.kind == "do_view_change":
            return ONE if view in self.told.stated else TWO
        if self.again:
            changes = self.came(group.found(self.member, "start_view_change", "view", view))
            heard = len({message.sender for message in changes}) >= VIEW_CHANGE[group.size] - 1 or not self.is_known()
            return among(view in self.told.waited and heard or group.size == 1, True)
        if VIEW_CHANGE[group.size] > 2:
            return TWO
        kind = "start_view_change" if atom.kind == "do_view_change" else "do_view_change"
        return among(bool(self.came(group.found(self.member, kind, "view", view))) or not self.is_known(), True)

    def before_question(self, atom: Atom) -> str:
        """A tick asks last, after all else that it says."""
        first = self.event[0]
        if first.kind == "beat":
            return ONE
        if not (first.kind == "start_view_change" and self.again):
            return TWO
        chose = any(earlier.kind == "choose" for earlier in self.event)
        return among(True, not chose and self.may_have_taken(first.view))

    def before_prepare(self, atom: Atom, last: Atom) -> str:
        """A tick sends what isn't committed again; a new primary sends what it chose."""
        if last.kind == "beat":
            return among(atom.op == last.commit + 1 <= last.op, False)
        choice = next((earlier for earlier in self.event if earlier.kind == "choose"), None)
        if choice is None or last.kind not in ("choose", "start_view", "prepare"):
            return TWO
        if not choice.commit < atom.op <= choice.head or last.kind == "prepare" and atom.op <= last.op:
            return TWO
        return among(True, self.may_be_given(atom.op))

    def before_ok(self, atom: Atom, last: Atom) -> str:
        """A log that is taken over is acknowledged op by op."""
        if last.kind != "prepare_ok" or last.view != atom.view or last.op >= atom.op:
            return TWO
        first = self.event[0]
        logs = self.came(message for message in self.group.logs_of(self.member, atom.view, atom.op) if message.commit < first.op)
        entries = self.came(message for message in self.group.found(self.member, "prepare", "op", atom.op) if message.view == atom.view)
        entries += self.came(self.group.found(self.member, "give_prepare", "op", atom.op))
        return among(bool(logs) or not self.is_known(), bool(entries) or not logs or not self.is_known())

    def before_apply(self, atom: Atom, last: Atom) -> str:
        first = self.event[0]
        if first.kind == "start":
            return among(True, self.may_be_given(atom.op)) if last.kind in ("start", "apply") and atom.op <= first.commit else TWO
        if any(earlier.kind == "choose" for earlier in self.event):
            return self.before_chosen(atom, last)
        if last.kind == "apply" and last.op + 1 != atom.op:
            return TWO
        if last.kind == "apply" and atom.op <= self.told.commit:
            return among(True, self.may_be_given(atom.op))
        return self.before_counted(atom, last) if atom.replies else self.before_learned(atom, last)

    def before_chosen(self, atom: Atom, last: Atom) -> str:
        """A new primary applies what its log says to be committed; alone in its group all of it."""
        choice = next(earlier for earlier in self.event if earlier.kind == "choose")
        most = choice.head if self.group.size == 1 else choice.commit
        if last.kind not in ("choose", "start_view", "prepare", "apply") or atom.op > most:
            return TWO
        return among(True, self.may_be_given(atom.op))

    def before_counted(self, atom: Atom, last: Atom) -> str:
        """A primary: several at once where the acknowledgement of the first came last, or where it lacked something."""
        if self.group.size == 1 and last.kind == "prepare":
            return ONE
        if last.kind == "prepare":
            return among(self.event[0] is last and bool(self.told.asked or self.came(self.group.found(self.member, "give_prepare"))), True)
        if last.kind != "apply" or self.group.size == 1:
            return TWO
        return among(bool(self.came(self.group.found(self.member, "prepare_ok", "op", atom.op))) or not self.is_known(), True)

    def before_learned(self, atom: Atom, last: Atom) -> str:
        """A backup: what came told a commit number, and it applied up to it."""
        if last.kind not in ("apply", "prepare_ok", "get_view"):
            return TWO
        if not self.is_known(heartbeats=self.event[0].kind != "prepare_ok"):
            return UNSURE
        told = {message.commit for message in self.came(self.tellers())}
        one, two = any(commit >= atom.op for commit in told), any(commit < atom.op for commit in told)
        first = self.event[0]
        if first.kind == "prepare_ok" and atom.op >= first.op and self.may_have_lacked(first):
            return UNSURE
        given = first.kind == "apply" and self.may_be_given(first.op)
        return among(one or given, two or given or self.may_be_given(atom.op) or self.is_of_later_view() or not one)

    def may_be_given(self, op: int) -> bool:
        """Whether an operation that it lacked may have been given, or a block."""
        return not self.is_known() or bool(self.came(self.group.found(self.member, "give_prepare", "op", op) + self.group.found(self.member, "give_block")))

    def may_have_lacked(self, atom: Atom) -> bool:
        """Whether an operation that it acknowledges may have been one that it lacked, and that was committed."""
        return ("get_prepare", atom.op) in self.told.asked or bool(self.came(self.group.logs_of(self.member, atom.view, atom.op)))

    def is_of_later_view(self) -> bool:
        """Whether it may have asked for a log because it wasn't in its view yet, or have had it since."""
        first = self.event[0]
        return first.kind == "get_view" and (self.told.normal != first.view or self.may_have_taken(first.view))

    def tellers(self) -> List[Message]:
        """The messages that may have brought the event, and tell a commit number."""
        group, first = self.group, self.event[0]
        if first.kind == "prepare_ok":
            ops = [earlier.op for earlier in self.event if earlier.kind == "prepare_ok"]
            prepares = [message for message in group.found(self.member, "prepare", "op", first.op) if message.view == first.view and len(ops) == 1]
            return prepares + [message for message in group.logs_of(self.member, first.view, ops[-1]) if message.commit < first.op]
        if first.kind == "get_view":
            heard = group.found(self.member, "prepare", "view", first.view) + group.found(self.member, "commit", "view", first.view)
            return [message for message in heard if message.sender == first.to()]
        return group.telling(self.member, first.op) + group.telling(self.member, self.event[-1].op + 1)
