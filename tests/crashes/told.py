"""What members told of: the one log that a recorded group committed, and what each member has told others of its own log up to a moment."""

from typing import Dict, List, NamedTuple, Optional, Set, Tuple

from nozhgiva_tools.told.lines import applied_of, Execution
from nozhgiva_tools.told.store import of_words, Store

from .reading import datafile
from .recording import Call
from .statements import Statement, statement_of

REPLY, PREPARE, PREPARE_OK, COMMIT, START_VIEW_CHANGE, DO_VIEW_CHANGE, START_VIEW, GIVE_PREPARE, SYNC_VIEW = 5, 6, 7, 8, 9, 10, 11, 14, 19
# A member that sends one of these has the log of the view that the message names.
OF_A_LOG = (PREPARE, PREPARE_OK, COMMIT, START_VIEW, SYNC_VIEW)
OUTCOME = 1


class Split(Exception):
    """Two members of a recorded group applied different operations under one number."""


class Executed(NamedTuple):
    """An operation of the one log: the view in which its entry was made, who asked for it under which number, and what."""

    made: int
    client: int
    request: int
    words: Tuple[str, ...]


class Log:
    """The one log of a recorded group, as its members' lines tell it, and the names of the entries that they wrote."""

    def __init__(self) -> None:
        self.executed: Dict[int, Executed] = {}
        self.names: Dict[Tuple[int, int], bytes] = {}
        # Which checkpoints were given to whom: a member that takes one over has none of its blocks at first.
        self.given: Set[Tuple[int, int]] = set()
        self.kept: Dict[int, Dict[str, str]] = {}

    def add(self, calls: List[Call], ports: Dict[int, int]) -> None:
        """Adds the calls of a member; `ports` are those of the group, with their members."""
        for call in calls:
            if call.kind == "line":
                for line in call.data.decode("ascii").splitlines():
                    self.add_line(line.split())
            elif call.kind == "write" and any(call.data[:16]):
                header = datafile.header_of(call.data)
                if header is not None and header.command == datafile.ENTRY:
                    self.names[header.op, header.view] = header.bytes[:16]
            elif call.kind == "send" and call.at in ports and call.data[108] == SYNC_VIEW:
                self.given.add((ports[call.at], datafile.number(call.data, 128, 8)))

    def add_line(self, words: List[str]) -> None:
        applied = applied_of(words) if words else None
        if applied is not None:
            op, executed = applied.op, executed_of(applied)
            if self.executed.setdefault(op, executed) != executed:
                raise Split(f"operation {op} is {executed} and {self.executed[op]}")

    def name(self, op: int) -> Optional[bytes]:
        """The name of the entry that was committed under this number."""
        executed = self.executed.get(op)
        return None if executed is None else self.names.get((op, executed.made))

    def keys_at(self, op: int) -> Dict[str, str]:
        """The keys and their values once so many operations were executed."""
        if op not in self.kept:
            store = Store()
            for number in range(1, op + 1):
                store.execute(of_words(self.executed[number].words))
            self.kept[op] = store.keys
        return self.kept[op]


def executed_of(applied: Execution) -> Executed:
    return Executed(applied.view, applied.client, applied.request, applied.words)


class Claim(NamedTuple):
    """That a member has an entry of this name, as it said with the log of this view; where it isn't `here`, that it had it, or may have."""

    name: bytes
    view: int
    here: bool


class Told:
    """What one member has told, up to a moment of its recording."""

    def __init__(self) -> None:
        self.view = self.log_view = 0
        self.claims: Dict[int, Claim] = {}
        self.answered: Dict[int, int] = {}
        self.spoke = False
        # From the moment at which the recording itself damaged its file.
        self.is_damaged = False

    def copy(self) -> "Told":
        other = Told()
        other.view, other.log_view, other.spoke, other.is_damaged = self.view, self.log_view, self.spoke, self.is_damaged
        other.claims, other.answered = dict(self.claims), dict(self.answered)
        return other

    def take(self, call: Call) -> None:
        if call.kind == "send":
            header = datafile.header_of(call.data)
            if header is not None:
                self.spoke = True
                self.hear(header, call.data)
        elif call.kind == "damage":
            self.is_damaged = True

    def hear(self, header: datafile.Header, data: bytes) -> None:
        command = header.command
        if command in OF_A_LOG:
            self.log_view = max(self.log_view, header.view)
        if command in OF_A_LOG or command in (REPLY, START_VIEW_CHANGE, DO_VIEW_CHANGE):
            self.view = max(self.view, header.view)
        if command == PREPARE:
            self.claim(header.op, data[128:144], header.view)
        elif command == PREPARE_OK:
            self.claim(header.op, data[32:48], header.view)
        elif command == GIVE_PREPARE:
            self.claim(header.op, data[128:144], self.log_view)
        elif command == DO_VIEW_CHANGE:
            self.state(statement_of(data))
        elif command == REPLY and header.kind == OUTCOME:
            client, request = datafile.number(data, 72, 8), header.request
            self.answered[client] = max(request, self.answered.get(client, 0))

    def state(self, statement: Statement) -> None:
        self.log_view = max(self.log_view, statement.log_view)
        for op, part in statement.parts.items():
            if part.kind in ("here", "lost"):
                self.claim(op, part.name, statement.log_view, part.kind == "here")

    def claim(self, op: int, name: bytes, view: int, here: bool = True) -> None:
        self.claims[op] = Claim(name, view, here)
