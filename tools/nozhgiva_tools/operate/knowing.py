"""What a keeper knows of its member by its lines: whether clients ask it in vain; what it said that it applied, so that it is seen where it says something else of
the same operation; and how many keys and sessions its state holds, those of its checkpoint, as its file has it, and what its lines tell that it applied since.

Times are seconds of the keeper's clock."""

import hashlib
from collections import deque
from typing import Deque, Dict, Optional, Tuple

from nozhgiva_tools.told import datafile
from nozhgiva_tools.told.lines import Applied, Line, Request
from nozhgiva_tools.told.store import of_words, Store
from nozhgiva_tools.told.table import Session

PROBE = 2 ** 64 - 1  # the number of the client that `status` asks as; no other client has it, and its replies aren't looked at
VAIN = ("busy", "redirect", "prepare")  # lines that show that something is asked, and not that it is done
GONE = 3.0  # seconds after which clients that haven't asked again have given up
NAMED = 4096  # operations of which the name of what was said is remembered
REMEMBERED = 160  # operations whose lines are kept: a checkpoint and the window behind it
LATELY = 300.0  # seconds; a session that was used within them may be one of a client at work
NEVER = float("-inf")


class Demand:
    """Since when clients have been asking, with nothing applied."""

    def __init__(self) -> None:
        self.since: Optional[float] = None
        self.last = 0.0  # when something was asked last
        self.applied: Optional[float] = None  # when something was applied last
        self.op = 0

    def hear(self, now: float, line: Line) -> None:
        if line.kind == "applied" and line.op > self.op:
            self.op, self.applied, self.since = line.op, now, None
        elif line.kind in VAIN:
            if self.since is None or now - self.last > GONE:
                self.since = now
            self.last = now

    def waits(self, now: float) -> float:
        """For how many seconds clients have been asking in vain: one that asked once, and no more, hasn't."""
        return self.last - self.since if self.since is not None and now - self.last <= GONE else 0.0

    def ago(self, now: float) -> Optional[float]:
        """How many seconds ago it applied something; None where it never did."""
        return None if self.applied is None else now - self.applied


class Heard:
    """What was heard of each of the last operations, whatever starts lie between. All members apply one list of operations, so nothing of it ever changes."""

    def __init__(self) -> None:
        self.names: Dict[int, bytes] = {}
        self.last = 0  # the operation that was heard last

    def hear(self, text: bytes, line: Line) -> Optional[str]:
        """A line of a member; where it contradicts one from before, a sentence that says so."""
        if line.kind != "applied" or line.request is None:
            return None
        name = hashlib.blake2b(text.split(b" ", 4)[4], digest_size=16).digest()
        before = self.names.get(line.op)
        self.names[line.op], self.last = name, line.op
        if len(self.names) > NAMED:
            del self.names[min(self.names)]
        return f"operation {line.op} isn't what it was when the member applied it before" if before not in (None, name) else None


class Tally:
    """The keys and sessions of a member's state; None where they aren't known, as before its file was read."""

    def __init__(self) -> None:
        self.lines: Deque[Tuple[float, Applied]] = deque(maxlen=REMEMBERED)
        self.used: Dict[int, float] = {}  # when a client's session was used last, as far as that was heard
        self.evicted = {"lately": 0, "earlier": 0}  # sessions that a further one ended, by when they were used last
        self.forget()

    def forget(self) -> None:
        self.op: Optional[int] = None  # up to which all is counted
        self.names = Store()
        self.clients: Dict[int, Session] = {}  # by their numbers
        self.most = datafile.SESSIONS[1]

    @property
    def keys(self) -> Optional[int]:
        return None if self.op is None else len(self.names.keys)

    @property
    def sessions(self) -> Optional[int]:
        return None if self.op is None else len(self.clients)

    def hear(self, now: float, line: Applied) -> None:
        """An operation that the member applied. Where some before it are missing, as after a jump, nothing is known until the file is read again."""
        self.lines.append((now, line))
        self.hear_again(now, line)

    def begin(self, report: Optional[datafile.Report]) -> None:
        """Takes what the file's checkpoint holds, and then what was applied since, unless more is known already."""
        if report is None or report.value is None or report.checkpoint.sessions is None or report.checkpoint.keys is None:
            return
        if self.op is not None and self.op >= report.checkpoint.op:
            return
        self.forget()
        self.op, self.most = report.checkpoint.op, datafile.SESSIONS[report.value.version]
        self.names = Store(dict(report.checkpoint.pairs()))
        self.clients = {client: Session(*last) for client, last in report.checkpoint.clients().items()}
        self.used = {client: at for client, at in self.used.items() if client in self.clients}
        for now, line in sorted(self.lines, key=lambda heard: heard[1].op):
            self.hear_again(now, line)

    def hear_again(self, now: float, line: Applied) -> None:
        """An operation, heard just now or before the file was read; one that is counted already, or comes where nothing is known, changes nothing."""
        if self.op is None or line.op <= self.op:
            return
        if line.op > self.op + 1 or line.request is None:
            self.forget()
        else:
            self.apply(now, line.op, line.request)

    def apply(self, now: float, op: int, request: Request) -> None:
        """The next operation: executed where its number is the next one of its session (docs/STATE.md)."""
        self.op = op
        session = self.clients.get(request.client)
        if request.what == "register":
            self.register(now, op, request.client)
        elif session is not None and request.number == session.request + 1:
            self.clients[request.client], self.used[request.client] = Session(request.number, op), now
            self.names.execute(of_words([request.what] if request.key is None else [request.what, request.key]))

    def register(self, now: float, op: int, client: int) -> None:
        """A new session; where as many are held as may be, the one that was used longest ago goes."""
        if client in self.clients:
            return
        if len(self.clients) >= self.most:
            self.evict(now, min(self.clients, key=lambda one: self.clients[one].op))
        self.clients[client], self.used[client] = Session(0, op), now

    def evict(self, now: float, client: int) -> None:
        del self.clients[client]
        self.evicted["lately" if now - self.used.pop(client, NEVER) <= LATELY else "earlier"] += 1
