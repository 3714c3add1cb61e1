"""What a session may answer in place of an outcome. Texts tell keys and sizes, and never a value."""

from __future__ import annotations

from .records import TYPE_CHECKING
from .sights import told

if TYPE_CHECKING:
    from typing import Any, Optional, Sequence, Tuple

    from .messages import Operation, Outcome
    from .sights import Sight

__all__ = ["Closed", "Error", "Fate", "Full", "Misconfigured", "NotAsked", "SessionLost", "Unknown", "Unresolved"]


class Error(Exception):
    """Any of the errors below."""


class Fate:
    """What comes of a request in the end: its outcome, once that is known."""

    def __init__(self) -> None:
        self.outcome: Optional[Outcome] = None


class Unknown(Error, TimeoutError):
    """No answer came in time: `operation` may have been executed, may be executed later, or never. It isn't wrong to ask it again: the
    session does so, under the same number, before its next request, or with `Session.settle`; so it is executed at most once. From then on
    `outcome` has what it gave.

    `unsent` is the operation that was to be asked then and wasn't, since this earlier one isn't settled yet; else None. `seen` has for
    each address what was seen there meanwhile.
    """

    def __init__(self, operation: Operation, unsent: Optional[Operation] = None, seen: Sequence[Sight] = (), fate: Optional[Fate] = None) -> None:
        text = f"no answer: whether `{operation}` was executed isn't known"
        if unsent is not None:
            text += f"; `{unsent}` wasn't asked"
        super().__init__(f"{text}; {told(seen)}" if seen else text)
        self.operation = operation
        self.unsent = unsent
        self.seen: Tuple[Sight, ...] = tuple(seen)
        self._fate = fate

    @property
    def outcome(self) -> Optional[Outcome]:
        """What the operation gave, once the session has heard that; None until then, and for good where the session was lost."""
        return None if self._fate is None else self._fate.outcome

    def __reduce__(self) -> Tuple[Any, ...]:
        return type(self), (self.operation, self.unsent, self.seen)


class Misconfigured(Unknown):
    """Each address says that it isn't what the group's list says: another member answers there, or another group. So a register ends at once:
    correct the list. `seen` has what was seen at each."""


class NotAsked(Error, TimeoutError):
    """The time was over before anything was sent: other threads or tasks had the session, or all sessions of the pool."""


class Closed(Error):
    """The session or the pool was closed, or belongs to the process from which this one was forked. Nothing was sent."""


class Unresolved(Error, OSError):
    """None of the group's addresses can be resolved. Nothing was sent."""


class SessionLost(Error):
    """The group doesn't go on with this session: `reason` is `evicted` where it has no session of this client (32 are kept, in version 2
    64, and a further one ends the one that was used longest ago), `old` or `gap` where somebody else asked under this client's number, and
    `spent` where the numbers of its requests are used up. Register anew. Whether `operation` was executed isn't known, unless `is_asked` is
    false: then it wasn't sent.
    """

    def __init__(self, reason: str, operation: Operation, is_asked: bool = True) -> None:
        end = f"whether `{operation}` was executed isn't known" if is_asked else f"`{operation}` wasn't asked"
        super().__init__(f"session lost: {reason}; {end}")
        self.reason = reason
        self.operation = operation
        self.is_asked = is_asked

    def __reduce__(self) -> Tuple[Any, ...]:
        return type(self), (self.reason, self.operation, self.is_asked)


class Full(Error):
    """The put was executed and changed nothing: its key is new, and the group holds as many keys as it can, 128."""

    def __init__(self, operation: Operation) -> None:
        super().__init__(f"full: `{operation}` changed nothing")
        self.operation = operation

    def __reduce__(self) -> Tuple[Any, ...]:
        return type(self), (self.operation,)
