"""A client of a Nozhgiva group: keys and values that a group of replicas keeps.

    from nozhgiva import Group

    group = Group(5, ["127.0.0.1:4000", "127.0.0.1:4001", "127.0.0.1:4002"])
    with group.register() as session:
        session.put("color", "green")
        print(session.get("color"))

All times are in seconds. What can't be answered is an exception of its own: `Unknown`, `Misconfigured`, `SessionLost`, `Full`, `Closed`,
`NotAsked`, `Unresolved`. `Pool` lets many threads share a few sessions, `Blob` makes values of any bytes or text, `nozhgiva.aio` is the same for asyncio,
and `nozhgiva.recipes` has a lock, a counter, an election and a configuration. What is done is told to the logger `nozhgiva`: each request at
DEBUG, a lost primary at WARNING.
"""

from .asking import Retry
from .errors import Closed, Error, Full, Misconfigured, NotAsked, SessionLost, Unknown, Unresolved
from .messages import Delete, Get, Outcome, OutcomeKind, Put, Register
from .records import TYPE_CHECKING
from .session import Group, Session
from .sights import Sight

if TYPE_CHECKING:
    from .blob import Blob
    from .messages import Operation
    from .pool import Pool

__version__ = "1.0.0"

__all__ = [
    "Blob", "Closed", "Delete", "Error", "Full", "Get", "Group", "Misconfigured", "NotAsked", "Operation", "Outcome", "OutcomeKind", "Pool", "Put", "Register",
    "Retry", "Session", "SessionLost", "Sight", "Unknown", "Unresolved", "__version__",
]

LATER = {"Blob": "blob", "Operation": "messages", "Pool": "pool"}
"""What is read once somebody asks for it, and in which module it is: who asks once and ends has no need of it."""

if not TYPE_CHECKING:
    def __getattr__(name):
        if name not in LATER:
            raise AttributeError(f"module {__name__!r} has no attribute {name!r}")
        from importlib import import_module

        globals()[name] = value = getattr(import_module(f".{LATER[name]}", __name__), name)
        return value

    def __dir__():
        return sorted({*globals(), *__all__})
