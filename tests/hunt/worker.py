"""A client that does what the lines of its standard input say, by the client in Python, and writes a line for each. hunt starts it.

  register VERSION SECONDS | put KEY VALUE SECONDS | get KEY SECONDS | delete KEY SECONDS | settle SECONDS

It answers `session`, `ok`, `full`, `absent`, `value V`, `nothing` (there was nothing to settle), `lost REASON`, `unknown`, or `unsent` where an
earlier operation isn't settled, so that this one wasn't asked. Whatever else happens is a fault of the client, and ends it with a traceback.
  worker.py CLUSTER ADDRESS .."""

import sys
from typing import Callable, Dict, List, Optional

from nozhgiva import Full, Group, NotAsked, OutcomeKind, Session, SessionLost, Unknown


class Worker:
    def __init__(self, cluster: int, addresses: List[str]) -> None:
        self.cluster, self.addresses = cluster, addresses
        self.begun: Optional[Session] = None
        self.words: Dict[str, Callable[..., str]] = {
            "register": self.register, "put": self.put, "get": self.get, "delete": self.delete, "settle": self.settle,
        }

    @property
    def session(self) -> Session:
        if self.begun is None:
            raise ValueError("nothing is asked before a register")
        return self.begun

    def register(self, version: str, seconds: str) -> str:
        if self.begun is not None:
            self.begun.close()
            self.begun = None
        self.begun = Group(self.cluster, self.addresses, timeout=float(seconds), version=int(version)).register()
        return "session"

    def put(self, key: str, value: str, seconds: str) -> str:
        self.session.put(key, value, timeout=float(seconds))
        return "ok"

    def get(self, key: str, seconds: str) -> str:
        value = self.session.get(key, timeout=float(seconds))
        return "absent" if value is None else f"value {value}"

    def delete(self, key: str, seconds: str) -> str:
        return "ok" if self.session.delete(key, timeout=float(seconds)) else "absent"

    def settle(self, seconds: str) -> str:
        outcome = self.session.settle(timeout=float(seconds))
        if outcome is None:
            return "nothing"
        return f"value {outcome.value}" if outcome.kind == OutcomeKind.VALUE else outcome.kind.name.lower()

    def answer(self, word: str, *words: str) -> str:
        try:
            return self.words[word](*words)
        except Full:
            return "full"
        except SessionLost as error:
            return f"lost {error.reason}"
        except NotAsked:
            return "unsent"
        except Unknown as error:
            return "unknown" if error.unsent is None else "unsent"


def main() -> None:
    worker = Worker(int(sys.argv[1]), sys.argv[2:])
    for line in sys.stdin:
        print(worker.answer(*line.split()), flush=True)


if __name__ == "__main__":
    main()
