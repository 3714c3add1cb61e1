"""Opens 200 connections to each member of a group of three over TCP, and says nothing on them: first while the group is at work, then again to a
member that is killed and started, and then the primary is killed, so that the view has to change beside them. In each phase a client puts all
the time; no two answers may be further apart than 4 seconds, else this ends with status 1.
  ./nozhgiva test silent"""

import socket
import time
from typing import List

from nozhgiva_tools.run.group import Group, Puts
from nozhgiva_tools.run.scripts import end, fail, no_words

CONNECTIONS, FIGURE, PHASE = 200, 4.0, 12


class Crowd:
    """Connections on which nothing is ever said, and whose ends nobody looks at."""

    def __init__(self, group: Group) -> None:
        self.group = group
        self.sockets: List[socket.socket] = []

    def visit(self, r: int) -> None:
        """Opens them to a member, as soon as it takes any."""
        end = time.monotonic() + 5
        opened = 0
        while opened < CONNECTIONS and time.monotonic() < end:
            try:
                self.sockets.append(socket.create_connection(("127.0.0.1", self.group.ports[r]), 1))
                opened += 1
            except OSError:
                time.sleep(0.002)
        if opened < CONNECTIONS:
            fail(f"member {r} takes only {opened} connections")


def told(what: str, puts: Puts) -> bool:
    count, gap = puts.phase(PHASE)
    print(f"{what}: {count} puts answered in {PHASE} s, at most {gap:.2f} s between two", flush=True)
    return gap <= FIGURE


def main() -> None:
    no_words()
    with Group(scheme="tcp:") as group:
        group.start_all()
        puts, crowd = Puts(group), Crowd(group)
        puts.await_answers(20)
        good = told("alone", puts)
        for r in range(3):
            crowd.visit(r)
        good &= told(f"{CONNECTIONS} silent connections to each member", puts)
        primary = group.primary()
        backup = (primary + 2) % 3
        group.kill(backup)
        group.start(backup)
        crowd.visit(backup)
        good &= told(f"member {backup} is killed and started, and has them too", puts)
        puts.open.clear()
        group.catch_up(backup)
        puts.open.set()
        group.kill(group.primary())
        good &= told("the primary is killed", puts)
        puts.close()
    if not good:
        fail(f"more than {FIGURE:g} s without an answer")


if __name__ == "__main__":
    end(main)
