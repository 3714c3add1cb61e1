"""Fair rounds: every member ticks once in each, what members send each other arrives, clients ask again until they are answered, and a member that leads and
gives no answer for some rounds is stopped and started. What stands still then, by what its last rounds put out, and what ends it."""

import random
import re
from collections import Counter, deque
from typing import Deque, Iterable, List, NamedTuple, Optional

from .group import Clients, Group, leader_of, Net

SHOWN = 40  # rounds that a standstill is judged by
AGAIN = 4  # rounds after which a client asks again
MOST = 8  # requests that are open at once under load
OFTEN = 3  # times; what a member sends more often than that in SHOWN rounds it repeats
TRIED = 80  # rounds that a remedy has


class Fair(NamedTuple):
    """How a fair time goes: rounds from one restart of who leads to the next, 0 for none; rounds without an answer after which a group stands still."""

    patience: int
    most: int


class Course(NamedTuple):
    """How it went: rounds until all were answered, None where it stands still; the outputs of the last rounds; the most rounds without an answer."""

    rounds: Optional[int]
    last: Deque[List[str]]
    longest: int
    restarts: int


def run(group: Group, net: Net, draw: random.Random, members: List[int], fair: Fair, clients: Clients, wanted: int, at_once: int) -> Course:
    """Fair rounds until so many requests are answered."""
    answered, silent, longest, restarts, began = 0, 0, 0, 0, net.round
    last: Deque[List[str]] = deque(maxlen=SHOWN)
    while answered < wanted and silent <= fair.most:
        clients.ask(min(at_once, wanted - answered) - len(clients.open))
        lines = clients.lines(members) if (net.round - began) % AGAIN == 0 or wanted > 1 else []
        lines += [f"tick {member}" for member in sorted(members, key=lambda member: draw.random()) if member in group.running]
        last.append(group.play(lines) + net.deliver())
        net.round += 1
        more = clients.hear([output for output in last[-1]])
        answered, silent = answered + more, 0 if more else silent + 1
        leader = leader_of(list(last)[-15:])
        if fair.patience and silent and silent % fair.patience == 0 and leader is not None:
            restarts += 1
            group.restart(leader)
        longest = max(longest, silent)
    return Course(net.round - began if answered >= wanted else None, last, longest, restarts)


def cause(last: Iterable[List[str]]) -> str:
    """By which lines a standstill is known: what its last rounds repeat."""
    outputs = [output for outputs in last for output in outputs]
    words = [output.split(" ") for output in outputs]
    sent = Counter((int(word[2]), word[4]) for word in words if word[0] == "send")
    waits = Counter(word[5] for word in words if word[0] == "wait")
    views = {found.group(1) for found in (re.search(r"start_view_change view (\d+)", output) for output in outputs) if found}
    leader = leader_of([outputs])
    if leader is None:
        return f"a choice waits for operation {', '.join(waits)}" if waits else "views chase each other"
    if len(views) > OFTEN:
        return "one leads, and another enters view after view"
    if sent[leader, "get_block"] > OFTEN:
        return "who leads asks for a block"
    if sent[leader, "get_prepare"] > OFTEN:
        asked = max(int(word[6]) for word in words if word[0] == "send" and word[2] == str(leader) and word[4] == "get_prepare")
        commit = max(int(word[10]) for word in words if word[0] == "send" and word[2] == str(leader) and word[4] == "commit")
        return f"who leads asks for an entry {'above its commit number' if asked > commit else 'that is committed'}"
    return "what who leads prepares isn't acknowledged" if sent[leader, "prepare"] > OFTEN else "another way"


def remedy(group: Group, net: Net, draw: random.Random, members: List[int], last: Iterable[List[str]]) -> str:
    """What ends a standstill, tried in this order: restarts of who leads, a restart of all, the return of the others."""
    clients, plain = Clients(3 * 10 ** 6), Fair(0, TRIED)
    for count in range(1, 5):
        leader = leader_of(list(last)[-15:])
        if leader is None:
            break
        group.restart(leader)
        course = run(group, net, draw, members, plain, clients, 1, 1)
        if course.rounds is not None:
            return f"{count} restart{'s' if count > 1 else ''} of who leads"
        last = course.last
    for member in members:
        group.restart(member)
    if run(group, net, draw, members, plain, clients, 1, 1).rounds is not None:
        return "a restart of all that run"
    return comes_back(group, net, draw, members, clients)


def comes_back(group: Group, net: Net, draw: random.Random, members: List[int], clients: Clients) -> str:
    everybody, plain = list(range(group.size)), Fair(TRIED // 2, TRIED)
    if len(members) == group.size:
        return "nothing that was tried"
    group.play([f"start {member}" for member in everybody if member not in members])
    net.links = lambda sender, receiver: True
    return "the others' return" if run(group, net, draw, everybody, plain, clients, 1, 1).rounds is not None else "nothing that was tried"
