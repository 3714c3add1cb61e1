"""Groups in counted time (`playing`) whose members are each under a policy that stops and starts it, and schedules that end in a standstill, played on so."""

import random
from typing import Dict, List, NamedTuple, Optional

from nozhgiva_tools.operate.policy import Policy
from nozhgiva_tools.told.lines import parse

from .playing import Client, cuts_of, Group, Replay, schedule_of

ASKER = 9001  # the number of the client that asks behind the schedule
PAUSE = 0.5  # seconds from its answer to its next request
ENDED = "Ended by the keeper"  # a comment of a schedule: `yes`, or `no`


class Restart(NamedTuple):
    seconds: float
    member: int
    reason: str


class Keepers:
    """One policy for each member. Where `acts` is false they only tell what they would do."""

    def __init__(self, patience: float, seed: int = 1, acts: bool = True) -> None:
        self.patience, self.chance, self.acts = patience, random.Random(seed), acts
        self.policies: Dict[int, Policy] = {}
        self.restarts: List[Restart] = []
        self.group: Optional[Group] = None  # once it runs on: a schedule that is followed only shows what there is

    def policy(self, member: int) -> Policy:
        return self.policies.setdefault(member, Policy(self.patience, self.chance.random))

    def hears(self, now: float, member: int, output: str) -> None:
        """An output of a member, with its time."""
        policy = self.policy(member)
        line = parse(output.encode())
        if self.group is None:
            policy.seen.hear(now, line)
            return
        reason = policy.hear(now, line)
        if reason is None:
            return
        self.restarts.append(Restart(now, member, reason))
        if self.acts:
            self.group.plan(now, lambda at: self.restart(member))

    def restart(self, member: int) -> None:
        if self.group is not None and member in self.group.running:
            self.group.stop(member)
            self.group.start(member)


class Played(NamedTuple):
    answers: int  # that the client had
    first: Optional[float]  # seconds until the first one
    restarts: List[Restart]  # by the policy; their times are seconds since the end of the schedule


def is_ended(text: str) -> bool:
    """Whether a schedule says that the policy ends its standstill; ValueError where it doesn't say."""
    said = schedule_of(text)[1].get(ENDED)
    if said not in ("yes", "no"):
        raise ValueError(f"no comment says `# {ENDED}: yes`, or `no`")
    return said == "yes"


def play(program: str, text: str, seconds: float, patience: float) -> Played:
    """Plays the lines of a schedule, and lets time go on behind it for so many seconds. A policy of patience 0 restarts nobody."""
    replay = Replay(program)
    try:
        lines, said = schedule_of(text)
        keepers = Keepers(patience)
        group = Group(replay, keepers.hears)
        group.follow(lines)
        group.cuts = cuts_of(said.get("cut", ""))
        begun, keepers.group = group.now, group
        client = Client(ASKER, group.size, PAUSE)
        group.start_all()
        group.add(client)
        group.go_on(seconds)
        first = None if client.first is None else client.first - begun
        return Played(client.answered, first, [Restart(at - begun, member, reason) for at, member, reason in keepers.restarts])
    finally:
        replay.end()
