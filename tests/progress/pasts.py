"""A random past of a group: spells in which links fail, messages get lost, members stop and start, and clients ask; with cut writes and damage where wanted."""

import random
from typing import Callable, List, NamedTuple

from .group import Clients, Group, Net

SLOTS = range(80, 144), range(144, 400), range(400, 448), range(0, 1400)  # sectors: headers of slots, prepares, the grid's first blocks, any
MOST_LINES = 40  # of requests in a round
CODES = 3 ** 6


class Faults(NamedTuple):
    """Which faults of disks a past has."""

    cuts: bool
    damage: bool


def links_of(kind: str, size: int, draw: random.Random) -> Callable[[int, int], bool]:
    """All links; or one member cut off, deaf or mute; or the group in two parts."""
    who, side = draw.randrange(size), set(draw.sample(range(size), draw.randint(1, size - 1)))
    return {
        "all": lambda sender, receiver: True,
        "cut off": lambda sender, receiver: who not in (sender, receiver),
        "deaf": lambda sender, receiver: receiver != who,
        "mute": lambda sender, receiver: sender != who,
        "parts": lambda sender, receiver: (sender in side) == (receiver in side),
    }[kind]


def happen(group: Group, draw: random.Random, faults: Faults) -> List[str]:
    """Lines of what happens to members and disks in one round."""
    lines = []
    if draw.random() < 0.06:
        lines.append(f"stop {draw.randrange(group.size)}")
    if draw.random() < 0.25 and len(group.running) < group.size:
        lines.append(f"start {draw.choice([member for member in range(group.size) if member not in group.running])}")
    if faults.damage and draw.random() < 0.05:
        kind = draw.choice(["damage", "damage", "unread", "stale"])
        lines.append(f"{kind} {draw.randrange(group.size)} {draw.choice(draw.choice(SLOTS))}")
    if (faults.cuts or faults.damage) and draw.random() < 0.03:
        lines.append(f"fuse {draw.randrange(group.size)} {draw.randint(1, 12)} {draw.randrange(CODES)}")
    return lines


def play_past(group: Group, net: Net, draw: random.Random, faults: Faults) -> None:
    """Three to nine spells, each with links, losses and a load of its own."""
    clients = Clients(1000)
    for _ in range(draw.randint(3, 9)):
        net.links = links_of(draw.choice(["all", "all", "cut off", "deaf", "mute", "parts"]), group.size, draw)
        net.loss = draw.choice([0, 0, 0.05, 0.3, 0.6])
        load, waves = draw.choice([0, 1, 3, 8]), draw.choice([1, 2, 3, 12])
        for _ in range(draw.randint(3, 22)):
            lines = happen(group, draw, faults)
            clients.give_up_all_but(8)
            clients.ask(load)
            lines += clients.lines(sorted(group.running))[:MOST_LINES]
            lines += [f"tick {member}" for member in sorted(group.running, key=lambda member: draw.random()) if draw.random() < 0.9]
            clients.hear(group.play(lines) + net.deliver(waves))
            net.round += 1
            if draw.random() < 0.1:
                net.under_way = []


def end_faults(group: Group, members: List[int], faults: Faults) -> None:
    """The members run, the others don't, and no write is cut any more."""
    group.play([f"stop {member}" for member in range(group.size) if member not in members])
    group.play([f"start {member}" for member in members if member not in group.running])
    if faults.cuts or faults.damage:
        group.play([f"fuse {member} 1000000 0" for member in range(group.size)])
        group.play([f"start {member}" for member in members if member not in group.running])
