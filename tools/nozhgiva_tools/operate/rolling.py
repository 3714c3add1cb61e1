"""Restarts the members of a group one after the other: the next only once the one before applies what the others commit.

What asks, restarts and waits is handed in, so that this is a function of what the members tell."""

from typing import Callable, Dict, List, NamedTuple, Optional

from nozhgiva_tools.told import whole

Health = Dict[str, str]  # a line of health by its names (health.read)

LOOKS = 3  # so many looks in a row a member has to be seen with what the others commit
LOOK = 0.5  # seconds from look to look
SLACK = 1.0  # seconds; a process that runs for so much longer wasn't restarted


class Stopped(Exception):
    """The roll doesn't go on; its text says why."""


class Clients(NamedTuple):
    """How the clients are held back, and let go again."""

    hold: Callable[[], None]
    release: Callable[[], None]


class Hands(NamedTuple):
    """What a roll does to the outside. `health` gives None where nobody answers; `hold` and `release` are of the clients, and may both be None."""

    health: Callable[[int], Optional[Health]]
    restart: Callable[[int], None]
    hold: Optional[Callable[[], None]]
    release: Optional[Callable[[], None]]
    sleep: Callable[[float], None]
    clock: Callable[[], float]
    say: Callable[[str], None]

    def clients(self) -> Optional[Clients]:
        """How the clients are held; None where they aren't."""
        return Clients(self.hold, self.release) if self.hold is not None and self.release is not None else None


class Bounds(NamedTuple):
    """Seconds: in which a member has to catch up; after which the clients are held."""

    whole: float
    hold: float


def number(health: Optional[Health], name: str) -> int:
    """A number of a line of health; 0 where there is none."""
    text = health.get(name, "0") if health else "0"
    return int(text) if text.isdigit() else 0


def committed(hands: Hands, members: List[int], but: int) -> int:
    """The greatest op that any other member is known to have applied or to know as committed."""
    told = [hands.health(member) for member in members if member != but]
    return max([0] + [max(number(health, "commit"), number(health, "applied")) for health in told])


def seconds(health: Health, name: str) -> float:
    """Seconds of a line of health; 0 where it tells none."""
    try:
        return float(health.get(name, "0"))
    except ValueError:
        return 0.0


def behind(health: Optional[Health], goal: int, spent: float) -> Optional[str]:
    """Why a member, `spent` seconds after it was restarted, isn't yet one that has applied so much; None where it is."""
    if health is None:
        return "nobody answers for it"
    if seconds(health, "up") > spent + SLACK:
        return "it still is the process from before"
    if "hangs" in health["well"].split(","):
        return "its process takes no turn: it was stopped, or waits for its disk"
    if health["state"] not in ("leads", "follows"):
        return f"its state is {health['state']}"
    if health.get("asks", "-") != "-":
        return f"it asks for {health['asks'].replace('_', ' ')} and has applied {health['applied']} of {goal}"
    if number(health, "applied") < goal:
        return f"it has applied {health['applied']} of {goal}"
    return None


def settle(hands: Hands, members: List[int], member: int, bounds: Bounds, age: float = 0.0) -> float:
    """Waits until a member, whose process is at most `age` seconds old, applies what the others commit, and gives the seconds that it took. The clients
    are held where it takes long.

    What a member has applied is compared with what the others had committed a look ago: a backup hears of a commit by the next prepare, so under
    load it never has what is committed at this instant."""
    began, seen, clients = hands.clock(), 0, hands.clients()
    held: Optional[Clients] = None  # once they are
    goal = committed(hands, members, member)
    try:
        while seen < LOOKS:
            hands.sleep(LOOK)
            spent = hands.clock() - began
            why = behind(hands.health(member), goal, age + spent)
            goal = committed(hands, members, member)
            seen = seen + 1 if why is None else 0
            if why is not None and spent > bounds.whole:
                raise Stopped(advice(member, why, bounds, clients is not None))
            if why is not None and spent > bounds.hold and clients is not None and held is None:
                held = clients
                hands.say(f"member {member} doesn't catch up ({why}): the clients are held")
                held.hold()
    finally:
        if held is not None:
            held.release()
            hands.say("the clients are let go")
    return hands.clock() - began


def advice(member: int, why: str, bounds: Bounds, holds: bool) -> str:
    """Why a roll stops at a member that doesn't catch up, and what to do."""
    text = f"member {member} doesn't apply what the others commit after {bounds.whole:.0f} s: {why}. No other member was restarted after it."
    if not why.startswith("it asks") and not why.startswith("it has applied"):
        return text
    if holds:
        return text + " The clients were held meanwhile: look at its log, and at operate/inspect of its file."
    return text + " It gets a block with each tick, ten a second, while the others write over a checkpoint's blocks 33 to 64 operations later: hold the clients back for some 5 s, or give --hold."


def order(hands: Hands, members: List[int]) -> List[int]:
    """The members in the order in which they are restarted: the one that leads comes last, so that the view changes once."""
    return sorted(members, key=lambda member: ((hands.health(member) or {}).get("state") == "leads", member))


def trouble(health: Optional[Health], stays: bool) -> Optional[str]:
    """Why a roll doesn't go on, said of a member by what it tells; None where it may. One that stays while another is stopped has to be whole: what its file can't
    tell of it doesn't deny, and a view change may have to wait for it."""
    if health is None:
        return "has no keeper that answers"
    unwell = [word for word in health["well"].split(",") if word not in ("yes", "unsure")]
    if unwell:
        return f"isn't well: {','.join(unwell)}"
    if health.get("mends", "-") != "-":
        return f"asks for {health['mends'].replace('_', ' ')}, which its disk lost and it has in memory: a restart would lose it"
    if stays and number(health, "unsure"):
        return (f"has a file that can't tell of {number(health, 'unsure')} of its slots, and it would have to go on without the one that is restarted: wait until its keeper "
                "has had them written anew, or ask the group 64 gets")
    return None


def unwhole(lines: Dict[int, Health], member: int) -> Optional[str]:
    """Why those that stay wouldn't go on without a member that is stopped; None where they would, or where an earlier keeper doesn't tell. Where too few stay
    for any quorum, as in a group of two, nothing can go on until it is back: then those that stay have to be whole as they are."""
    rest = {other: line for other, line in lines.items() if other != member}
    if not rest or not all(whole.is_told(line) for line in rest.values()):
        return None
    facts = {other: whole.of_line(line) for other, line in rest.items()}
    found = whole.reasons(member, len(lines), facts)
    if any(reason.name == "few" for reason in found):
        unseen = [whole.Reason("unseen", f"what the file of member {other} holds isn't known") for other, one in facts.items() if one is None]
        found = unseen or whole.lacks({other: one for other, one in facts.items() if one is not None})
    return "; ".join(f"{reason.name}: {reason.text}" for reason in found) or None


def check(hands: Hands, members: List[int], chosen: List[int]) -> None:
    """A roll begins, and goes on, only with a group that is well, and in which what stays goes on without the one that is restarted."""
    told = {member: hands.health(member) for member in members}
    for member, health in told.items():
        why = trouble(health, stays=any(other != member for other in chosen))
        if why is not None:
            raise Stopped(f"member {member} {why}")
    lines = {member: health for member, health in told.items() if health is not None}
    if not any(line["state"] == "leads" for line in lines.values()):
        raise Stopped("no member leads")
    for member in chosen:
        why = unwhole(lines, member)
        if why is not None:
            raise Stopped(f"member {member} may not be stopped ({why})")


def wait_for_whole(hands: Hands, members: List[int], chosen: List[int], most: float) -> None:
    """Waits until the group is whole, at most so many seconds: a view change may be going on."""
    began = hands.clock()
    while True:
        try:
            return check(hands, members, chosen)
        except Stopped:
            if hands.clock() - began > most:
                raise
            hands.sleep(LOOK)


def roll(hands: Hands, members: List[int], bounds: Bounds, chosen: Optional[List[int]] = None) -> None:
    """Restarts the chosen members, all where none are chosen; Stopped where it can't go on."""
    chosen = chosen or members
    wait_for_whole(hands, members, chosen, bounds.hold)
    for member in order(hands, chosen):
        wait_for_whole(hands, members, [member], bounds.whole)
        hands.say(f"member {member} is restarted")
        hands.restart(member)
        spent = settle(hands, members, member, bounds)
        back = "applies what the others commit" if len(members) > 1 else "leads again"
        hands.say(f"member {member} {back}, {spent:.1f} s after its restart")
