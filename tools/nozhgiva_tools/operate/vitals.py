"""The line of health of a member: what its keeper knows of it, in words NAME=VALUE that a person and a program can read."""

from typing import Dict, List, NamedTuple, Optional

from nozhgiva_tools.told import whole
from nozhgiva_tools.told.datafile import Report

from .knowing import Demand, Tally
from .policy import PATIENCE, Policy, RECENT
from .processes import HANGS

LONG_CHANGE = 5.0  # seconds; a view change that takes longer is no ordinary one


class Life(NamedTuple):
    """What a keeper knows of its member's process. Times are seconds of the policy's clock."""

    member: int
    since: Optional[float]  # since when it runs; None while it doesn't
    restarts: int  # because it stood still
    ends: int  # by itself, or by a signal that wasn't the keeper's
    lines: int
    dropped: int  # lines that weren't written, for want of room or of a disk
    silent: float = 0.0  # seconds in which its process took no turn
    report: Optional[Report] = None  # of the last look at its file
    tally: Optional[Tally] = None  # of its keys and sessions
    demand: Optional[Demand] = None  # of its clients
    looked: Optional[float] = None  # when the last look at its file began
    no_file: bool = False  # whether that look found no file that can be read as a member's, or another file than the one that the member has open
    is_corrupt: bool = False  # whether its member ever applied something else than before


def unsure(report: Optional[Report]) -> int:
    """Of how many slots a file can't tell whether they held an operation."""
    return len(report.places.unsure) if report is not None else 0


def root_of(report: Optional[Report]) -> Optional[str]:
    """The name of the root of a file's checkpoint, which is the same at all members that have that checkpoint; None where there is none."""
    value = report.value if report is not None else None
    return value.root_name.hex() if value is not None and value.checkpoint else None


def lacks(policy: Policy, life: Life) -> bool:
    """Whether a member lacks blocks of its checkpoint by its lines. It tells that it has them by what it applies, and in an idle group there may be nothing to
    apply: there a look at its file tells it, if it has asked for none since."""
    facts = life.report.facts() if life.report is not None else None
    is_over = facts is not None and facts.missing == 0 and life.looked is not None and life.looked - policy.seen.block_asked() > RECENT
    return policy.seen.lacks and not is_over


def has_state(policy: Policy, life: Life) -> Optional[bool]:
    """Whether a member has the whole state, by its lines and by the last look at its file: each block of its checkpoint. None until somebody looked."""
    if lacks(policy, life):
        return False
    facts = life.report.facts() if life.report is not None else None
    if facts is None:
        return None if life.looked is None else False
    return facts.missing == 0


def state(policy: Policy, now: float, runs: bool) -> str:
    if not runs:
        return "down"
    if policy.seen.leads(now):
        return "leads"
    return "changes" if policy.seen.changes(now) else "follows"


def troubles(policy: Policy, now: float, life: Life) -> List[str]:
    """Why a member isn't well, a word each; none where it is."""
    found = ["corrupt"] if life.is_corrupt else []
    if life.since is None:
        return found + ["down"]
    if life.silent > HANGS:
        found.append("hangs")
    if life.no_file:
        found.append("no_file")
    if policy.seen.changes(now) and now - policy.seen.changing_since > LONG_CHANGE:
        found.append("changes")
    if policy.standing(now) > (policy.patience or PATIENCE) / 2:
        found.append("stands")
    if lacks(policy, life):
        found.append("lacks_blocks")
    if unsure(life.report):
        found.append("unsure")
    return found


def told(value: object) -> object:
    """What is written of a value that may not be known."""
    return "-" if value is None else value


def of_clients(life: Life, now: float) -> Dict[str, object]:
    """For how many seconds clients have been asking in vain, and how many seconds ago something was applied."""
    ago = life.demand.ago(now) if life.demand is not None else None
    return {"waits": f"{life.demand.waits(now):.1f}" if life.demand is not None else "-", "ago": "-" if ago is None else f"{ago:.1f}"}


def of_file(life: Life) -> Dict[str, object]:
    """What its file and its state hold, as far as that is known."""
    report, tally = life.report, life.tally
    value = report.value if report is not None else None
    return {
        "unsure": told(unsure(report) if value else None),
        "damaged": told(len(report.places.mended) + len(report.places.unsure) if report is not None and value is not None else None),
        "version": told(value.version if value else None),
        "mode": told(value.mode if value else None),
        "keys": told(tally.keys if tally else None),
        "sessions": told(tally.sessions if tally else None),
    }


def of_quorum(life: Life, now: float) -> Dict[str, object]:
    """What its file holds of what a whole quorum needs, and how many seconds ago that was looked at."""
    facts = life.report.facts() if life.report is not None else None
    return {**whole.words(facts), "looked": f"{now - life.looked:.1f}" if facts is not None and life.looked is not None else "-"}


def line(policy: Policy, now: float, life: Life) -> str:
    """One line, without its end."""
    seen, runs = policy.seen, life.since is not None
    asks, mends = (seen.waits_for(now), seen.mends(now)) if runs else (None, None)
    words = {
        "member": life.member,
        "well": ",".join(troubles(policy, now, life)) or "yes",
        "state": state(policy, now, runs),
        "view": "-" if seen.view is None else seen.view,
        "applied": seen.caught_up_to(),
        "commit": seen.commit,
        "head": max(seen.head, seen.commit),
        "asks": "_".join(asks) if asks else "-",
        "mends": "_".join(mends) if mends else "-",
        "stands": f"{policy.standing(now):.1f}",
        "up": f"{now - life.since:.1f}" if life.since is not None else "-",
        "restarts": life.restarts,
        "ends": life.ends,
        "lines": life.lines,
        "dropped": life.dropped,
        **of_clients(life, now),
        **of_file(life),
        **of_quorum(life, now),
        "root": root_of(life.report) or "-",
        "has_state": {None: "-", True: "yes", False: "no"}[has_state(policy, life)],
        "views": seen.views_lately(now),
        "undecided": told(seen.waits_to_choose(now) if runs else None),
    }
    return " ".join(f"{name}={value}" for name, value in words.items())


def read(text: str) -> Dict[str, str]:
    """The values of a line of health by their names; ValueError where it is none."""
    values = dict(word.split("=", 1) for word in text.split())
    if not {"member", "well", "state", "applied", "commit"} <= values.keys():
        raise ValueError(f"no line of health: {text}")
    return values
