"""A survey of a group as a text for a person."""

from typing import Dict, List, Optional

from .judging import GroupTold, MemberTold

SAID = {"well": "answers, and all is well", "ails": "answers, and something ails", "unknown": "may answer or not: too little is known", "silent": "DOESN'T ANSWER",
        "corrupt": "IS CORRUPT: something that was acknowledged was forgotten"}


def span(seconds: Optional[float]) -> str:
    """Seconds as a person says them."""
    if seconds is None:
        return "-"
    for size, unit in ((86400, "d"), (3600, "h"), (60, "m")):
        if seconds >= 2 * size:
            return f"{seconds / size:.0f}{unit}"
    return f"{seconds:.0f}s"


def of(count: Optional[int], most: Optional[int]) -> str:
    return "-" if count is None else f"{count}" if most is None else f"{count}/{most}"


def shown(value: object) -> str:
    return "-" if value is None else str(value)


def row(member: MemberTold) -> List[str]:
    file = f"v{member['version']} {member['mode']}" if member["version"] else "-"
    damage = shown(member["damaged"]) + (f" ({member['unsure']} unsure)" if member["unsure"] else "")
    well = member["well"] or ("-" if member["fault"] is None else "no keeper")
    return [str(member["member"]), member["state"], well, shown(member["view"]), shown(member["commit"]), shown(member["behind"]), span(member["up"]), shown(member["restarts"]),
            shown(member["ends"]), file, of(member["keys"], member["most_keys"]), of(member["sessions"], member["most_sessions"]), damage, member["asks"] or member["mends"] or "-", may_stop(member)]


def may_stop(member: MemberTold) -> str:
    """The column: `yes`, or `no` with the names of why."""
    if member["may_be_stopped"] is None:
        return "-"
    return "yes" if member["may_be_stopped"] else "no: " + ",".join(sorted({reason["name"] for reason in member["why_not"]}))


def stop_lines(told: GroupTold) -> List[str]:
    """Which quorums are whole, and why members may not be stopped, alike ones in one line."""
    of, having, quorums = told["view_change_quorum"], told["with_state"], told["whole_quorums"]
    if having is None or quorums is None:
        return []
    lines = [f"the whole state is at {len(having)} of {len(told['members'])} members: {' '.join(map(str, having)) or 'none'}",
             f"whole quorums, of {of}: {', '.join(' '.join(map(str, quorum)) for quorum in quorums) or 'none'}"]
    why: Dict[str, List[int]] = {}
    for member in told["members"]:
        if member["may_be_stopped"] is not None:
            why.setdefault("; ".join(reason["text"] for reason in member["why_not"]), []).append(member["member"])
    for text, members in why.items():
        which = ("member " if len(members) == 1 else "members ") + " ".join(map(str, members))
        each = "any one of " if len(members) > 1 else ""
        lines.append(f"{each}{which} may be stopped: yes" if not text else f"{each}{which} may be stopped: no, because {text}")
    return lines


NAMES = ["member", "state", "well", "view", "commit", "behind", "up", "restarts", "ends", "file", "keys", "sessions", "damaged", "asks", "may be stopped"]


def table(told: GroupTold) -> str:
    """A line on the group, what isn't well, and a line on each member."""
    head = f"group {told['group']} {SAID[told['verdict']]}"
    if told["leader"] is not None:
        head += f"; member {told['leader']} leads view {told['view']}"
    if told["commit"] is not None:
        head += f"; commit {told['commit']}"
    rows = [NAMES] + [row(member) for member in told["members"]]
    widths = [max(len(line[column]) for line in rows) for column in range(len(NAMES))]
    lines = ["  ".join(cell.ljust(width) for cell, width in zip(line, widths)).rstrip() for line in rows]
    return "\n".join([head] + [f"  {why}" for why in told["why"]] + lines + stop_lines(told))
