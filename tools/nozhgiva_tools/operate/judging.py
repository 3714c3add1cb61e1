"""What is known of a whole group: of each member its keeper's line and its reply to a probe, and what follows for the group.

Nothing here reads a clock or a socket, so that it is a function of what was told."""

from typing import Dict, Iterable, List, NamedTuple, Optional, Tuple, TypedDict

from nozhgiva_tools.told import whole

from .probing import Reply
from .rolling import Health, number, seconds

WELL, AILS, UNKNOWN, SILENT, CORRUPT = 0, 1, 3, 4, 5  # exit codes; 2 is wrong words
SETTLED = 1.0  # second
LEADS = ("evicted", "busy")  # what a member that leads answers the probe
NAMES = {WELL: "well", AILS: "ails", UNKNOWN: "unknown", SILENT: "silent", CORRUPT: "corrupt"}
CHASES = 8  # views in LATELY seconds (policy); an outage of one member takes one or two
STANDS = 1.5  # seconds; a group whose leader stands still for longer with something open doesn't answer
REPLICATION = {1: 1, 2: 2, 3: 2, 4: 2, 5: 3, 6: 3}  # so many members, the one that leads among them, have to hold an operation


class Known(NamedTuple):
    """What is known of one member: its keeper's line, and why there is none; its reply; whether no process listens at its address; whose number
    answered there."""

    line: Optional[Health]
    fault: str
    reply: Optional[Reply]
    refused: bool = False
    place: Optional[int] = None

    def view(self) -> Optional[int]:
        """The newest view that it is known to be in."""
        told = [number(self.line, "view")] if self.line and self.line.get("view", "-") != "-" else []
        return max(told + ([self.reply.view] if self.reply else []), default=None)

    def leads(self) -> bool:
        """Whether it takes itself for the one that leads."""
        if self.reply is not None:
            return self.reply.kind in LEADS
        return self.line is not None and self.line["state"] == "leads" and self.goes_on()

    def goes_on(self) -> bool:
        """Whether its process runs and takes turns, as far as anybody can tell."""
        return self.line is None or (self.line["state"] != "down" and "hangs" not in self.line["well"].split(","))

    def is_in(self, view: int) -> Optional[bool]:
        """Whether it takes part in a view; None where nobody can tell."""
        if self.is_dark():
            return None
        if self.reply is not None:
            return self.goes_on() and self.reply.view == view
        if self.line is None:
            return False
        return self.goes_on() and self.line["state"] in ("leads", "follows") and self.view() == view

    def facts(self) -> Optional[whole.Facts]:
        """What its file holds of what a whole quorum needs, as far as its keeper knows it now."""
        return whole.of_line(self.line) if self.line is not None else None

    def has_state(self) -> Optional[bool]:
        """Whether it has the whole state; None where nobody can tell."""
        return {"yes": True, "no": False}.get((self.line or {}).get("has_state", "-"))

    def is_dark(self) -> bool:
        """Whether nothing at all is known of it."""
        return self.line is None and self.reply is None and not self.refused

    def state(self) -> str:
        if self.line is not None:
            return "hangs" if self.line["state"] != "down" and not self.goes_on() else self.line["state"]
        if self.reply is None:
            return "down" if self.refused else "unknown"
        return "leads" if self.reply.kind in LEADS else "answers"


class Leader(NamedTuple):
    """A member that leads, and the view that it leads."""

    member: int
    view: int


class Verdict(NamedTuple):
    """What is to be said of a group. `why`: a sentence for each thing that isn't well or isn't known. `may_change`: whether its view may just be changing."""

    code: int
    leader: Optional[int]
    view: Optional[int]
    commit: Optional[int]
    why: List[str]
    may_change: bool = False


def leader_of(members: List[Known]) -> Optional[Leader]:
    """The member that leads the newest view that anybody leads."""
    views = [(member, known.view()) for member, known in enumerate(members) if known.leads()]
    newest = max((Leader(member, view) for member, view in views if view is not None), key=lambda leader: leader.view, default=None)
    return newest


def newest_view(members: List[Known]) -> Optional[int]:
    """The newest view that any member is known to be in."""
    return max((view for view in map(Known.view, members) if view is not None), default=None)


def commit_of(members: List[Known]) -> Optional[int]:
    """The greatest operation that any member is known to have applied or to know as committed; None where no keeper tells of any."""
    return max((max(number(known.line, "commit"), number(known.line, "applied")) for known in members if known.line is not None), default=None)


def absence(members: List[Known], leader: Optional[Leader]) -> Optional[str]:
    """Why nobody can answer, as also in the midst of a view change; None where somebody may."""
    size = len(members)
    least = REPLICATION[size]
    dark = sum(known.is_dark() for known in members)
    if leader is None:
        return None if dark >= least else "no member leads"
    taking_part = [known.is_in(leader.view) for known in members]
    if sum(part is not False for part in taking_part) < least:
        return f"member {leader.member} leads view {leader.view}, and too few take part in it: {sum(part is True for part in taking_part)} of {size}, where it takes {least}"
    return None


def standstill(members: List[Known], leader: Optional[Leader]) -> Optional[str]:
    """Why the group doesn't answer although it could; None where it does."""
    if leader is None:
        return None
    stands = seconds(members[leader.member].line or {}, "stands")
    if stands > STANDS:
        return f"member {leader.member} leads view {leader.view} and has committed nothing for {stands:.1f} s though something is open"
    waits = in_vain(members)
    return f"clients have been asking in vain for {waits:.1f} s" if waits > STANDS else None


def in_vain(members: List[Known]) -> float:
    """For how many seconds clients have been asking, while no member applied anything."""
    lines = [known.line for known in members if known.line is not None and known.goes_on()]
    return min([max((seconds(line, "waits") for line in lines), default=0.0)] + [seconds(line, "ago") for line in lines if line.get("ago", "-") != "-"])


class Settling:
    """A view change takes about half a second, in which nobody leads. A group is told not to answer once it hasn't for SETTLED seconds."""

    def __init__(self) -> None:
        self.since: Optional[float] = None

    def hear(self, now: float, verdict: Verdict) -> Verdict:
        """What is told of a verdict; its code is AILS for a while where it is SILENT."""
        if verdict.code != SILENT or not verdict.may_change:
            self.since = None
            return verdict
        self.since = now if self.since is None else self.since
        return verdict if now - self.since >= SETTLED else verdict._replace(code=AILS)


def unbegun(members: List[Known], is_led: bool) -> Optional[str]:
    """Why no view begins, or none lasts, although enough members run to have one; None where that isn't seen."""
    told = [known.line.get("undecided", "-") for known in members if known.line is not None and known.state() != "down" and known.goes_on()]
    if told and "-" not in told and not is_led:
        which = ", ".join(sorted(set(told)))
        return f"a choice waits: operation {which} may have been acknowledged, and too few of those that run can deny it; a member that is missing has to come back"
    chasing = [member for member, known in enumerate(members) if known.line is not None and known.goes_on() and number(known.line, "views") >= CHASES]
    if len(chasing) < whole.VIEW_CHANGE[len(members)]:
        return None
    most = max(number(members[member].line, "views") for member in chasing)
    return (f"views chase each other: {whole.members_of(chasing)} entered up to {most} views in 30 s, and none lasts: what they send each other takes too long "
            "(a slow network, slow disks, too little processor time), or doesn't arrive, or one can take no log of another one")


def present(members: List[Known], leader: Optional[Leader]) -> Dict[int, Optional[whole.Facts]]:
    """The members that run and take part in the newest view, with what is known of their files."""
    if leader is None:
        return {}
    return {member: known.facts() for member, known in enumerate(members) if known.is_in(leader.view) and known.goes_on()}


def those_known(found: Dict[int, Optional[whole.Facts]]) -> Dict[int, whole.Facts]:
    """The members of whose files something is known."""
    return {member: facts for member, facts in found.items() if facts is not None}


def is_late(members: List[Known]) -> bool:
    """Whether a keeper that looks at its member's file tells of an old look: asked once, it looks again."""
    return any(known.line is not None and known.goes_on() and whole.is_told(known.line) and known.line.get("looked", "-") != "-" and known.facts() is None for known in members)


class Stop(NamedTuple):
    """Whether a member may be stopped: nobody can tell where `may` is None, as of one that doesn't run."""

    may: Optional[bool]
    why: List[whole.Reason]


def stops(members: List[Known], verdict: "Verdict", has_keepers: bool) -> List[Stop]:
    """Of each member whether it may be stopped: whether what is left goes on."""
    if not has_keepers:
        return [Stop(None, [whole.Reason("unasked", "that is known by the members' keepers alone")])] * len(members)
    if verdict.code == CORRUPT:
        return [Stop(False, [whole.Reason("corrupt", "members have forgotten something, or hold different states")])] * len(members)
    if verdict.code in (SILENT, UNKNOWN):
        answer = Stop(False, [whole.Reason("silent" if verdict.code == SILENT else "too_little",
                                           "the group doesn't answer now" if verdict.code == SILENT else "it isn't known whether the group answers")])
        return [answer if known.state() != "down" else Stop(None, [whole.Reason("down", "it doesn't run")]) for known in members]
    taking_part, found = present(members, leader_of(members)), []
    for member, known in enumerate(members):
        if known.state() == "down":
            found.append(Stop(None, [whole.Reason("down", "it doesn't run")]))
            continue
        why = whole.reasons(member, len(members), taking_part)
        found.append(Stop(not why, why))
    return found


def quorums(members: List[Known]) -> List[Tuple[int, ...]]:
    """The smallest quorums that are known to be whole, of the members that take part."""
    return whole.whole_quorums(those_known(present(members, leader_of(members))), len(members))


def with_state(members: List[Known]) -> List[int]:
    """The members that are known to have the whole state."""
    return [member for member, known in enumerate(members) if known.has_state()]


def scarcity(members: List[Known]) -> Optional[str]:
    """Why the loss of one member might be the loss of the state: some are known to lack it, and of those that have it less than a quorum would be left."""
    having, lacking = with_state(members), [member for member, known in enumerate(members) if known.has_state() is False]
    if not lacking or len(having) > whole.VIEW_CHANGE[len(members)]:
        return None
    where = f"is at {whole.members_of(having)} alone" if having else "isn't whole at any member that is known"
    which = f"{whole.members_of(lacking)} {'lacks' if len(lacking) == 1 else 'lack'} blocks of it, or the file"
    return f"the state {where}: {which}; stop nothing, and hold the clients back for some seconds, in which blocks come"


def unwhole(members: List[Known], taking_part: Iterable[int]) -> Optional[str]:
    """Why no quorum is whole although enough members take part and are known; None where one is."""
    known = those_known({member: members[member].facts() for member in taking_part})
    if len(known) < whole.VIEW_CHANGE[len(members)] or whole.whole_quorums(known, len(members)):
        return None
    return f"no quorum is whole: {'; '.join(reason.text for reason in whole.lacks(known))}"


def is_known(members: List[Known], leader: Optional[Leader]) -> bool:
    """Whether enough is known to say that the group answers."""
    if leader is None:
        return False
    return sum(known.is_in(leader.view) is True for known in members) >= REPLICATION[len(members)]


def complaints(members: List[Known], leader: Optional[Leader], has_keepers: bool) -> List[str]:
    """What isn't well at single members, a sentence each."""
    found = []
    for member, known in enumerate(members):
        if has_keepers and known.line is None:
            found.append(f"member {member}: {known.fault}" + (", though it answers" if known.reply else ""))
        elif known.line is not None and known.line["well"] != "yes":
            found.append(f"member {member} isn't well: {known.line['well'].replace(',', ', ').replace('_', ' ')}")
        if known.refused:
            found.append(f"member {member}: no process listens at its address")
        elif known.reply is None and (known.line is None or known.line["well"] == "yes"):
            found.append(f"member {member} doesn't answer the probe")
        if known.place is not None and known.place != member:
            found.append(f"the address at place {member} is member {known.place}'s: the addresses are in another order")
        if leader is not None and member != leader.member and known.leads():
            found.append(f"member {member} takes itself for the one that leads, in view {known.view()}")
        elif leader is not None and known.reply is not None and known.is_in(leader.view) is False and known.goes_on():
            found.append(f"member {member} is in view {known.reply.view}, and member {leader.member} leads view {leader.view}")
        if known.line is not None and number(known.line, "damaged"):
            found.append(f"member {member}: {known.line['damaged']} damaged places in its file")
    return found


def contradictions(members: List[Known]) -> List[str]:
    """What shows that a premise is broken, a sentence each: different states of one checkpoint, which is the same at all members, and members that applied
    something else than before."""
    roots: Dict[str, Dict[str, List[int]]] = {}
    for member, known in enumerate(members):
        line = known.line or {}
        if line.get("root", "-") != "-":
            roots.setdefault(line["checkpoint"], {}).setdefault(line["root"], []).append(member)
    found = [f"{' and '.join(map(whole.members_of, holding.values()))} hold different states of checkpoint {checkpoint}" for checkpoint, holding in sorted(roots.items()) if len(holding) > 1]
    return found + [f"member {member} applied something else than before" for member, known in enumerate(members) if known.line is not None and "corrupt" in known.line["well"].split(",")]


def judge(members: List[Known], has_keepers: bool) -> Verdict:
    """What follows for the group."""
    verdict, corrupt = judge_answers(members, has_keepers), contradictions(members)
    return verdict._replace(code=CORRUPT, why=corrupt + verdict.why, may_change=False) if corrupt else verdict


def judge_answers(members: List[Known], has_keepers: bool) -> Verdict:
    """Whether the group answers, and what isn't well at its members."""
    leader = leader_of(members)
    why = complaints(members, leader, has_keepers)
    absent = absence(members, leader)
    silent = absent or standstill(members, leader)
    which, view = (leader.member, leader.view) if leader is not None else (None, newest_view(members))
    if silent is not None:
        begins = unbegun(members, is_led=absent is None)
        running = [member for member, known in enumerate(members) if known.state() not in ("down", "hangs")]
        told = [why for why in (f"the group doesn't answer: {silent}", begins, unwhole(members, running), scarcity(members)) if why is not None]
        return Verdict(SILENT, which, view, commit_of(members), told + why, may_change=absent is not None)
    if not is_known(members, leader):
        return Verdict(UNKNOWN, which, view, commit_of(members), ["too little is known to tell whether the group answers"] + why)
    why = [reason for reason in (unwhole(members, present(members, leader)), scarcity(members)) if reason is not None] + why
    return Verdict(AILS if why else WELL, which, view, commit_of(members), why)


def behind(known: Known, commit: Optional[int]) -> Optional[int]:
    """By how many operations a member is behind the greatest commit number; None where it isn't known."""
    if commit is None or known.line is None or known.line["state"] == "down" or number(known.line, "applied") == 0 < commit:
        return None
    return max(0, commit - number(known.line, "applied"))


LIMITS: Dict[str, Dict[str, int]] = {"1": {"sessions": 32, "keys": 128}, "2": {"sessions": 64, "keys": 128}}


class ReasonTold(TypedDict):
    """Why a member may not be stopped (whole.Reason)."""

    name: str
    text: str


class FactsTold(TypedDict):
    """What a member's file holds of what a whole quorum needs (whole.Facts)."""

    checkpoint: int
    anchored: bool
    missing: int
    lost: Tuple[int, ...]
    unknown: Tuple[int, ...]
    last: int


class MemberTold(TypedDict):
    """What a script or a page is told of a member; None where it isn't known."""

    member: int
    state: str
    leads: bool
    well: Optional[str]
    view: Optional[int]
    commit: Optional[int]
    applied: Optional[int]
    behind: Optional[int]
    up: Optional[float]
    stands: Optional[float]
    restarts: Optional[int]
    ends: Optional[int]
    version: Optional[int]
    mode: Optional[str]
    keys: Optional[int]
    most_keys: Optional[int]
    sessions: Optional[int]
    most_sessions: Optional[int]
    damaged: Optional[int]
    unsure: Optional[int]
    asks: Optional[str]
    mends: Optional[str]
    answers: Optional[str]
    has_state: Optional[bool]
    root: Optional[str]
    fault: Optional[str]
    may_be_stopped: Optional[bool]
    why_not: List[ReasonTold]
    whole: Optional[FactsTold]


class GroupTold(TypedDict):
    """What a script or a page is told of a group; quorums and who has the state by the keepers alone."""

    group: int
    code: int
    verdict: str
    leader: Optional[int]
    view: Optional[int]
    commit: Optional[int]
    why: List[str]
    whole_quorums: Optional[List[List[int]]]
    view_change_quorum: int
    with_state: Optional[List[int]]
    members: List[MemberTold]


def as_json(cluster: int, members: List[Known], verdict: Verdict, has_keepers: bool = True) -> GroupTold:
    """All of it, for a script or a page."""
    found = stops(members, verdict, has_keepers)
    return {
        "group": cluster, "code": verdict.code, "verdict": NAMES[verdict.code], "leader": verdict.leader, "view": verdict.view, "commit": verdict.commit, "why": verdict.why,
        "whole_quorums": [list(quorum) for quorum in quorums(members)] if has_keepers else None, "view_change_quorum": whole.VIEW_CHANGE[len(members)],
        "with_state": with_state(members) if has_keepers else None,
        "members": [member_json(member, known, verdict, found[member]) for member, known in enumerate(members)],
    }


def facts_json(facts: Optional[whole.Facts]) -> Optional[FactsTold]:
    if facts is None:
        return None
    return {"checkpoint": facts.checkpoint, "anchored": facts.anchored, "missing": facts.missing, "lost": facts.lost, "unknown": facts.unknown, "last": facts.last}


def member_json(member: int, known: Known, verdict: Verdict, stop: Stop) -> MemberTold:
    line = known.line or {}

    def count(name: str) -> Optional[int]:
        return int(line[name]) if line.get(name, "-").isdigit() else None

    limits, state = LIMITS.get(line.get("version", ""), {}), known.state()
    if state == "changes" and verdict.leader is not None and verdict.view is not None and known.is_in(verdict.view):
        state = "follows"  # The change is over: its reply is newer than its keeper's line.
    return {
        "member": member, "state": state, "leads": member == verdict.leader, "well": line.get("well"), "view": known.view(), "commit": count("commit"), "applied": count("applied"),
        "behind": behind(known, verdict.commit), "up": seconds(line, "up") if line.get("up", "-") != "-" else None, "stands": seconds(line, "stands") if line else None,
        "restarts": count("restarts"), "ends": count("ends"), "version": count("version"), "mode": None if line.get("mode", "-") == "-" else line["mode"],
        "keys": count("keys"), "most_keys": limits.get("keys"), "sessions": count("sessions"), "most_sessions": limits.get("sessions"),
        "damaged": count("damaged"), "unsure": count("unsure"), "asks": dash(line, "asks"), "mends": dash(line, "mends"), "answers": known.reply.kind if known.reply else None,
        "has_state": known.has_state(), "root": dash(line, "root"),
        "fault": known.fault or None,
        "may_be_stopped": stop.may, "why_not": [{"name": reason.name, "text": reason.text} for reason in stop.why], "whole": facts_json(known.facts()),
    }


def dash(line: Health, name: str) -> Optional[str]:
    value = line.get(name, "-")
    return None if value == "-" else value.replace("_", " ")
