"""Judges one crash state: the member is started on it, and what it states is held against what it had told, the one log, and operate/inspect."""

import random
from typing import Callable, List, NamedTuple, Optional

from nozhgiva_tools.run.group import migrate_words, NUMBER
from nozhgiva_tools.told.ends import Code
from nozhgiva_tools.told.lines import applied_of

from .disk import Bytes, State
from .members import Desk, Seen
from .reading import datafile
from .statements import Part
from .told import executed_of, Log, Told

LOST, OCCUPIED = int(Code.SUPER_LOST), int(Code.OCCUPIED)
NOTHING = Part("nothing", b"")
# The row of docs/OPERATING.md that a choice which waits is.
WAITS = "a choice waits"


# What changes a file besides the crash: it is given the file, what it holds and a source of chance, and gives the file, or None where it can't.
Change = Callable[[Bytes, datafile.Report, random.Random], Optional[bytes]]


class Case(NamedTuple):
    """A state to be tried: its number, by which it is drawn; of which member of a group of how many, whose files are made of which version; what this
    member had told by then, and the one log of its group. `how`: start; fresh, a file that was being made; migrate, one that is to be moved first.
    `change` comes on top of the crash, as damage (then `is_damaged`) or as a planted fault."""

    number: str
    member: int
    size: int
    version: int
    told: Told
    log: Log
    state: State
    how: str
    change: Optional[Change]
    is_damaged: bool


class Verdict(NamedTuple):
    """What was found: failures, each a kind and what happened, and rows of docs/OPERATING.md that allow what was seen."""

    failures: List[str]
    rows: List[str]


def judge(case: Case, desk: Desk) -> Verdict:
    """Tries one state."""
    desk.put(case.state.image)
    if case.change is not None and case.state.image is not None:
        changed = case.change(case.state.image, datafile.Report(desk.path), random.Random(case.number))
        desk.put(case.state.image if changed is None else changed)
    if case.how == "fresh":
        return Verdict(judge_fresh(case, desk), [])
    if case.how == "migrate":
        code = desk.run(migrate_words(desk.program, NUMBER, case.member, case.size, desk.path))
        if code:
            return Verdict([f"ended: migrate again ends with {code}"], [])
    return judge_start(case, desk)


def judge_fresh(case: Case, desk: Desk) -> List[str]:
    """A file that was being made: it holds a member, or none, and can be made again; the start after that begins at nothing."""
    code = 0
    if case.state.image is not None:
        seen = desk.start(case.member, case.size, case.version, 0)
        code = 0 if seen.code is None else seen.code
        if code not in (0, LOST):
            return [f"ended: a start on a file that was being made ends with {code}"]
    whole = case.state.image is not None and code == 0
    again = desk.make(case.member, case.size, *(["--v2"] if case.version == 2 else []))
    if again != (OCCUPIED if whole else 0):
        return [f"ended: --fresh again ends with {again}, where a start ended with {code}"]
    seen = desk.start(case.member, case.size, case.version, 0)
    return [] if seen.statement is not None and seen.statement.head == 0 else [f"ended: a member that was made again: {seen.code} {seen.lines[:2]}"]


def judge_start(case: Case, desk: Desk) -> Verdict:
    report = datafile.Report(desk.path)
    value = report.value
    seen = desk.start(case.member, case.size, value.version if value else 1, max(case.told.view, value.view if value else 0))
    start = seen.line("start ")
    if seen.code is not None or start is None:
        return Verdict([f"{'lost' if seen.code == LOST else 'ended'}: a start ends with {seen.code}"], [])
    if value is None:
        return Verdict(["inspect: it reads no member where the program starts one"], [])
    failures = judge_views(case, value, int(start[3]), int(start[5]), int(start[7])) + judge_checkpoint(case, report)
    rows: List[str] = []
    if case.size == 1:
        failures += judge_alone(case, report, seen, rows)
    elif seen.statement is None:
        failures.append(f"silent: no statement: {seen.lines[:3]}")
    else:
        failures += judge_statement(case, report, seen)
    return Verdict(failures + judge_copies(desk), rows)


def judge_copies(desk: Desk) -> List[str]:
    """After the start the copies are mended; one may be cut, since on a busy machine the member may be killed while it enters a further view."""
    with open(desk.path, "rb") as file:
        after = datafile.Superblock(file.read(4 * datafile.COPY))
    return ["unmended: copies of the superblock aren't whole after the start"] if after.values.count(None) > 1 or after.value is None else []


def judge_views(case: Case, value: datafile.Value, view: int, log_view: int, commit: int) -> List[str]:
    failures = []
    if view < case.told.view or log_view < case.told.log_view:
        failures.append(f"view: it starts in view {view} with the log of {log_view}, and had told of {case.told.view} and {case.told.log_view}")
    leads = value.view == value.log_view and value.view % case.size == case.member
    if (view, log_view, commit) != (value.view + leads, value.log_view, value.commit):
        failures.append(f"inspect: view {value.view} log_view {value.log_view} commit {value.commit}, and the start tells {view} {log_view} {commit}")
    return failures


def judge_checkpoint(case: Case, report: datafile.Report) -> List[str]:
    """The keys in the file are those of the one log at that number; without damage they can be read, but of a checkpoint that another member gave."""
    checkpoint = report.checkpoint
    if checkpoint.keys is None or checkpoint.faulty:
        taken_over = (case.member, checkpoint.op) in case.log.given
        return [] if case.is_damaged or taken_over else [f"checkpoint: blocks {checkpoint.faulty} of checkpoint {checkpoint.op} are faulty"]
    wrong = dict(checkpoint.pairs()) != case.log.keys_at(checkpoint.op)
    return [f"checkpoint: the keys of checkpoint {checkpoint.op} aren't those of the log"] if wrong else []


def judge_statement(case: Case, report: datafile.Report, seen: Seen) -> List[str]:
    statement, value = seen.statement, report.value
    assert statement is not None and value is not None
    failures = []
    stated = {op: part.kind for op, part in statement.parts.items() if part.kind != "nothing"}
    wanted = {op: kind for kind in ("here", "lost", "wanted", "unknown") for op in report.slots.found[kind]}
    ops = sorted(op for op in {*stated, *wanted} if op > value.checkpoint and op >= statement.first)
    differ = [f"{op} is {wanted.get(op, 'nothing')} and stated as {stated.get(op, 'nothing')}" for op in ops if stated.get(op) != wanted.get(op)]
    failures += [f"inspect: {it}" for it in differ]
    for op, part in statement.parts.items():
        if op <= statement.commit and part.name and case.log.name(op) not in (None, part.name):
            failures.append(f"other: it knows operation {op} as committed with another entry")
    if statement.log_view < case.told.log_view:
        failures.append(f"view: it states the log of view {statement.log_view}, and had told of {case.told.log_view}")
    for op in case.told.claims:
        if op > statement.commit or op > value.checkpoint and op >= statement.first:
            failures += judge_claim(case, seen, op)
    return failures


def judge_claim(case: Case, seen: Seen, op: int) -> List[str]:
    """What a member had told of an operation: as long as its log is of that view, or the operation was committed, it may not deny it."""
    claim, statement = case.told.claims[op], seen.statement
    assert statement is not None
    if statement.log_view > claim.view and case.log.name(op) != claim.name:
        return []
    part = statement.parts.get(op, NOTHING)
    if part.kind in ("nothing", "wanted") or part.name not in (b"", claim.name):
        other = " of another entry" if part.kind in ("here", "lost") else ""
        return [f"denied: operation {op}, of which it had told in view {claim.view}, is stated as {part.kind}{other}"]
    if part.kind != "here" and claim.here and not case.is_damaged:
        return [f"gone: operation {op} is stated as {part.kind} though nothing was damaged"]
    return []


def judge_alone(case: Case, report: datafile.Report, seen: Seen, rows: List[str]) -> List[str]:
    """A member that is alone leads by itself, with each operation that it answered; or waits, where a file of its kind may."""
    value, chosen, waits = report.value, seen.line("choose "), seen.line("wait ")
    assert value is not None
    if chosen is None:
        if waits is None:
            return [f"silent: it neither leads nor waits: {seen.lines[:3]}"]
        op = int(waits[5])
        doubtful = op in report.slots.found["unknown"] + report.slots.found["lost"]
        if doubtful and (value.mode == "careful" or case.is_damaged):
            rows.append(f"{WAITS}: a group of one {'on a careful file' if not case.is_damaged else 'with damage'}")
            return []
        return [f"waits: at operation {op}, which {'is doubtful in a strict file' if doubtful else 'inspect knows'}"]
    head = int(chosen[9])
    failures = [f"inspect: own parts {chosen[11]}, and it reads {own_of(report)}"] if chosen[11] != own_of(report) else []
    executed = {it.op: executed_of(it) for it in (applied_of(line.split()) for line in seen.lines if line) if it is not None}
    for op, its in sorted(executed.items()):
        if op in case.log.executed and its[1:] != case.log.executed[op][1:] and is_answered(case, op):
            failures.append(f"other: operation {op} is {its}, and was {case.log.executed[op]}")
    lost = [op for op in case.log.executed if is_answered(case, op) and op > max(head, value.checkpoint)]
    failures += [f"denied: operation {op} was answered, and the log ends at {head}" for op in lost]
    return failures


def is_answered(case: Case, op: int) -> bool:
    executed = case.log.executed[op]
    return executed.request <= case.told.answered.get(executed.client, -1)


def own_of(report: datafile.Report) -> str:
    """The letters that a `choose` line has for what the file holds above its commit number."""
    assert report.value is not None
    found = {op: kind[0] for kind in ("here", "lost", "wanted", "unknown") for op in report.slots.found[kind]}
    last = max(found, default=0)
    return "".join(found.get(op, "n") for op in range(report.value.commit + 1, last + 1)) or "-"
