"""What a keeper counts, as Prometheus reads it (its text format, version 0.0.4): names, units and help by its conventions."""

import functools
import hashlib
import os
import shutil
import threading
import time
from collections import Counter
from typing import Dict, Iterator, List, NamedTuple, Optional, Tuple

from nozhgiva_tools.told import datafile, whole
from nozhgiva_tools.told.lines import Line, Reply

from . import vitals as health
from .policy import Policy
from .processes import HANGS

KIND = "text/plain; version=0.0.4; charset=utf-8"
REPLIES = {"reply": "answered", "busy": "busy", "redirect": "redirected", "old": "old", "gap": "gap", "evicted": "evicted"}
TROUBLES = ("corrupt", "down", "hangs", "no_file", "changes", "stands", "lacks_blocks", "unsure")


class Counts:
    """What only ever rises while a keeper runs."""

    def __init__(self) -> None:
        self.replies: "Counter[str]" = Counter({kind: 0 for kind in REPLIES.values()})
        self.views = self.applied = 0
        self.view: Optional[int] = None  # the newest that was seen
        self.op = 0  # the greatest that was applied

    def hear(self, line: Line, view: Optional[int]) -> None:
        """A line of the member, and the view that it is in after it."""
        if isinstance(line, Reply):
            self.replies[REPLIES[line.kind]] += 1
        elif line.kind == "applied" and line.op > self.op:
            self.applied += 1
            self.op = line.op
        if view is not None and (self.view is None or view > self.view):
            self.views += self.view is not None
            self.view = view


class Told(NamedTuple):
    """All that the metrics of a member are made of."""

    group: int
    policy: Policy
    life: health.Life
    counts: Counts
    codes: "Counter[int]"  # how often it ended with which code
    left_out: int
    program: str  # the name of its bytes
    now: float


class Metric(NamedTuple):
    """One metric: its name without the front, its type, its help, and its values by their labels."""

    name: str
    kind: str
    help: str
    values: List[Tuple[str, object]]


def one(name: str, kind: str, text: str, value: object) -> Metric:
    """A metric of one value; of none where it isn't known."""
    return Metric(name, kind, text, [] if value is None else [("", value)])


def by_label(name: str, kind: str, text: str, label: str, values: Dict[str, object]) -> Metric:
    return Metric(name, kind, text, [(f'{label}="{word}"', value) for word, value in values.items()])


def metrics(told: Told) -> Iterator[Metric]:
    """All of them."""
    life, seen, now = told.life, told.policy.seen, told.now
    runs = life.since is not None
    troubles = health.troubles(told.policy, now, life)
    yield one("member_up", "gauge", "Whether the member's process runs.", int(runs))
    yield one("member_leads", "gauge", "Whether the member leads its group.", int(runs and life.silent <= HANGS and seen.leads(now)))
    yield by_label("member_trouble", "gauge", "Whether the member isn't well for this reason.", "trouble", {word: int(word in troubles) for word in TROUBLES})
    yield one("member_start_time_seconds", "gauge", "When the member's process was started, in seconds since 1970.", None if life.since is None else round(time.time() - (now - life.since), 1))
    yield one("member_silent_seconds", "gauge", "Seconds since the member's process last took a turn.", round(life.silent, 1) if runs else None)
    yield one("view", "gauge", "The view that the member is in.", seen.view)
    yield one("view_changes_total", "counter", "Views that the member entered after the first one that was seen.", told.counts.views)
    yield one("commit_op", "gauge", "The commit number that the member knows: the last operation that is committed.", seen.commit)
    yield one("applied_op", "gauge", "The operation up to which the member has applied all.", seen.caught_up_to() or None)
    yield one("head_op", "gauge", "The last operation of the member's log.", max(seen.head, seen.commit))
    yield one("applied_ops_total", "counter", "Operations that the member applied.", told.counts.applied)
    yield by_label("replies_total", "counter", "Replies of the member to clients, by what they say.", "kind", dict(told.counts.replies))
    waits = life.demand.waits(now) if life.demand is not None else 0.0
    yield one("open_seconds", "gauge", "Seconds since the last commit, while something is open at the member or clients ask it in vain; else 0.", round(max(told.policy.standing(now), waits), 1))
    yield one("member_asks", "gauge", "Whether the member asks the others for something that it can't go on without.", int(runs and seen.waits_for(now) is not None))
    yield one("member_mends", "gauge", "Whether the member asks the others for something that its disk lost and it has in memory.", int(runs and seen.mends(now) is not None))
    yield one("standstill_restarts_total", "counter", "Restarts of the member by its keeper, because it stood still.", life.restarts)
    yield by_label("member_ends_total", "counter", "Ends of the member that its keeper didn't ask for, by exit code.", "code",
                   {f"signal_{-code}" if code < 0 else str(code): count for code, count in sorted(told.codes.items())})
    yield from of_lines(told)
    yield from of_file(told)


def of_lines(told: Told) -> Iterator[Metric]:
    yield one("lines_total", "counter", "Lines that the member wrote.", told.life.lines)
    yield one("log_lines_dropped_total", "counter", "Lines that couldn't be written to the keeper's log.", told.life.dropped)
    yield one("log_lines_left_out_total", "counter", "Lines that repeat or were too many in a second, and so aren't in the keeper's log.", told.left_out)
    yield Metric("program_info", "gauge", "The program that the member runs, by the front of its SHA-256.", [(f'sha256="{told.program}"', 1)] if told.program else [])


def of_file(told: Told) -> Iterator[Metric]:
    report, tally = told.life.report, told.life.tally
    value = report.value if report is not None else None
    yield Metric("file_info", "gauge", "Version and mode of the member's data file.", [(f'version="{value.version}",mode="{value.mode}"', 1)] if value else [])
    yield by_label("damaged_places", "gauge", "Damaged places of the data file, by what becomes of them.", "kind",
                   {kind: len(places) for kind, places in report.places._asdict().items()} if report is not None and value is not None else {})
    facts = report.facts() if report is not None else None
    runs = told.life.since is not None and told.life.silent <= HANGS
    takes_part = runs and not told.policy.seen.changes(told.now) and not health.lacks(told.policy, told.life)
    yield one("member_whole", "gauge", "Whether the member takes part and its file holds all that a whole quorum needs of it: a quorum of such members goes on without the others.",
              int(takes_part and whole.is_whole_alone(facts)) if facts else None)
    has_state = health.has_state(told.policy, told.life)
    yield one("member_has_state", "gauge", "Whether the member has the whole state: each block of its checkpoint, by its lines and its file.", None if has_state is None else int(has_state))
    root = health.root_of(report)
    yield Metric("checkpoint_info", "gauge", "The checkpoint of the member's data file, and the name of its root: that of one checkpoint is the same at all members.",
                 [(f'checkpoint="{value.checkpoint}",root="{root}"', 1)] if root and value is not None else [])
    yield one("group_members", "gauge", "Members that the group has.", value.members if value else None)
    yield one("view_change_quorum", "gauge", "Members that a change of views takes.", whole.VIEW_CHANGE[value.members] if value else None)
    yield one("keys", "gauge", "Keys that the group holds.", tally.keys if tally else None)
    yield one("keys_limit", "gauge", "Keys that the group can hold.", datafile.KEYS)
    yield one("sessions", "gauge", "Sessions that the group holds.", tally.sessions if tally else None)
    yield by_label("sessions_evicted_total", "counter", "Sessions that a further one ended, by whether they were used within the five minutes before.", "used",
                   dict(tally.evicted) if tally else {})
    yield one("sessions_limit", "gauge", "Sessions that the group can hold; a further one ends the one that was used longest ago.", tally.most if tally and tally.op is not None else None)


@functools.lru_cache(maxsize=None)
def head_of(name: str, kind: str, text: str) -> str:
    return f"# HELP nozhgiva_{name} {text}\n# TYPE nozhgiva_{name} {kind}"


def text(told: Told) -> bytes:
    """The whole text. A metric without a value isn't there."""
    labels = f'group="{told.group}",member="{told.life.member}"'
    lines = []
    for metric in metrics(told):
        if metric.values:
            lines.append(head_of(metric.name, metric.kind, metric.help))
            lines += [f"nozhgiva_{metric.name}{{{labels}{',' if more else ''}{more}}} {value}" for more, value in metric.values]
    times = os.times()
    lines += ["# HELP process_cpu_seconds_total Processor time that the keeper used, in seconds.", "# TYPE process_cpu_seconds_total counter",
              f"process_cpu_seconds_total {times.user + times.system:.2f}", ""]
    return "\n".join(lines).encode()


def name_of(program: str) -> str:
    """The first twelve digits of the SHA-256 of a program's file; nothing where it can't be read."""
    try:
        with open(shutil.which(program) or program, "rb") as file:
            return hashlib.sha256(file.read()).hexdigest()[:12]
    except OSError:
        return ""


class Poster:
    """Writes a text to a file again and again, in a thread of its own, whole or not at all: for the textfile collector of the node exporter."""

    def __init__(self, path: str) -> None:
        self.path, self.text = path, b""
        self.wanted = threading.Event()
        threading.Thread(target=self.work, daemon=True).start()

    def post(self, text: bytes) -> None:
        self.text = text
        self.wanted.set()

    def work(self) -> None:
        while True:
            self.wanted.wait()
            self.wanted.clear()
            try:
                with open(self.path + ".new", "wb") as file:
                    file.write(self.text)
                os.replace(self.path + ".new", self.path)
            except OSError:
                pass  # It is tried again; what stands there says by its age that it is old.
