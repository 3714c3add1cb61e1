"""When a member's standing still is to be ended by a stop and a start: a function of its output lines and their times alone.

Times are seconds of one clock that never goes back. Nothing here reads a clock, a file or chance of its own."""

from collections import deque
from typing import Callable, Deque, Dict, Optional, Tuple

from nozhgiva_tools.told.lines import Applied, Beat, Choice, Line, Message, Prepare, Question

GAP = 1.0  # seconds; the most that a silence between two lines counts as standing still, so that a pause of the machine counts as none
RECENT = 1.0  # seconds; what was told longer ago isn't so any more: a member that leads tells it ten times a second
FORGOTTEN = 3.0  # seconds; a question that wasn't asked again for so long has had its answer
LATELY = 30.0  # seconds; views that were entered longer ago aren't counted
UNDECIDED = 15.0  # seconds; each candidate tries in its turn, so a choice that waits is told again within these
FIRST_ASK = 6.0  # seconds; a member that lacks a block from its start on asks for it sooner, one that found a block bad by a visit later
PATIENCE = 5.0  # seconds; how long a member that leads may stand still; twice as long one that asks
GROWTH = 64  # times; the most that the patience grows to by restarts that didn't help
CALM = 10  # times the patience; so long after a restart, and going on, the growth is forgotten
NEVER = float("-inf")
MOST_ASKED = 64  # questions that are kept apart


class Seconds:
    """For how long the same thing has been seen."""

    def __init__(self) -> None:
        self.total = 0.0
        self.last: Optional[float] = None

    def see(self, now: float) -> float:
        """Adds the time since it was seen last, at most GAP, and gives the whole."""
        if self.last is not None:
            self.total += min(max(now - self.last, 0.0), GAP)
        self.last = now
        return self.total

    def was_lately(self, now: float) -> bool:
        """Whether it was seen so short a time ago that it may still be so."""
        return self.last is not None and now - self.last <= FORGOTTEN


class Seen:
    """What the lines of a member have told of it since it was started. A member that is alone in its group sends nothing to anybody: it leads once
    it has chosen its log."""

    def __init__(self, alone: bool = False) -> None:
        self.alone = alone
        self.begin(0.0, None, 0)

    def begin(self, now: float, view: Optional[int], commit: int) -> None:
        """It starts: only its view and its commit number as saved are known."""
        self.view, self.commit, self.head, self.applied = view, commit, 0, 0
        self.beat = self.change = self.busy = NEVER  # when it was last told that it leads, is in a view change, can't take a request
        self.changing_since = NEVER  # of the view change that it is in, or was in last
        self.doubt = now  # since when blocks of its checkpoint may be missing
        self.lacks = False  # whether some are: it applies nothing until it has them
        self.chosen = False  # whether a member that is alone has chosen its log
        self.undecided: Optional[Tuple[float, int]] = None  # when a choice of it waited last, and for which operation
        self.entered: Deque[float] = deque(maxlen=99)  # when its view rose
        self.last_asked: Dict[str, Tuple[str, ...]] = {}  # the entry, and the block, asked for last
        self.asked: Dict[Tuple[str, ...], float] = {}  # questions, and when they were last asked

    def leads(self, now: float) -> bool:
        return self.chosen if self.alone else now - self.beat <= RECENT

    def changes(self, now: float) -> bool:
        """Whether it is in the midst of a view change."""
        if self.alone:
            return self.view is not None and not self.chosen
        return now - self.change <= RECENT and not self.leads(now)

    def is_in_the_way(self, question: Tuple[str, ...]) -> bool:
        """Whether it can't go on without the answer. An entry that it has applied, and a block whose content it has in memory, aren't: a
        restart would lose what it has."""
        if question[0] == "get_prepare":
            return int(question[2]) > self.applied
        return self.lacks if question[0] == "get_block" else True

    def views_lately(self, now: float) -> int:
        """How many views it entered lately."""
        return sum(now - at <= LATELY for at in self.entered)

    def waits_to_choose(self, now: float) -> Optional[int]:
        """The operation for which its choice of a log waits."""
        return self.undecided[1] if self.undecided is not None and now - self.undecided[0] <= UNDECIDED else None

    def waits_for(self, now: float) -> Optional[Tuple[str, ...]]:
        """A question in the way that it asked a moment ago."""
        return next((q for q, last in self.asked.items() if now - last <= RECENT and self.is_in_the_way(q)), None)

    def mends(self, now: float) -> Optional[Tuple[str, ...]]:
        """A question that it asked a moment ago for what its disk lost and it has itself."""
        return next((q for q, last in self.asked.items() if now - last <= RECENT and not self.is_in_the_way(q)), None)

    def block_asked(self) -> float:
        """When it asked for a block last."""
        return max((last for question, last in self.asked.items() if question[0] == "get_block"), default=NEVER)

    def caught_up_to(self) -> int:
        """The op up to which it has applied all; 0 where it isn't known."""
        return 0 if self.lacks else max(self.applied, self.commit if self.applied == 0 else 0)

    def hear(self, now: float, line: Line) -> bool:
        """Takes a line in, and tells whether by it the member went on: it applied something, its commit number or its view rose, or an entry or a block came."""
        if line.kind == "start":
            self.begin(now, line.view, line.commit)
            self.changing_since = now if self.alone else NEVER
            return True
        view = self.view
        went_on = self.hear_more(now, line)
        if self.view != view:
            self.entered.append(now)
        return went_on

    def hear_more(self, now: float, line: Line) -> bool:
        """A line that is no start. The view of a message is one that it is in or was in: of entries older ones are told too."""
        if isinstance(line, Beat):
            return self.hear_beat(now, line)
        if isinstance(line, Applied):
            return self.hear_applied(line)
        if isinstance(line, Question):
            return self.hear_question(now, line)
        if isinstance(line, Choice):
            return self.hear_choice(now, line)
        if isinstance(line, Message) and line.kind == "start_view_change":
            return self.hear_change(now, line.view)
        if line.kind == "busy":
            self.busy = now
        return self.rise(line.view) if isinstance(line, (Message, Prepare)) else False

    def rise(self, view: int) -> bool:
        if self.view is not None and view <= self.view:
            return False
        self.view = view
        return True

    def hear_beat(self, now: float, line: Beat) -> bool:
        """It leads: with each tick it tells its head and its commit number."""
        moved = self.rise(line.view) | (line.commit > self.commit)
        self.beat, self.head, self.commit = now, line.op, max(self.commit, line.commit)
        return moved

    def hear_change(self, now: float, view: int) -> bool:
        if now - self.change > FORGOTTEN:
            self.changing_since = now
        self.change, self.beat = now, NEVER
        self.rise(view)
        return False

    def hear_applied(self, line: Applied) -> bool:
        if line.op <= self.applied:
            return False
        self.applied, self.commit = line.op, max(self.commit, line.op)
        self.lacks, self.doubt = False, NEVER
        return True

    def hear_choice(self, now: float, line: Choice) -> bool:
        self.chosen = line.kind == "choose"
        self.undecided = (now, line.op) if line.kind == "wait" and line.op is not None else None
        return self.rise(line.view)

    def hear_question(self, now: float, line: Question) -> bool:
        """A question. It is always the first that is lacking, so another entry or block than before means that that one came."""
        came = line.kind in ("get_prepare", "get_block") and self.last_asked.get(line.kind, line.asked) != line.asked
        self.last_asked[line.kind] = line.asked
        if line.kind == "get_sync":
            self.doubt = now
        if line.kind == "get_block":
            self.lacks = self.lacks or now - self.doubt <= FIRST_ASK or now - self.busy <= RECENT
        if len(self.asked) >= MOST_ASKED:
            self.asked.clear()
        self.asked[line.asked] = now
        return came


class Policy:
    """Tells from each line whether the member stands still, and is to be stopped and started.

    patience: seconds that a member that leads may stand still; 0 for ever. draw: gives a number from 0 to 1 by chance, so that the keepers of
    two members don't act at the same moment again and again. alone: whether the member is the only one of its group."""

    def __init__(self, patience: float, draw: Callable[[], float], alone: bool = False) -> None:
        self.patience, self.draw = patience, draw
        self.seen = Seen(alone)
        self.tries = 0  # restarts that were asked for, and didn't help for long
        self.asked_at = NEVER  # when the last one was asked for
        self.stands = Seconds()
        self.asks: Dict[Tuple[str, ...], Seconds] = {}
        self.limit = self.draw_limit()

    def draw_limit(self) -> float:
        """The patience, grown by the restarts that didn't help, and up to a half more by chance."""
        return self.patience * min(1 << self.tries, GROWTH) * (1 + self.draw() / 2)

    def hear(self, now: float, line: Line) -> Optional[str]:
        """Takes a line in; where a restart is due, the reason in a sentence. The time until the next one is longer then."""
        if self.seen.hear(now, line):
            self.go_on(now)
        reason = None
        if line.kind == "beat":
            reason = self.look_at_leader(now)
        elif isinstance(line, Question):
            reason = self.look_at_question(now, line.asked)
        if reason is None or self.patience == 0:
            return None
        self.ask(now)
        return reason

    def begin(self, now: float) -> None:
        """Its process is a new one: nothing is known of it yet."""
        self.seen.begin(now, None, 0)
        self.go_on(now)

    def go_on(self, now: float) -> None:
        """It went on: nothing has been seen for any time. After a long time of it the growth is forgotten."""
        self.stands = Seconds()
        self.asks.clear()
        if self.tries and now - self.asked_at > CALM * self.limit:
            self.tries = 0
            self.limit = self.draw_limit()

    def ask(self, now: float) -> None:
        self.stands = Seconds()
        self.asks.clear()
        self.tries += 1
        self.asked_at = now
        self.limit = self.draw_limit()

    def what_is_open(self, now: float) -> Optional[str]:
        """What a member that leads has to do; None where nothing is known of."""
        seen, question = self.seen, self.seen.waits_for(now)
        if question is not None:
            return f"it asks for {' '.join(question)}"
        if seen.head > seen.commit:
            return f"operations up to {seen.head} wait"
        return "it answers busy" if now - seen.busy <= RECENT else None

    def look_at_leader(self, now: float) -> Optional[str]:
        """Rule 1: it leads, something is open, and it doesn't go on."""
        what = self.what_is_open(now)
        if what is None:
            self.stands = Seconds()
        elif self.stands.see(now) >= self.limit:
            return f"leads view {self.seen.view}, and its commit number {self.seen.commit} hasn't moved for {self.stands.total:.1f} s though {what}"
        return None

    def look_at_question(self, now: float, question: Tuple[str, ...]) -> Optional[str]:
        """Rule 2: it asks for one and the same thing, and goes on by nothing."""
        for old in [q for q, seconds in self.asks.items() if not seconds.was_lately(now)]:
            del self.asks[old]
        if not self.seen.is_in_the_way(question) or len(self.asks) >= MOST_ASKED:
            self.asks.pop(question, None)
            return None
        seconds = self.asks.setdefault(question, Seconds())
        if seconds.see(now) < 2 * self.limit:
            return None
        return f"has asked for {' '.join(question)} for {seconds.total:.1f} s, and nothing comes"

    def standing(self, now: float) -> float:
        """For how many seconds it has been standing still, by either rule."""
        seen = [self.stands] + list(self.asks.values())
        return max([seconds.total for seconds in seen if seconds.was_lately(now)], default=0.0)
