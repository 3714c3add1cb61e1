"""Who is restarted, and who is never touched: by lines and times alone."""

import unittest
from typing import Callable, Dict, Iterable, Iterator, List, Optional, Tuple

from nozhgiva_tools.operate.policy import GAP, GROWTH, Policy, Seen
from nozhgiva_tools.told.lines import parse

Timed = Tuple[float, str]
LONG = 120.0  # seconds
PATIENCE = 5.0


def each_tick(begin: float, end: float, *lines: str) -> Iterator[Timed]:
    """These lines with each tick; {n} is the number of the tick."""
    for number in range(int(begin * 10), int(end * 10)):
        for line in lines:
            yield number / 10, line.format(n=number)


def merged(*parts: Iterable[Timed]) -> List[Timed]:
    return sorted((timed for part in parts for timed in part), key=lambda timed: timed[0])


def beats(begin: float, end: float, op: object, commit: object, view: int = 0) -> Iterator[Timed]:
    return each_tick(begin, end, f"send 1 0 1 commit view {view} op {op} commit {commit}", f"send 2 0 2 commit view {view} op {op} commit {commit}")


START = [(0.0, "start 0 view 0 log_view 0 commit 0")]
APPLIED = "commit 0 op {} view 0 client 1 request 1 put a b"
ASK = "send 3 0 1 get_prepare op {} made 0"
BLOCK = "send 3 0 1 get_block {}"

UNTOUCHED: Dict[str, Iterable[Timed]] = {
    "an idle primary": merged(START, beats(0, LONG, 7, 7)),
    "an idle backup: no lines at all": START,
    "a busy primary: always some wait, and the commit number rises": merged(START, beats(0, LONG, "1{n}", "{n}"), each_tick(0, LONG, "reply 0 client 1 request {n} busy")),
    "a slow primary: an operation each 1.5 s": merged(START, *[beats(at / 2, at / 2 + 0.5, at // 3 + 3, at // 3) for at in range(int(2 * LONG))]),
    "an ordinary view change of 1.3 s, then it leads": merged(
        START, each_tick(0.5, 1.8, "send 1 0 1 start_view_change view 3"), [(1.8, "choose 0 view 3 log 0 commit 7 head 9 own hh")], beats(1.8, 2.3, 9, 7, 3), beats(2.3, LONG, 9, 9, 3)),
    "view change after view change: a member that hears nobody": merged(START, each_tick(0, LONG, "send 1 0 1 start_view_change view {n}")),
    "a choice that waits": merged(START, each_tick(0, LONG, "send 1 0 1 start_view_change view 3", "wait 0 view 3 op 9")),
    "it catches up: another entry with each tick": merged(START, each_tick(0, 30, ASK.format("{n}")), beats(0, 30, 300, 0), beats(30, LONG, 300, 300)),
    "it fetches a checkpoint: another block with each tick": merged(START, each_tick(0, LONG, BLOCK.format("{n}"), "send 4 0 1 get_view view 4")),
    "a block that a visit found bad, and nobody gives": merged(START, [(1.0, APPLIED.format(7))], each_tick(9, LONG, BLOCK.format(12))),
    "the same at a primary that goes on seldom": merged(START, [(1.0, APPLIED.format(7))], beats(0, LONG, 7, 7), each_tick(9, LONG, BLOCK.format(12))),
    "the same where nothing was applied since the start": merged(START, each_tick(9, LONG, BLOCK.format(12))),
    "an entry that it has applied, lost by its disk, and nobody gives": merged(START, [(1.0, APPLIED.format(7))], beats(0, LONG, 7, 7), each_tick(9, LONG, ASK.format(5))),
    "a pause of the machine, with operations in flight": merged(START, beats(0, 1, 9, 7), beats(60, 60.5, 9, 7), beats(60.5, LONG, 9, 9)),
    "ten pauses of 10 s, and nothing goes on in the half second between": merged(START, *[beats(10 * i, 10 * i + 0.1, 9, 7) for i in range(4)]),
    "lines that are none": each_tick(0, LONG, "send 1 0 1 commit vi", "Segmentation fault", "send", ""),
}

TOUCHED = {
    "operations wait, and nothing is committed": (merged(START, beats(0, LONG, 9, 7)), PATIENCE, "operations up to 9 wait"),
    "busy, and nothing is committed": (merged(START, beats(0, LONG, 7, 7), each_tick(0, LONG, "reply 0 client 1 request 1 busy")), PATIENCE, "busy"),
    "it leads, and asks for an entry": (merged(START, beats(0, LONG, 7, 7), each_tick(0, LONG, ASK.format(3))), PATIENCE, "get_prepare op 3"),
    "it leads, and asks for a block": (merged(START, beats(0, LONG, 7, 7), each_tick(0, LONG, BLOCK.format(3))), PATIENCE, "get_block 3"),
    "a backup asks for an entry": (merged(START, each_tick(0, LONG, ASK.format(3))), 2 * PATIENCE, "get_prepare op 3"),
    "a backup that jumped asks for the root": (
        merged(START, [(1.0, APPLIED.format(7)), (20.0, "send 4 0 1 get_sync view 0")], each_tick(20.2, LONG, BLOCK.format(64))), 20 + 2 * PATIENCE, "get_block 64"),
    "it lacks a block through view changes": (merged(START, each_tick(0, LONG, BLOCK.format(0), "send 1 0 1 start_view_change view {n}")), 2 * PATIENCE, "get_block 0"),
    "it asks for the log of a view": (merged(START, each_tick(0, LONG, "send 4 0 1 get_view view 4")), 2 * PATIENCE, "get_view view 4"),
    "it lacks a block, and voted all the while": (merged(START, each_tick(0, LONG, BLOCK.format(0), "send 5 0 1 prepare_ok view 0 op {n} made 0")), 2 * PATIENCE, "get_block 0"),
    "it went on a while, and then no more": (merged(START, beats(0, 30, "1{n}", "{n}"), beats(30, LONG, 999, 298)), 30 + PATIENCE, "operations up to 999 wait"),
}


def first_restart(lines: Iterable[Timed], draw: float = 0.0) -> Optional[Tuple[float, str]]:
    """When a restart is asked for first, and why."""
    policy = Policy(PATIENCE, lambda: draw)
    for now, text in lines:
        reason = policy.hear(now, parse(text.encode()))
        if reason is not None:
            return now, reason
    return None


class Table(unittest.TestCase):
    def test_untouched(self) -> None:
        for name, lines in UNTOUCHED.items():
            with self.subTest(name):
                self.assertIsNone(first_restart(lines))

    def test_touched(self) -> None:
        for name, (lines, at, what) in TOUCHED.items():
            with self.subTest(name):
                now, reason = first_restart(lines) or (0.0, "none")
                self.assertAlmostEqual(now, at, delta=0.3)
                self.assertIn(what, reason)

    def test_never_with_no_patience(self) -> None:
        for name, (lines, _, _) in TOUCHED.items():
            with self.subTest(name):
                policy = Policy(0, lambda: 0.0)
                self.assertEqual({policy.hear(now, parse(text.encode())) for now, text in lines}, {None})


class Growing(unittest.TestCase):
    """A restart that doesn't help is asked for later and later."""

    def restarts(self, lines: List[Timed], draw: Callable[[], float] = lambda: 0.0) -> List[float]:
        policy, times = Policy(PATIENCE, draw), []
        for now, text in lines:
            if policy.hear(now, parse(text.encode())) is not None:
                times.append(now)
        return times

    def test_it_doubles_up_to_a_bound(self) -> None:
        times = self.restarts(merged(START, beats(0, 2500, 9, 7)))
        gaps = [after - before for before, after in zip([0.0] + times, times)]
        patiences = [5, 10, 20, 40, 80, 160, 320, 320, 320, 320, 320, 320]
        self.assertEqual(len(gaps), len(patiences))
        for gap, patience in zip(gaps, patiences):
            self.assertAlmostEqual(gap, patience, delta=1)
        self.assertEqual(GROWTH, 64)

    def test_it_goes_back_after_a_long_time_of_going_on(self) -> None:
        times = self.restarts(merged(START, beats(0, 6, 9, 7), beats(6, 200, "1{n}", "{n}"), beats(200, 230, 99999, 1999)))
        self.assertEqual([round(time) for time in times], [5, 205, 215])

    def test_two_by_chance_apart(self) -> None:
        lines = merged(START, beats(0, 600, 9, 7))
        one, other = iter([0.1, 0.9, 0.2, 0.8] * 9), iter([0.7, 0.3, 0.6, 0.1] * 9)
        for a, b in zip(self.restarts(lines, lambda: next(one)), self.restarts(lines, lambda: next(other))):
            self.assertGreater(abs(a - b), GAP)


class Knowing(unittest.TestCase):
    """What is told of a member by its health."""

    def seen(self, *lines: Timed) -> Seen:
        policy = Policy(PATIENCE, lambda: 0.0)
        for now, text in lines:
            policy.hear(now, parse(text.encode()))
        return policy.seen

    def test_how_far_it_has_applied(self) -> None:
        start = (0.0, "start 0 view 0 log_view 0 commit 64")
        rows: List[Tuple[List[Timed], int]] = [
            ([start], 64),
            ([start, (0.1, BLOCK.format(0))], 0),
            ([start, (0.1, BLOCK.format(0)), (0.2, BLOCK.format(1)), (0.4, APPLIED.format(70))], 70),
            ([start, (0.1, APPLIED.format(65)), (20.0, BLOCK.format(3))], 65),
            ([start, (0.1, APPLIED.format(65)), (0.2, "send 4 0 1 get_sync view 0"), (0.5, BLOCK.format(0))], 0),
            ([], 0),
        ]
        for lines, op in rows:
            with self.subTest(str(lines)):
                self.assertEqual(self.seen(*lines).caught_up_to(), op)

    def test_what_it_waits_for_and_what_it_mends(self) -> None:
        applied, block, entry = (0.1, APPLIED.format(65)), ("get_block", "3"), ("get_prepare", "op", "60", "made", "0")
        for lines, now, waits, mends in [
            ([applied, (20.0, BLOCK.format(3))], 20.5, None, block),
            ([applied, (20.0, ASK.format(60))], 20.5, None, entry),
            ([(0.1, BLOCK.format(3))], 0.5, block, None),
            ([(0.1, ASK.format(60))], 0.5, entry, None),
            ([(0.1, ASK.format(60))], 5.0, None, None),
        ]:
            with self.subTest(str(lines)):
                seen = self.seen((0.0, "start 0 view 0 log_view 0 commit 0"), *lines)
                self.assertEqual((seen.waits_for(now), seen.mends(now)), (waits, mends))
