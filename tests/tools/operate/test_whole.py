"""Whether a quorum is whole, and who may be stopped: by what files hold, in the line of a keeper, in what is told of a group, and by a roll."""

import unittest
from typing import Dict, Iterable, List, Optional, Set, Tuple
from unittest import mock

from nozhgiva_tools.operate import policy, vitals as health
from nozhgiva_tools.operate.judging import AILS, as_json, judge, Known, SILENT, WELL
from nozhgiva_tools.operate.probing import Reply
from nozhgiva_tools.operate.rolling import check, Hands, Stopped
from nozhgiva_tools.operate.telling import table
from nozhgiva_tools.told import datafile, whole
from nozhgiva_tools.told.lines import parse
from nozhgiva_tools.told.whole import Facts, lacks, reasons, whole_quorums

from .test_status import line

FINE = Facts(64, True, 0, (), (), 70)
LATER = FINE._replace(checkpoint=96, last=101)
FIRST = Facts(0, True, 0, (), (), 7)
UNSURE = FINE._replace(unknown=(75, 128))
BLOCKS = LATER._replace(missing=1)
FULL = LATER._replace(last=160, anchored=False)


def names(found: Iterable[whole.Reason]) -> List[str]:
    return [reason.name for reason in found]


class Quorums(unittest.TestCase):
    """By docs/OPERATING.md, "Whole quorums"."""

    def test_what_a_quorum_lacks(self) -> None:
        for name, quorum, wanted in [
            ("nothing", [FINE, FINE], []),
            ("nothing, with no checkpoint", [FIRST, FIRST], []),
            ("nothing, and one is behind", [FINE, LATER], []),
            ("a slot that can't be told of", [FINE, UNSURE], ["unsure"]),
            ("one below the greatest checkpoint counts for nothing", [LATER._replace(checkpoint=128, last=130), UNSURE._replace(unknown=(75, 127))], []),
            ("an entry", [FINE, FINE._replace(lost=(69,))], ["lost"]),
            ("an entry that the greatest checkpoint holds", [LATER, FINE._replace(lost=(69, 96))], []),
            ("the blocks of the greatest checkpoint", [FINE, BLOCKS], ["blocks"]),
            ("blocks that another one has", [LATER, BLOCKS], []),
            ("blocks of one that is behind", [LATER, FINE._replace(missing=2)], []),
            ("the header of the checkpoint's operation", [FINE, FULL], ["window"]),
            ("the same, and all have that checkpoint", [LATER, FULL], []),
            ("the header at both", [FULL, FULL], ["window"]),
            ("the end of the window, for one that is behind", [FINE, LATER, FULL], ["window"]),
            ("the last operation before it", [FINE, LATER._replace(last=159)], []),
            ("two things", [UNSURE, FINE._replace(lost=(69,))], ["unsure", "lost"]),
        ]:
            with self.subTest(name):
                self.assertEqual(names(lacks(dict(enumerate(quorum)))), wanted)

    def test_which_are_whole(self) -> None:
        for facts, size, wanted in [
            ([FINE, FINE, FINE], 3, [(0, 1), (0, 2), (1, 2)]),
            ([FINE, FINE, UNSURE], 3, [(0, 1)]),
            ([FINE, FINE, BLOCKS], 3, []),
            ([FINE, LATER, BLOCKS], 3, [(0, 1), (1, 2)]),
            ([FINE, FINE, FINE, UNSURE, UNSURE], 5, [(0, 1, 2)]),
            ([FINE], 3, []),
            ([FINE], 1, [(0,)]),
        ]:
            self.assertEqual(whole_quorums(dict(enumerate(facts)), size), wanted)

    def test_who_may_be_stopped(self) -> None:
        rows: List[Tuple[str, Dict[int, Optional[Facts]], int, List[List[str]]]] = [
            ("all are fine", {0: FINE, 1: FINE, 2: FINE}, 3, [[], [], []]),
            ("two of three run", {0: FINE, 1: FINE}, 3, [["few"], ["few"], []]),
            ("one is unsure", {0: FINE, 1: FINE, 2: UNSURE}, 3, [["unsure"], ["unsure"], []]),
            ("one alone has the blocks", {0: LATER, 1: FINE, 2: BLOCKS}, 3, [["blocks"], [], []]),
            ("of one nothing is known", {0: FINE, 1: FINE, 2: None}, 3, [["unseen"], ["unseen"], []]),
            ("one of five is unsure", {0: FINE, 1: FINE, 2: FINE, 3: FINE, 4: UNSURE}, 5, [[]] * 5),
            ("a group of two", {0: FINE, 1: FINE}, 2, [["few"], ["few"]]),
        ]
        for name, facts, size, wanted in rows:
            with self.subTest(name):
                self.assertEqual([names(reasons(member, size, facts)) for member in range(size)], wanted)

    def test_members_that_are_whole_alone_are_whole_together(self) -> None:
        every = [FINE, LATER, FIRST, UNSURE, BLOCKS, FULL, LATER._replace(lost=(101,))]
        for one in every:
            for other in every:
                if whole.is_whole_alone(one) and whole.is_whole_alone(other):
                    self.assertEqual(lacks({0: one, 1: other}), [])
        self.assertEqual([whole.is_whole_alone(one) for one in every], [True, True, True, False, False, False, False])


class Found(datafile.Report):
    """What was found in a file that lacks so many blocks."""

    def __init__(self, missing: int) -> None:
        self.value, self.places, self.missing = None, datafile.Places(set(), set(), set()), missing

    def facts(self) -> Facts:
        return FINE._replace(missing=self.missing)


class Lines(unittest.TestCase):
    def told(self, facts: Optional[Facts], looked: float = 0.5, up: float = 9.0, well: str = "yes") -> Dict[str, str]:
        return {name: str(value) for name, value in {"well": well, "looked": looked, "up": up, **whole.words(facts)}.items()}

    def test_what_is_written_is_read(self) -> None:
        for facts in (FINE, FIRST, UNSURE, BLOCKS, FULL, FINE._replace(lost=(69, 70, 72), unknown=(75, 76, 77))):
            self.assertEqual(whole.of_line(self.told(facts)), facts)
        self.assertIsNone(whole.of_line(self.told(None)))
        self.assertTrue(whole.is_told(self.told(None)))
        self.assertFalse(whole.is_told(line(0, "leads")))

    def test_an_old_look_counts_for_nothing(self) -> None:
        self.assertIsNone(whole.of_line(self.told(FINE, looked=9.5, up=90.0)))
        self.assertIsNone(whole.of_line(self.told(FINE, looked=2.0, up=1.0)))
        self.assertEqual(whole.of_line(self.told(FINE, well="stands,lacks_blocks")), FINE._replace(missing=1))

    def test_who_has_the_state(self) -> None:
        """By what its lines say, and by what the last look at its file found."""
        asked = "send 7 1 0 get_block 64"
        rows: List[Tuple[str, List[str], Optional[Found], Optional[float], Optional[bool]]] = [
            ("nobody has looked", [], None, None, None),
            ("nobody has looked, and it asks for blocks", [asked], None, None, False),
            ("all blocks are there", [], Found(0), 9.0, True),
            ("one isn't", [], Found(1), 9.0, False),
            ("they are there by a look while it asks", [asked], Found(0), 2.5, False),
            ("they are there by a later look, and there is nothing to apply", [asked], Found(0), 3.5, True),
            ("one isn't by a later look", [asked], Found(1), 3.5, False),
            ("its file can't be read", [], None, 9.0, False),
        ]
        for name, lines, found, looked, wanted in rows:
            with self.subTest(name):
                seen = policy.Policy(5.0, lambda: 0.5)
                for text in ["start 1 view 0 log_view 0 commit 32", *lines]:
                    seen.hear(2.0, parse(text.encode()))
                life = health.Life(1, 0.0, 0, 0, 0, 0, report=found, looked=looked)
                self.assertEqual(health.has_state(seen, life), wanted)
                self.assertEqual(health.read(health.line(seen, 9.0, life))["has_state"], {None: "-", True: "yes", False: "no"}[wanted])

    def test_a_keepers_line(self) -> None:
        seen = policy.Policy(5.0, lambda: 0.5)
        for view in range(9):
            seen.seen.rise(view)
        told = health.read(health.line(seen, 3.0, health.Life(1, 0.0, 0, 0, 0, 0)))
        self.assertEqual((told["checkpoint"], told["looked"], told["views"], told["undecided"]), ("-", "-", "0", "-"))


class Looking(unittest.TestCase):
    def look(self, *faulty: Set[int]) -> datafile.Report:
        """A file that has these faulty blocks at one look after the other."""
        reports = []
        for blocks in faulty:
            report = datafile.Report.__new__(datafile.Report)
            report.places, report.missing = datafile.Places({("block", block) for block in blocks}, set(), set()), len(blocks)
            report.value = datafile.Value.__new__(datafile.Value)
            reports.append(report)
        with mock.patch.object(datafile, "Report", side_effect=reports), mock.patch.object(datafile, "PAUSE", 0):
            return datafile.look("file")

    def test_blocks_that_are_missing_at_each_look(self) -> None:
        """A member that takes over checkpoint after checkpoint lacks other blocks at each look, and lacks some all the while."""
        rows: List[Tuple[str, List[Set[int]], int, int]] = [
            ("none", [set()], 0, 0),
            ("the same", [{1, 2}, {1, 2}, {1}], 1, 1),
            ("of other checkpoints", [{1, 2}, {65, 66}, {3}], 1, 0),
            ("while the member wrote there", [{1, 2}, set()], 0, 0),
        ]
        for name, faulty, missing, damaged in rows:
            with self.subTest(name):
                report = self.look(*faulty)
                self.assertEqual((report.missing, report.damaged()), (missing, damaged))


class Told(unittest.TestCase):
    def known(self, member: int, state: str, facts: Facts, **more: str) -> Known:
        told = {name: str(value) for name, value in whole.words(facts).items()}
        reply = Reply({"leads": "evicted"}.get(state, "redirect"), 3, 1)
        return Known(dict(line(member, state), looked="0.5", **told, **more), "", reply)

    def test_who_may_be_stopped(self) -> None:
        members = [self.known(0, "leads", FINE), self.known(1, "follows", FINE), self.known(2, "follows", UNSURE, well="unsure", unsure="2")]
        verdict = judge(members, True)
        told = as_json(5, members, verdict)
        self.assertEqual((verdict.code, told["whole_quorums"], told["view_change_quorum"]), (AILS, [[0, 1]], 2))
        self.assertEqual([member["may_be_stopped"] for member in told["members"]], [False, False, True])
        self.assertEqual(told["members"][0]["why_not"][0]["name"], "unsure")
        text = table(told)
        self.assertIn("whole quorums, of 2: 0 1\n", text)
        self.assertIn("any one of members 0 1 may be stopped: no, because the file of member 2 can't tell of 2 of its slots (operations 75,128)", text)
        self.assertIn("member 2 may be stopped: yes", text)

    def test_how_many_have_the_state(self) -> None:
        """By docs/OPERATING.md: who has it, and where after the loss of one more fewer than a change of views takes would be left."""
        few = "the state is"
        for name, size, having, lacking, tells in [
            ("all have it", 3, 3, 0, False), ("one of three lacks it", 3, 2, 1, True), ("two of three lack it", 3, 1, 2, True), ("nobody has it", 3, 0, 3, True),
            ("one of five lacks it", 5, 4, 1, False), ("two of five lack it", 5, 3, 2, True), ("of one nothing is known", 3, 2, 0, False), ("one of two lacks it", 2, 1, 1, True),
        ]:
            with self.subTest(name):
                words = ["yes"] * having + ["no"] * lacking + ["-"] * (size - having - lacking)
                members = [self.known(member, "follows" if member else "leads", FINE, has_state=word) for member, word in enumerate(words)]
                verdict = judge(members, True)
                told = as_json(5, members, verdict)
                self.assertEqual((told["with_state"], verdict.code), (list(range(having)), AILS if tells else WELL))
                self.assertEqual(any(why.startswith(few) for why in verdict.why), tells, verdict.why)
                self.assertEqual([member["has_state"] for member in told["members"]], [{"yes": True, "no": False, "-": None}[word] for word in words])
                self.assertIn(f"the whole state is at {having} of {size} members: {' '.join(map(str, range(having))) or 'none'}\n", table(told))

    def test_without_keepers_nobody_can_tell(self) -> None:
        members = [Known(None, "", Reply(kind, 3, 1)) for kind in ("evicted", "redirect", "redirect")]
        told = as_json(5, members, judge(members, False), False)
        self.assertEqual([member["may_be_stopped"] for member in told["members"]], [None] * 3)
        self.assertIsNone(told["whole_quorums"])

    def test_no_quorum_is_whole(self) -> None:
        members = [self.known(0, "leads", FULL), self.known(1, "follows", FINE)]
        members.append(Known(None, "no keeper answers", None, True))
        self.assertEqual(judge(members, True).why[0][:23], "no quorum is whole: mem")
        members = [self.known(0, "leads", FINE), self.known(1, "follows", FINE), self.known(2, "follows", FINE)]
        self.assertEqual(judge(members, True).code, WELL)

    def test_a_standstill_of_views_is_named(self) -> None:
        def changing(member: int, **more: str) -> Known:
            return Known(dict(line(member, "changes", well="changes"), **more), "", Reply("redirect", 3, 1))

        for more, text in (({"views": "21", "undecided": "-"}, "views chase each other: members 0, 1, 2 entered up to 21 views in 30 s"),
                           ({"views": "21", "undecided": "71"}, "a choice waits: operation 71")):
            verdict = judge([changing(member, **more) for member in range(3)], True)
            self.assertEqual(verdict.code, SILENT)
            self.assertTrue(verdict.why[1].startswith(text), verdict.why)
        one_waits = [changing(0, views="21", undecided="71"), changing(1, views="21", undecided="-"), Known(None, "no keeper answers", None, True)]
        self.assertTrue(judge(one_waits, True).why[1].startswith("views chase each other: members 0, 1 "))
        full = [self.known(0, "changes", FULL, well="changes", views="21"), self.known(1, "changes", FINE, well="changes", views="21")]
        self.assertEqual(judge(full + one_waits[2:], True).why[2][:23], "no quorum is whole: mem")
        self.assertEqual(len([why for why in judge([changing(member, views="2") for member in range(3)], True).why if "chase" in why]), 0)


def hands_on(told: List[Dict[str, str]]) -> Hands:
    """Those of a roll that only looks: what each member tells."""
    return Hands(lambda member: told[member], lambda member: None, None, None, lambda seconds: None, lambda: 0.0, lambda text: None)


class Rolls(unittest.TestCase):
    def test_a_roll_names_what_those_that_stay_lack(self) -> None:
        rows: List[Tuple[List[Optional[Facts]], List[int], Optional[str]]] = [
            ([FINE, FINE, FINE], [0, 1, 2], None),
            ([LATER, FINE, BLOCKS], [1, 2], None),
            ([LATER, FINE, BLOCKS], [0], r"member 0 may not be stopped \(blocks: none of members 1, 2 has all blocks of checkpoint 96"),
            ([FINE, FINE, FINE._replace(lost=(69,))], [1], r"member 1 may not be stopped \(lost: the file of member 2 has lost 1 entries"),
            ([FULL, FINE, FINE], [2], r"member 2 may not be stopped \(window: member 0 can't give checkpoint 96"),
            ([FINE, FINE, None], [0], r"member 0 may not be stopped \(unseen: what the file of member 2"),
            ([FINE, FINE], [0, 1], None),
            ([FINE, FULL], [0], r"member 0 may not be stopped \(window"),
            ([FINE], [0], None),
        ]
        for facts, chosen, wanted in rows:
            told = [dict(line(member, "leads" if member == 0 else "follows"), looked="0.5", **{name: str(value) for name, value in whole.words(one).items()})
                    for member, one in enumerate(facts)]
            hands = hands_on(told)
            with self.subTest(f"{chosen} of {facts}"):
                if wanted is None:
                    check(hands, list(range(len(facts))), chosen)
                else:
                    self.assertRaisesRegex(Stopped, wanted, check, hands, list(range(len(facts))), chosen)

    def test_earlier_keepers_tell_nothing_and_a_roll_goes_on(self) -> None:
        told = [line(0, "leads"), line(1, "follows")]
        check(hands_on(told), [0, 1], [0, 1])
