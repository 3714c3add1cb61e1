"""Loads: which answers of theirs one register can give; and rolling restarts in counted time, under loads at which a member that was away never catches up. Without
the built program these are left out."""

import unittest
from typing import Dict, List, Optional

from nozhgiva_tools.operate import rolling, vitals as health
from nozhgiva_tools.run import built as program
from nozhgiva_tools.run.playing import Client, Group, Replay
from nozhgiva_tools.run.standing import Keepers
from nozhgiva_tools.told import whole
from tests.group.load import Asked, first_fault, NEVER

CLIENTS, RATE = 3, 30.0  # puts a second of all
SIZE = 1000  # bytes of a value; a hundred keys are some 26 blocks
DOWN = 4.0  # seconds for which a member is away: 120 operations, of which 64 fit into its window


class Loaded:
    """A group of three in counted time, with a hundred large values and a load of puts."""

    def __init__(self) -> None:
        self.replay = Replay(program.PATH)
        self.keepers = Keepers(0)
        self.group = Group(self.replay, self.keepers.hears)
        self.group.begin(3)
        self.keepers.group = self.group
        self.since: Dict[int, float] = {member: 0.0 for member in range(3)}
        self.told: List[str] = []
        self.group.start_all()
        for number in range(CLIENTS):
            self.group.add(Client(number + 1, 3, CLIENTS / RATE, SIZE))
        self.group.go_on(5)

    def health(self, member: int) -> Optional[Dict[str, str]]:
        if member not in self.group.running:
            return None
        life = health.Life(member, self.since[member], 0, 0, 0, 0)
        told = health.read(health.line(self.keepers.policy(member), self.group.now, life))
        return {name: value for name, value in told.items() if name not in whole.Facts._fields}  # There are no files to look at.

    def restart(self, member: int) -> None:
        """Away for DOWN seconds."""
        self.group.stop(member)
        self.group.go_on(DOWN)
        self.since[member] = self.group.now
        self.keepers.policy(member).begin(self.group.now)
        self.group.start(member)

    def hold(self) -> None:
        self.group.held = True

    def release(self) -> None:
        self.group.held = False

    def hands(self, holds: bool) -> rolling.Hands:
        return rolling.Hands(self.health, self.restart, self.hold if holds else None, self.release if holds else None, self.group.go_on, lambda: self.group.now, self.told.append)

    def answers_without(self, member: int) -> int:
        """How many answers the clients have in ten seconds once this member is gone for good."""
        self.group.stop(member)
        before = sum(client.answered for client in self.group.clients)
        self.group.go_on(10)
        return sum(client.answered for client in self.group.clients) - before


@unittest.skipUnless(program.is_there(), program.MISSING)
class Loads(unittest.TestCase):
    """Members 1 and 2 are restarted under load, and then member 0, which led, is gone."""

    BOUNDS = rolling.Bounds(whole=20.0, hold=5.0)

    def group(self) -> Loaded:
        made = Loaded()
        self.addCleanup(made.replay.end)
        return made

    def test_a_plain_loop_leaves_one_copy(self) -> None:
        made = self.group()
        for member in (1, 2):
            made.restart(member)
            made.group.go_on(3)
            self.assertEqual((made.health(member) or {}).get("state"), "follows")
        self.assertEqual(made.answers_without(0), 0)

    def test_a_roll_that_holds_the_clients_leaves_three(self) -> None:
        made = self.group()
        rolling.roll(made.hands(True), [0, 1, 2], self.BOUNDS, [1, 2])
        self.assertGreater(made.answers_without(0), 50)

    def test_a_roll_without_a_hold_stops_before_the_next(self) -> None:
        made = self.group()
        with self.assertRaisesRegex(rolling.Stopped, "hold the clients back"):
            rolling.roll(made.hands(False), [0, 1, 2], self.BOUNDS, [1, 2])
        self.assertEqual(made.since[2], 0.0)
        self.assertGreater(made.answers_without(1), 50)


def put(value: Optional[str], begun: float, ended: float) -> Asked:
    return Asked(True, "k", value, begun, ended)


def got(value: Optional[str], begun: float, ended: float) -> Asked:
    return Asked(False, "k", value, begun, ended)


RIGHT: Dict[str, List[Asked]] = {
    "nothing": [],
    "absent before the first put": [got(None, 0, 1), put("a", 2, 3), got("a", 4, 5)],
    "absent while the first put is under way": [put("a", 0, 5), got("a", 1, 2), got("a", 3, 4)],
    "one after the other": [put("a", 0, 1), got("a", 2, 3), put("b", 4, 5), got("b", 6, 7)],
    "two at once, either may be the last": [put("a", 0, 5), put("b", 0, 5), got("a", 6, 7), got("a", 8, 9)],
    "a put without an answer that is seen late": [put("a", 0, NEVER), put("b", 1, 2), got("b", 3, 4), got("a", 5, 6)],
    "a put without an answer that is never seen": [put("a", 0, NEVER), put("b", 1, 2), got("b", 3, 4)],
    "overwritten unseen": [put("a", 0, 1), put("b", 2, 3), put("c", 4, 5), got("c", 6, 7)],
}

WRONG: Dict[str, List[Asked]] = {
    "an acknowledged put is lost": [put("a", 0, 1), got(None, 2, 3)],
    "an older value comes back": [put("a", 0, 1), put("b", 2, 3), got("b", 4, 5), got("a", 6, 7)],
    "an older value is read": [put("a", 0, 1), put("b", 2, 3), got("a", 4, 5)],
    "a value is read before it is put": [got("a", 0, 1), put("a", 2, 3)],
    "a value that nobody put": [got("a", 0, 1)],
    "two that are read in turn": [put("a", 0, 9), put("b", 0, 9), got("a", 10, 11), got("b", 12, 13), got("a", 14, 15)],
    "a put without an answer is seen, and gone": [put("a", 0, NEVER), put("b", 1, 2), got("a", 3, 4), got("b", 5, 6)],
    "a put within another's time": [put("a", 0, 1), put("b", 2, 3), got("a", 4, 5)],
}


class Register(unittest.TestCase):
    def test_right(self) -> None:
        for name, history in RIGHT.items():
            with self.subTest(name):
                self.assertIsNone(first_fault(history))
                self.assertIsNone(first_fault(reversed(history)))

    def test_wrong(self) -> None:
        for name, history in WRONG.items():
            with self.subTest(name):
                self.assertIsNotNone(first_fault(history))
                self.assertIsNotNone(first_fault(reversed(history)))
