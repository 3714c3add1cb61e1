"""The policy over groups in counted time, played by the program: standstills end, and groups that are well are never touched. Without the built program
these are left out."""

import glob
import os
import subprocess
import unittest

from nozhgiva_tools.operate.policy import PATIENCE
from nozhgiva_tools.places import EXAMPLES, OPERATE, words_of_module
from nozhgiva_tools.run import built as program, standing
from nozhgiva_tools.run.playing import Client, Group, Replay
from nozhgiva_tools.run.standing import Keepers
from tests import progress

HERE = str(OPERATE)
SLOW = 0.15  # seconds of a sync


@unittest.skipUnless(program.is_there(), program.MISSING)
class Standing(unittest.TestCase):
    # Whom no restart helps, and what what is left lacks then (parts/whole.py).
    LASTING = {"backup-takes-neither-log-nor-checkpoint": "window", "blocks-at-a-dead-member": "blocks", "one-of-two-cannot-tell-of-a-slot": "unsure",
               "two-of-three-cannot-tell-of-a-slot": "unsure"}

    def test_each_stands_still_as_it_is_and_goes_on_with_the_policy_where_it_says_so(self) -> None:
        paths = sorted(glob.glob(str(EXAMPLES / "standstills" / "*.txt")))
        self.assertEqual(len(paths), 11)
        for path in paths:
            with self.subTest(os.path.basename(path)):
                with open(path) as file:
                    text = file.read()
                self.assertEqual(standing.is_ended(text), os.path.basename(path)[:-4] not in self.LASTING)
                self.assertEqual(standing.play(program.PATH, text, 3 * PATIENCE, 0).answers, 0)
                kept = standing.play(program.PATH, text, 4.5 * PATIENCE, PATIENCE)
                if not standing.is_ended(text):
                    self.assertIsNone(kept.first)
                    continue
                self.assertIsNotNone(kept.first)
                self.assertLess(kept.first or 0.0, 4 * PATIENCE)
                self.assertGreater(kept.answers, 5)

    def test_those_that_a_restart_ends_are_whole_and_the_others_arent(self) -> None:
        """By ./nozhgiva test progress, which finds out what the files of the members that run hold. Where a link is cut, or a backup lacks what its own disk has, that says nothing."""
        folder = str(EXAMPLES / "standstills")
        for name, lacking in dict(self.LASTING, **{"backup-past-the-primarys-commit-number": None, "primary-lacks-a-forgotten-entry": None, "entry-of-a-dead-member": None}).items():
            with self.subTest(name):
                words = [*words_of_module(progress), "--never", "--rounds", "30", "--play", os.path.join(folder, name + ".txt")]
                made = subprocess.run(words, capture_output=True, text=True)
                self.assertEqual(made.returncode, 1 if lacking is None else 0, made.stdout + made.stderr)
                self.assertIn(" whole: " if lacking is None else f"not whole: {lacking};", made.stdout)


class Untouched:
    """A group of three in counted time, of which the policies only tell whom they would restart."""

    def __init__(self, sync: float, clients: int, pause: float, size: int = 1) -> None:
        self.replay = Replay(program.PATH)
        self.keepers = Keepers(PATIENCE, acts=False)
        self.group = Group(self.replay, self.keepers.hears, sync)
        self.group.begin(3)
        self.keepers.group = self.group
        self.group.start_all()
        for number in range(clients):
            self.group.add(Client(number + 1, 3, pause, size))

    def answered(self) -> int:
        return sum(client.answered for client in self.group.clients)


@unittest.skipUnless(program.is_there(), program.MISSING)
class Well(unittest.TestCase):
    def group(self, sync: float, clients: int, pause: float, size: int = 1) -> Untouched:
        made = Untouched(sync, clients, pause, size)
        self.addCleanup(made.replay.end)
        return made

    def check(self, made: Untouched, least: int) -> None:
        """Nobody was to be restarted, and the clients had at least so many answers."""
        self.assertEqual(made.keepers.restarts, [])
        self.assertGreaterEqual(made.answered(), least)

    def test_idle(self) -> None:
        made = self.group(0.0, 0, 1.0)
        made.group.go_on(30)
        self.check(made, 0)

    def test_busy(self) -> None:
        made = self.group(0.0, 12, 0.05)
        made.group.go_on(12)
        self.check(made, 500)

    def test_slow(self) -> None:
        made = self.group(SLOW, 3, 0.1)
        made.group.go_on(60)
        self.check(made, 60)

    def test_slow_and_busy(self) -> None:
        made = self.group(SLOW, 12, 0.0)
        made.group.go_on(60)
        self.check(made, 60)

    def test_a_view_change_and_a_start(self) -> None:
        for sync in (0.0, SLOW):
            with self.subTest(sync):
                made = self.group(sync, 2, 0.5)
                made.group.go_on(10)
                before = made.answered()
                made.group.stop(0)
                made.group.go_on(20)
                self.assertGreater(made.answered(), before)
                made.group.start(0)
                made.group.go_on(20)
                self.check(made, before + 10)

    def test_one_that_was_away_for_long(self) -> None:
        """It fetches a checkpoint while the others go on."""
        made = self.group(0.0, 2, 0.1)
        made.group.go_on(2)
        made.group.stop(2)
        made.group.go_on(10)
        made.group.start(2)
        made.group.go_on(15)
        self.check(made, 200)
        self.assertGreater(made.keepers.policies[2].seen.caught_up_to(), 150)

    def test_a_block_that_went_bad(self) -> None:
        """A block of the checkpoint is damaged at all members: each asks for it until the next checkpoint, with its content in memory."""
        made = self.group(0.0, 1, 0.02)
        made.group.go_on(2)
        made.group.clients.clear()
        for member in range(3):
            for sector in range(400 + 8 * 1, 400 + 8 * 1 + 1):
                made.replay.play(f"damage {member} {sector}")
                made.replay.play(f"damage {member} {sector + 8 * 64}")
        made.group.go_on(30)
        self.assertTrue(any(policy.seen.last_asked.get("get_block") for policy in made.keepers.policies.values()))
        self.check(made, 0)
