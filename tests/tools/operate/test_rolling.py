"""A rolling restart, by what its members tell: nothing real but the script itself."""

import os
import signal
import subprocess
import tempfile
import time
import unittest
from typing import Dict, List, Optional

from nozhgiva_tools.operate.rolling import Bounds, Hands, roll, Stopped
from nozhgiva_tools.places import OPERATE

HERE = str(OPERATE)


class Played:
    """Three members in counted time. `back` seconds after its restart a member applies what the others commit; a member in `never` only while the
    clients are held."""

    def __init__(self, leader: int = 0, back: float = 2.0, never: Optional[List[int]] = None, rate: float = 30.0) -> None:
        self.now, self.leader, self.back, self.never, self.rate = 0.0, leader, back, never or [], rate
        self.restarted: Dict[int, float] = {}
        self.order: List[int] = []
        self.held_at: Optional[float] = None
        self.told: List[str] = []
        self.over = 0.0  # seconds for which the clients were held
        self.unwell: Optional[int] = None
        self.mends: Optional[int] = None
        self.stale = False  # whether a restart does nothing
        self.late = 0.0  # seconds until a backup hears of a commit
        self.hangs: Optional[int] = None
        self.unsure: Optional[int] = None

    def committed(self) -> int:
        return int((self.now - self.over) * self.rate)

    def lags(self, member: int) -> bool:
        since = self.restarted.get(member)
        if since is None:
            return False
        if member in self.never:
            return self.held_at is None or self.now - self.held_at < self.back
        return self.now - since < self.back

    def health(self, member: int) -> Optional[Dict[str, str]]:
        since = self.restarted.get(member)
        if since is not None and self.now - since < 0.3:
            return None
        known = self.committed() if member == self.leader else int((self.now - self.late) * self.rate)
        applied = 7 if self.lags(member) else known
        well = "no" if member == self.unwell else "hangs" if member == self.hangs and member in self.restarted else "unsure" if member == self.unsure else "yes"
        return {"member": str(member), "well": well, "unsure": str(int(member == self.unsure)), "state": "leads" if member == self.leader else "follows", "applied": str(applied),
                "commit": str(known), "asks": "get_block_64" if self.lags(member) else "-", "mends": "get_block_7" if member == self.mends else "-",
                "up": f"{self.now - (-100.0 if since is None else since):.1f}"}

    def restart(self, member: int) -> None:
        self.order.append(member)
        if self.stale:
            return
        self.restarted[member] = self.now
        if member == self.leader:
            self.leader = (member + 1) % 3

    def hold(self) -> None:
        self.held_at = self.now

    def release(self) -> None:
        self.held_at = None

    def sleep(self, seconds: float) -> None:
        self.now += seconds
        if self.held_at is not None:
            self.over += seconds

    def hands(self, holds: bool) -> Hands:
        return Hands(self.health, self.restart, self.hold if holds else None, self.release if holds else None, self.sleep, lambda: self.now, self.told.append)


class Alone(Played):
    """Member 0 alone, which leads again after its restart."""

    def restart(self, member: int) -> None:
        self.order.append(member)
        self.restarted[member] = self.now


BOUNDS = Bounds(whole=60.0, hold=15.0)


class Rolling(unittest.TestCase):
    def test_the_one_that_leads_comes_last(self) -> None:
        for leader in (0, 1, 2):
            played = Played(leader)
            roll(played.hands(False), [0, 1, 2], BOUNDS)
            self.assertEqual(played.order, [member for member in (0, 1, 2) if member != leader] + [leader])

    def test_the_next_only_once_the_one_before_applies_what_the_others_commit(self) -> None:
        played = Played(back=9.0)
        roll(played.hands(False), [0, 1, 2], BOUNDS)
        times = [played.restarted[member] for member in played.order]
        self.assertTrue(all(after - before >= 9.0 for before, after in zip(times, times[1:])))

    def test_one_that_never_catches_up_ends_it_before_the_next(self) -> None:
        played = Played(never=[1])
        with self.assertRaisesRegex(Stopped, r"member 1 doesn't apply what the others commit after 60 s: it asks for get block 64 and has applied 7 of \d+.*hold the clients back"):
            roll(played.hands(False), [0, 1, 2], BOUNDS)
        self.assertEqual(played.order, [1])

    def test_the_clients_are_held_until_it_has_caught_up_and_no_longer(self) -> None:
        played = Played(never=[1, 2])
        roll(played.hands(True), [0, 1, 2], BOUNDS)
        self.assertEqual((played.order, played.held_at), ([1, 2, 0], None))
        self.assertLess(played.over, 2 * (played.back + 3))

    def test_the_clients_are_let_go_where_it_stops(self) -> None:
        played = Played(back=1000.0)
        self.assertRaises(Stopped, roll, played.hands(True), [0, 1, 2], BOUNDS)
        self.assertIsNone(played.held_at)

    def test_a_group_that_is_not_whole_is_not_touched(self) -> None:
        for unwell, what in ((1, "member 1 isn't well"), (None, "no member leads")):
            played = Played(leader=0 if unwell is not None else 7)
            played.unwell = unwell
            self.assertRaisesRegex(Stopped, what, roll, played.hands(True), [0, 1, 2], BOUNDS)
            self.assertEqual(played.order, [])

    def test_one_that_has_what_its_disk_lost_is_not_restarted(self) -> None:
        played = Played()
        played.mends = 2
        self.assertRaisesRegex(Stopped, "member 2 asks for get block 7, which its disk lost", roll, played.hands(True), [0, 1, 2], BOUNDS)
        self.assertEqual(played.order, [])

    def test_a_restart_that_did_nothing_is_seen(self) -> None:
        played = Played()
        played.stale = True
        self.assertRaisesRegex(Stopped, "still is the process from before", roll, played.hands(False), [0, 1, 2], BOUNDS)
        self.assertEqual(played.order, [1])

    def test_a_backup_hears_of_a_commit_a_moment_later_under_load(self) -> None:
        played = Played(rate=50.0)
        played.late = 0.1
        roll(played.hands(False), [0, 1, 2], BOUNDS)
        self.assertEqual(played.order, [1, 2, 0])

    def test_one_that_hangs_after_its_restart_ends_it_before_the_next(self) -> None:
        played = Played(rate=0.0)
        played.hangs = 1
        self.assertRaisesRegex(Stopped, "member 1 doesn't apply .* takes no turn", roll, played.hands(False), [0, 1, 2], BOUNDS)
        self.assertEqual(played.order, [1])

    def test_one_that_is_unsure_isnt_left_alone_and_may_be_restarted_itself(self) -> None:
        for chosen, order in ((None, []), ([0], []), ([1], [1])):
            played = Played()
            played.unsure = 1
            try:
                roll(played.hands(False), [0, 1, 2], BOUNDS, chosen)
            except Stopped as why:
                self.assertRegex(str(why), "member 1 has a file that can't tell of 1 of its slots")
            self.assertEqual(played.order, order)

    def test_one_that_is_alone(self) -> None:
        played = Alone()
        roll(played.hands(False), [0], BOUNDS)
        self.assertEqual((played.order, played.told[-1][:22]), ([0], "member 0 leads again, "))

    def test_chosen_ones(self) -> None:
        played = Played()
        roll(played.hands(False), [0, 1, 2], BOUNDS, [2, 0])
        self.assertEqual(played.order, [2, 0])


class Script(unittest.TestCase):
    LINE = "member={} well=yes state={} applied={} commit={} asks=- mends=- up=0.1\n"

    def test_held_clients_are_let_go_whatever_signal_ends_it(self) -> None:
        for number, code in ((signal.SIGHUP, 1), (signal.SIGTERM, 1), (signal.SIGINT, 1), (signal.SIGKILL, -signal.SIGKILL)):
            with self.subTest(number), tempfile.TemporaryDirectory(prefix="vr-roll-") as folder:
                for member, (state, applied) in enumerate([("leads", 9), ("follows", 5), ("follows", 9)]):
                    with open(f"{folder}/{member}", "w") as file:
                        file.write(self.LINE.format(member, state, applied, applied))
                words = [os.path.join(HERE, "roll"), "3", "--health", f"cat {folder}/{{}}", "--restart", "true", "--hold-after", "0.1", "--bound", "60",
                         "--hold", f"touch {folder}/held", "--release", f"echo once >> {folder}/released"]
                child = subprocess.Popen(words, stdout=subprocess.DEVNULL, stderr=subprocess.DEVNULL)
                self.addCleanup(child.kill)
                end = time.monotonic() + 60
                while not os.path.exists(f"{folder}/held") and time.monotonic() < end:
                    time.sleep(0.02)
                child.send_signal(number)
                self.assertEqual(child.wait(60), code)
                while not (os.path.exists(f"{folder}/released") and os.path.getsize(f"{folder}/released")) and time.monotonic() < end:
                    time.sleep(0.02)
                with open(f"{folder}/released") as file:
                    self.assertEqual(file.read(), "once\n")
