"""The library against a group of the built program: NOZHGIVA_PROGRAM, or crates/vr_app/out/vr_app. Without one these tests are skipped."""

import signal
import threading
import time
import unittest

from failover import measure
from nozhgiva import Full, Group, OutcomeKind, Pool, Retry, SessionLost, Unknown
from nozhgiva.recipes import Counter
from running import CLUSTER, PATIENCE, Running, needs_program

FAST = Retry(first=0.05, factor=1.5, most=0.2, jitter=0.5)


@needs_program
class Program(unittest.TestCase):
    def paths(self, scheme, version, longest):
        with Running(scheme, version=version) as running, running.group.register() as session:
            session.put("color", "green")
            self.assertEqual(session.get("color"), "green")
            session.put("k" * 64, "v" * longest)
            self.assertEqual(session.get("k" * 64), "v" * longest)
            running.kill(0)
            begun = time.monotonic()
            self.assertIs(session.delete("color"), True)
            self.assertLess(time.monotonic() - begun, PATIENCE)
            running.start(0)
            with running.group.register() as other:
                self.assertIsNone(other.get("color"))
                self.assertIs(other.delete("color"), False)

    def test_over_datagrams(self):
        self.paths("", 1, 1024)

    def test_over_streams_in_version_2(self):
        self.paths("tcp:", 2, 3000)

    def test_a_group_of_one(self):
        with Running(size=1, version=2) as running, running.group.register() as session:
            session.put("color", "v" * 3000)
            self.assertEqual(session.get("color"), "v" * 3000)

    def test_a_group_of_another_version_is_found_and_another_group_said(self):
        for scheme, version in (("", 2), ("tcp:", 1)):
            with self.subTest(scheme=scheme, version=version), Running(scheme, version=version) as running:
                with Group(CLUSTER, running.addresses, version=3 - version, timeout=PATIENCE, retry=FAST).register() as session:
                    session.put("color", "v" * {1: 1024, 2: 3000}[version])
                notices = []
                with self.assertRaises(Unknown) as raised:
                    Group(CLUSTER + 1, running.addresses, version=version, timeout=1.5, notice=notices.append).register()
                self.assertTrue(all(sight.is_silent or not sight.asked for sight in raised.exception.seen), raised.exception)
                self.assertIn("another group", notices[0])

    def test_sessions_go_over_with_a_group_that_is_moved_to_version_2(self):
        """Two add to a counter all the time, and one put is open while the group goes over: each is executed once."""
        for scheme in ("", "tcp:"):
            with self.subTest(scheme), Running(scheme) as running, running.group.register() as session:
                Counter(session, "visits").make()
                over, added = threading.Event(), []
                threads = [threading.Thread(target=self.add, args=(running, over, added)) for _ in range(2)]
                for thread in threads:
                    thread.start()
                self.move(running, 2)
                running.kill(1)
                running.migrate(1)
                with self.assertRaises(Unknown):
                    session.put("color", "green", timeout=1.0)
                running.start(1)
                self.assertEqual(session.settle().kind, OutcomeKind.OK)
                session.put("long", "v" * 3000)
                self.move(running, 0)
                over.set()
                for thread in threads:
                    thread.join()
                self.assertEqual(sorted(added), list(range(1, len(added) + 1)))
                self.assertGreater(len(added), 4)
                self.assertEqual((session.get("color"), session.get("visits")), ("green", str(len(added))))

    def move(self, running, number):
        running.kill(number)
        running.migrate(number)
        running.start(number)
        time.sleep(0.5)

    def add(self, running, over, added):
        with running.group.register() as session:
            counter = Counter(session, "visits")
            while not over.is_set():
                added.append(counter.add())

    def test_addresses_in_another_order_are_told(self):
        with Running() as running:
            running.kill(0)
            first, second, third = running.addresses
            with self.assertLogs("nozhgiva", "WARNING") as logs:
                Group(CLUSTER, [first, third, second], timeout=PATIENCE).register().close()
            self.assertIn("answers at place", logs.output[0])

    def test_a_restart_of_all_members_is_waited_out(self):
        with Running() as running, running.group.register() as session:
            session.put("color", "green")
            running.kill(0, 1, 2)
            timer = threading.Timer(1.0, running.start, args=(0, 1, 2))
            timer.start()
            self.assertEqual(session.get("color"), "green")
            timer.join()

    def test_forty_threads_lose_no_session(self):
        with Running() as running, Pool(running.group, 4) as pool:
            threads = [threading.Thread(target=pool.put, args=(f"key{number}", str(number))) for number in range(40)]
            for thread in threads:
                thread.start()
            for thread in threads:
                thread.join()
            self.assertEqual([pool.get(f"key{number}") for number in range(40)], [str(number) for number in range(40)])

    def test_no_put_fails_while_primaries_are_killed(self):
        with Running() as running:
            answers, kills, longest = measure(running, seconds=7.0, every=3.0)
        self.assertGreater(answers, 0)
        self.assertGreaterEqual(kills, 2)
        self.assertLess(longest, PATIENCE)

    def test_full_and_lost(self):
        with Running("") as running, running.group.register(client=7) as session:
            for number in range(128):
                session.put(f"key{number}", str(number))
            with self.assertRaises(Full):
                session.put("one-too-many", "x")
            session.put("key0", "again")
            with self.assertRaises(SessionLost) as raised:
                running.group.register(client=7)
            self.assertEqual(raised.exception.reason, "old")
            for _ in range(32):
                running.group.register().close()
            with self.assertRaises(SessionLost) as raised:
                session.get("key0")
            self.assertEqual(raised.exception.reason, "evicted")

    def test_what_isnt_known_is_settled_once_enough_members_run(self):
        with Running("") as running, running.group.register() as session:
            session.put("color", "green")
            running.kill(1, 2)
            with self.assertRaises(Unknown):
                session.put("color", "blue", timeout=1.5)
            running.start(1, 2)
            self.assertEqual(session.settle().kind, OutcomeKind.OK)
            self.assertEqual(session.get("color"), "blue")

    def test_a_primary_that_stands_still(self):
        with Running("") as running, running.group.register() as session:
            session.put("color", "green")
            running.members[0].send_signal(signal.SIGSTOP)
            session.put("color", "blue")
            running.members[0].send_signal(signal.SIGCONT)
            self.assertEqual(session.get("color"), "blue")


if __name__ == "__main__":
    unittest.main()
