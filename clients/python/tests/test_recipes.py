"""The recipes, each by four processes of its example, while members are killed and paused; and what they say where they are used wrong."""

import os
import random
import subprocess
import sys
import threading
import unittest
from pathlib import Path
from unittest import mock

from fakes import Members, State
from nozhgiva import Full, Get, Group, Outcome, OutcomeKind, Put, SessionLost, Unknown, recipes
from nozhgiva.recipes import Cell, Configuration, Counter, Election, Lock, NotHeld, Taken
from running import CLUSTER, Disturbing, Running, needs_program
from test_session import FAST

ROOT = Path(__file__).resolve().parent.parent
PROCESSES = 4
SECONDS = "3"
STEPS = 6
"""How many requests take a lock that is free."""


def start(example, addresses, *words):
    """A process of an example."""
    env = {**os.environ, "PYTHONPATH": str(ROOT / "src"), "PYTHONDONTWRITEBYTECODE": "1"}
    return subprocess.Popen(
        [sys.executable, ROOT / "examples" / f"{example}.py", *words, *addresses], env=env, stdout=subprocess.PIPE, stderr=subprocess.PIPE, text=True)


@needs_program
class Together(unittest.TestCase):
    """Four processes, and members that go and come. Each of them tells in lines what it saw."""

    @classmethod
    def setUpClass(cls):
        cls.running = Running()

    @classmethod
    def tearDownClass(cls):
        cls.running.__exit__()

    def lines_of(self, example):
        addresses = self.running.addresses
        self.assertEqual(start(example, addresses, "--make").communicate(timeout=120), ("", ""))
        with Disturbing(self.running, example) as disturbing:
            processes = [start(example, addresses, "--seconds", SECONDS) for _ in range(PROCESSES)]
            told = [process.communicate(timeout=300) for process in processes]
        self.assertEqual([(process.returncode, err) for process, (_, err) in zip(processes, told)], [(0, "")] * PROCESSES)
        self.assertEqual({"killed", "paused"}, set(disturbing.done))
        return [[line.split() for line in out.splitlines()] for out, _ in told]

    def assert_one_at_a_time(self, told):
        """Spans with the number of who held it: they don't overlap, and begin in the order of their numbers."""
        self.assertTrue(all(told))
        spans = sorted((int(words[0]), float(words[-2]), float(words[-1])) for lines in told for words in lines)
        for (_, _, end), (_, begun, _) in zip(spans, spans[1:]):
            self.assertLess(end, begun)

    def test_a_lock_is_held_by_one_at_a_time(self):
        self.assert_one_at_a_time(self.lines_of("lock"))

    def test_a_counter_counts_each_addition_once(self):
        counted = sorted(int(words[0]) for lines in self.lines_of("counter") for words in lines)
        self.assertEqual(counted, list(range(1, len(counted) + 1)))
        self.assertGreater(len(counted), 2 * PROCESSES)

    def test_an_election_has_one_leader_at_a_time(self):
        told = self.lines_of("election")
        self.assert_one_at_a_time(told)
        for lines in told:
            self.assertEqual(len({words[1] for words in lines}), 1)
        self.assertEqual(len({lines[0][1] for lines in told}), PROCESSES)

    def test_a_configuration_is_changed_as_a_whole(self):
        told = self.lines_of("configuration")
        for lines in told:
            numbers = [int(number) for _, number, _, _ in lines]
            self.assertEqual(numbers, sorted(numbers))
        self.assertEqual({int(number) - 1 - int(word) for lines in told for _, number, *both in lines for word in both}, {0})
        changed = sorted(int(number) for lines in told for what, number, _, _ in lines if what == "changed")
        self.assertEqual(changed, list(range(2, len(changed) + 2)))
        self.assertGreater(len(changed), 2 * PROCESSES)


class Wrong(unittest.TestCase):
    """What a recipe says where it is used wrong, or where it isn't known what came of a request; with members that answer by a script."""

    def session(self, state, timeout=20.0):
        members = self.enterContext(Members(2, state)) if hasattr(self, "enterContext") else self.entered(Members(2, state))
        session = Group(CLUSTER, members.addresses, timeout=timeout, retry=FAST).register(timeout=10.0)
        self.addCleanup(session.close)
        return session

    def entered(self, context):
        self.addCleanup(context.__exit__, None, None, None)
        return context.__enter__()

    def test_a_lock_is_neither_taken_twice_nor_given_back_unheld(self):
        lock = Lock(self.session(State()), "printer")
        with self.assertRaises(NotHeld):
            lock.release()
        with self.assertRaises(Taken):
            lock.acquire(timeout=0.3)
        lock.make_free()
        self.assertIsNone(lock.holder())
        with lock.held() as number:
            self.assertEqual((lock.is_held, lock.number, lock.holder()), (True, number, number))
            with self.assertRaises(NotHeld):
                lock.acquire()
        self.assertFalse(lock.is_held)

    def test_a_lock_finds_out_whether_it_was_taken_and_given_back(self):
        quiet = set()
        state = State(quiet=lambda number: number in quiet)
        session = self.session(state, timeout=0.8)
        lock = Lock(session, "printer")
        lock.make_free(timeout=20.0)
        made = len(state.executed)
        for number in range(made, made + STEPS):
            quiet.clear()
            quiet.add(number)
            with self.assertRaises(Unknown):
                lock.acquire()
            self.assertFalse(lock.is_held)
        quiet.clear()
        number = lock.acquire(timeout=20.0)
        self.assertEqual((lock.number, len(state.executed)), (number, made + STEPS))
        quiet.add(made + STEPS)
        with self.assertRaises(Unknown):
            lock.release()
        quiet.clear()
        self.assertEqual(session.get("other", timeout=20.0), None)
        lock.release(timeout=20.0)
        self.assertEqual((lock.is_held, len(state.executed)), (False, made + STEPS + 2))

    def test_a_lock_whose_taking_was_interrupted_finds_out_too(self):
        state = State()
        session = self.session(state)
        lock = Lock(session, "printer")
        lock.make_free(timeout=20.0)
        made = len(state.executed)
        send, session._link.send = session._link.send, self.interrupted
        with self.assertRaises(KeyboardInterrupt):
            lock.acquire()
        session._link.send = send
        self.assertIsNone(session.get("other", timeout=20.0))
        number = lock.acquire(timeout=20.0)
        self.assertEqual((lock.number, len(state.executed)), (number, made + STEPS + 1))

    def interrupted(self, place, data):
        raise KeyboardInterrupt

    def test_a_counter_whose_put_isnt_known_goes_on_with_its_lock(self):
        quiet = set()
        state = State(quiet=lambda number: number in quiet)
        session = self.session(state)
        counter = Counter(session, "visits")
        counter.make(timeout=20.0)
        quiet.add(len(state.executed) + STEPS + 1)
        with self.assertRaises(Unknown) as raised:
            counter.add(timeout=2.0)
        self.assertEqual((str(raised.exception.operation), raised.exception.outcome), ("put visits (1 bytes)", None))
        quiet.clear()
        self.assertEqual(counter.add(timeout=20.0), 2)
        self.assertEqual((raised.exception.outcome.kind.name, counter.value(), counter.cell.lock.is_held), ("OK", 2, False))

    def test_a_change_that_raises_gives_the_lock_back(self):
        session = self.session(State())
        cell = Cell(session, "cell")
        cell.make("a")
        with self.assertRaises(ZeroDivisionError):
            cell.update(lambda value: str(1 // 0))
        self.assertEqual((cell.update(lambda value: f"{value}b"), cell.read()), ("ab", "ab"))

    def test_a_leader_that_was_deposed_is_told(self):
        session = self.session(State())
        first, second = (Election(session, "leader", name) for name in ("first", "second"))
        self.assertEqual((first.make(), first.leader(), first.leads()), (None, None, False))
        first.campaign()
        self.assertEqual((first.leads(), first.leader()), (True, ("first", first.lock.number)))
        with self.assertRaises(Taken):
            second.campaign(timeout=0.3)
        first.depose()
        self.assertGreater(second.campaign(), first.lock.number)
        self.assertEqual((first.leads(), second.leads(), second.leader().candidate), (False, True, "second"))
        with self.assertRaises(NotHeld):
            first.resign()
        self.assertTrue(second.leads())
        second.resign()
        self.assertEqual((second.leads(), second.leader()), (False, None))

    def test_names_that_leave_no_room_for_a_number(self):
        session = self.session(State())
        Lock(session, "l" * 39)
        for make in (lambda: Lock(session, "l" * 40), lambda: Cell(session, "c" * 35), lambda: Election(session, "e" * 40, "me")):
            with self.assertRaises(ValueError):
                make()

    def test_a_configuration_may_be_read_late(self):
        state = State()
        configuration = Configuration(self.session(state), "limits")
        self.assertIsNone(configuration.read())
        configuration.make({"größe": "ein Meter"})
        self.assertEqual(configuration.read(), (1, {"größe": "ein Meter"}))
        asked = len(state.executed)
        self.assertEqual(configuration.read(most_age=60.0), (1, {"größe": "ein Meter"}))
        self.assertEqual(len(state.executed), asked)
        self.assertEqual(next(configuration.changes()), (1, {"größe": "ein Meter"}))

    def test_a_lost_session_says_so(self):
        state = State()
        session = self.session(state)
        lock = Lock(session, "printer")
        lock.make_free()
        lock.acquire()
        session._ledger.lost = "evicted"
        with self.assertRaises(SessionLost):
            lock.release()
        self.assertTrue(lock.is_held)


class Told(Exception):
    """The turn that a client was given is over: it is never asked again."""


class Turns:
    """Clients of one state, in memory, each in a thread of its own; a request is executed when its client is given a turn, so a test says in
    which order all requests of all clients stand."""

    def __init__(self):
        self.state = State()
        self.clients = []

    def client(self, run):
        """A client that does `run(session)`, and hasn't begun."""
        one = Client(self.state, run)
        self.clients.append(one)
        return one

    def end(self):
        for one in self.clients:
            one.end()


class Client:
    """One of `Turns`, and what the recipes need of a session."""

    def __init__(self, state, run):
        self.state, self.result, self.is_done, self.is_over = state, None, False, False
        self.begun, self.asked, self.turn = False, threading.Semaphore(0), threading.Semaphore(0)
        self.thread = threading.Thread(target=self._run, args=(run,), daemon=True)

    def _run(self, run):
        try:
            self.result = run(self)
        except Told:
            pass
        except Exception as error:
            self.result = error
        self.is_done = True
        self.asked.release()

    def go(self, turns=1):
        """Has it do so many requests, and what comes after them up to its next one; all of them where `turns` is None. What it gave then."""
        if not self.begun:
            self.begun = True
            self.thread.start()
            self.asked.acquire()
        while not self.is_done and turns != 0:
            turns = turns and turns - 1
            self.turn.release()
            self.asked.acquire()
        return self.result

    def end(self):
        self.is_over = True
        if self.begun:
            self.turn.release()
            self.thread.join()

    def ask(self, operation, timeout=None):
        self.asked.release()
        self.turn.acquire()
        if self.is_over:
            raise Told
        self.state.executed.append(operation)
        outcome = self.state.outcome(operation)
        return Outcome(outcome.kind, outcome.value, len(self.state.executed))

    def within(self, timeout):
        return 60.0 if timeout is None else timeout

    def put(self, key, value, timeout=None):
        if self.ask(Put(key, value)).kind == OutcomeKind.FULL:
            raise Full(Put(key, value))

    def get(self, key, timeout=None):
        outcome = self.ask(Get(key))
        return outcome.value if outcome.kind == OutcomeKind.VALUE else None

    def doubt(self, operation):
        return None


def lock_of(session):
    """The lock of the election for which all stand."""
    return Election(session, "leader", "anyone").lock


def taken_over(election, session):
    """A candidate that goes on by another client."""
    election.session = election.lock.session = session
    return election


class Schedules(unittest.TestCase):
    """Requests of several clients in orders that are told by hand, and in each order that chance gives."""

    def setUp(self):
        patched = mock.patch.object(recipes.time, "sleep")
        patched.start()
        self.addCleanup(patched.stop)
        self.begin()

    def begin(self):
        """Clients of a state that has a free lock, and nothing else."""
        self.turns = Turns()
        self.addCleanup(self.turns.end)
        self.run_alone(lambda session: lock_of(session).make_free())

    def run_alone(self, run):
        client = self.turns.client(run)
        result = client.go(None)
        if isinstance(result, Exception):
            raise result
        return result

    def leader(self, name):
        """A candidate that leads."""
        made = []
        self.run_alone(lambda session: made.append(Election(session, "leader", name)) or made[0].campaign())
        return made[0]

    def test_who_was_deposed_resigns_while_the_next_one_is_about_to_lead(self):
        """A leads and is deposed, B is within `campaign`, A resigns, and C stands for it: after each request of B."""
        for done in range(STEPS + 1):
            with self.subTest(done=done):
                self.begin()
                first = self.leader("A")
                self.run_alone(lambda session: Election(session, "leader", "watchdog").depose())
                second = self.turns.client(lambda session: Election(session, "leader", "B").campaign())
                second.go(done)
                late = self.turns.client(lambda session: taken_over(first, session).resign())
                self.assertIsInstance(late.go(None), NotHeld)
                third = self.turns.client(lambda session: Election(session, "leader", "C").campaign())
                third.go(STEPS + 2)
                second.go(STEPS + 4)
                leaders = [client.result for client in (second, third) if isinstance(client.result, int)]
                self.assertLessEqual(len(leaders), 1)
                self.assertTrue(leaders or done < STEPS)

    def test_two_that_watch_make_a_lock_free_once(self):
        """Both have seen that A holds it. One makes it free, B takes it, and then the other one goes on."""
        for is_told in (False, True):
            for done in (1, 0) if is_told else (1,):
                with self.subTest(is_told=is_told, done=done):
                    self.begin()
                    words = {"number": self.leader("A").lock.number} if is_told else {}
                    one, other = (self.turns.client(lambda session: lock_of(session).make_free(**words)) for _ in range(2))
                    other.go(done)
                    self.assertIsNone(one.go(None))
                    self.assertGreater(self.run_alone(lambda session: lock_of(session).acquire()), 0)
                    self.assertIsNone(other.go(None))
                    third = self.turns.client(lambda session: lock_of(session).acquire())
                    third.go(STEPS + 2)
                    self.assertIsNone(third.result)

    def test_a_lock_is_given_back_though_the_table_is_full(self):
        locks = []
        self.run_alone(lambda session: locks.append(lock_of(session)) or locks[0].acquire())
        self.turns.state.room = len(self.turns.state.keys)
        self.run_alone(lambda session: setattr(locks[0], "session", session) or locks[0].release())
        with self.assertRaises(Full):
            self.run_alone(lambda session: lock_of(session).acquire())
        self.turns.state.room += 1
        self.assertGreater(self.run_alone(lambda session: lock_of(session).acquire()), 0)

    def test_one_that_took_it_and_is_gone(self):
        """It ended before it said its number: nobody holds the lock, and only `anew` makes it free."""
        gone = self.turns.client(lambda session: lock_of(session).acquire())
        gone.go(STEPS - 1)
        with self.assertRaisesRegex(Taken, "anew"):
            self.run_alone(lambda session: lock_of(session).make_free(timeout=0.1))
        self.run_alone(lambda session: lock_of(session).make_free(anew=True))
        self.assertGreater(self.run_alone(lambda session: lock_of(session).acquire()), 0)

    def test_no_two_hold_it_in_any_order(self):
        """Three that take and release it, one of which is deposed by two that watch: each order of their requests is drawn."""
        for seed in range(50):
            with self.subTest(seed=seed):
                self.play(random.Random(seed))

    def play(self, draw):
        self.begin()
        turns, holders, deposed = self.turns, [], set()

        def hold(session):
            lock = lock_of(session)
            for _ in range(2):
                number = lock.acquire()
                holders.append(number)
                self.assertLessEqual(len([one for one in holders if one not in deposed]), 1)
                session.get("work")
                holders.remove(number)
                try:
                    lock.release()
                except NotHeld:
                    self.assertIn(number, deposed)
            return "done"

        def depose(session):
            if holders:
                number = holders[0]
                deposed.add(number)
                lock_of(session).make_free(number=number)
            return "done"
        clients = [turns.client(hold) for _ in range(3)] + [turns.client(depose) for _ in range(2)]
        for _ in range(2_000):
            waiting = [client for client in clients if not client.is_done]
            if not waiting:
                break
            draw.choice(waiting).go(1)
        self.assertEqual([client.result for client in clients], ["done"] * len(clients))
        turns.end()


if __name__ == "__main__":
    unittest.main()
