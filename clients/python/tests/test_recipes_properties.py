"""Locks and counters of several clients over a store in memory, by steps that are drawn: what they say is what a model of one lock and one number says."""

import types
from unittest import mock

import pytest
from hypothesis import strategies as draw
from hypothesis.stateful import RuleBasedStateMachine, initialize, invariant, precondition, rule

from fakes import State
from nozhgiva import Delete, Full, Get, Outcome, OutcomeKind, Put, Unknown, recipes
from nozhgiva.recipes import Counter, Lock, NotHeld, Taken

CLIENTS = 3
OWNERS = draw.integers(0, CLIENTS - 1)
LOST = draw.integers(1, 9)
"""Which of the next requests has an answer that doesn't come; an addition asks nine, the last two of which put the value and give the lock back."""


class Clock:
    """A time that goes by only where somebody sleeps, so nobody waits."""

    def __init__(self):
        self.now = 0.0

    def monotonic(self):
        return self.now

    def sleep(self, seconds):
        self.now += max(seconds, 0.01)


class Session:
    """What the recipes need of a session. A request whose answer is lost was executed, or never is; `settle` then tells which, and asks it where it isn't."""

    def __init__(self, state):
        self.state = state
        self.lost, self.is_executed = 0, True
        self.open = None

    def lose(self, request, is_executed):
        self.lost, self.is_executed = request, is_executed

    def execute(self, operation):
        self.state.executed.append(operation)
        outcome = self.state.outcome(operation)
        return Outcome(outcome.kind, outcome.value, len(self.state.executed))

    def ask(self, operation, timeout=None):
        self.settle()
        self.lost -= 1
        if self.lost == 0:
            fate = types.SimpleNamespace(outcome=None)
            self.open = (operation, fate, self.execute(operation) if self.is_executed else None)
            raise Unknown(operation, fate=fate)
        return self.execute(operation)

    def settle(self, timeout=None):
        if self.open is None:
            return None
        operation, fate, outcome = self.open
        self.open = None
        fate.outcome = outcome or self.execute(operation)
        return fate.outcome

    def doubt(self, operation):
        return Unknown(operation, fate=self.open[1]) if self.open is not None and self.open[0] is operation else None

    def within(self, timeout):
        return 5.0 if timeout is None else timeout

    def put(self, key, value, timeout=None):
        if self.ask(Put(key, value)).kind == OutcomeKind.FULL:
            raise Full(Put(key, value))

    def get(self, key, timeout=None):
        outcome = self.ask(Get(key))
        return outcome.value if outcome.kind == OutcomeKind.VALUE else None


class Machine(RuleBasedStateMachine):
    """The clients' store is a state of which what the recipes do is real; what they should say is told by the few fields of the model."""

    def __init__(self):
        super().__init__()
        patched = mock.patch.object(recipes, "time", Clock())
        patched.start()
        self.stop = patched.stop
        self.state = State()
        self.sessions = [Session(self.state) for _ in range(CLIENTS)]
        self.watch = Session(self.state)

    def teardown(self):
        self.stop()


class Locks(Machine):
    """One lock: `holder` is who has it, `deposed` are those from whom it was taken and who don't know."""

    @initialize()
    def make(self):
        self.locks = [Lock(session, "printer") for session in self.sessions]
        self.holder, self.deposed, self.last = None, set(), 0
        Lock(self.watch, "printer").make_free()

    def called(self, owner, call):
        """Calls it again, on the same lock, until it knows."""
        for _ in range(10):
            try:
                return call()
            except Unknown:
                assert self.sessions[owner].lost <= 0
        raise AssertionError("it never knows")

    @rule(owner=OWNERS)
    def acquire(self, owner):
        lock = self.locks[owner]
        if lock.is_held:
            with pytest.raises(NotHeld):
                lock.acquire()
        elif self.holder is None:
            number = self.called(owner, lock.acquire)
            assert number == lock.number > self.last
            self.holder, self.last = owner, number
        else:
            with pytest.raises(Taken):
                self.called(owner, lambda: lock.acquire(timeout=1.0))

    @rule(owner=OWNERS)
    def release(self, owner):
        lock = self.locks[owner]
        if owner == self.holder:
            self.called(owner, lock.release)
            self.holder = None
        else:
            with pytest.raises(NotHeld):
                self.called(owner, lock.release)
            self.deposed.discard(owner)
        assert not lock.is_held

    @rule(number=draw.sampled_from((None, "last", "older")))
    def make_free(self, number):
        """By somebody who watches: whoever holds it, or only where the number is the holder's."""
        said = {None: None, "last": self.last, "older": self.last - 1}[number]
        Lock(self.watch, "printer").make_free(number=said)
        if self.holder is not None and number != "older":
            self.deposed.add(self.holder)
            self.holder = None

    @rule(owner=OWNERS, request=LOST, is_executed=draw.booleans())
    def lose(self, owner, request, is_executed):
        self.sessions[owner].lose(request, is_executed)

    @invariant()
    def the_holder_is_the_one_that_the_model_has(self):
        if hasattr(self, "locks"):
            assert Lock(self.watch, "printer").holder() == (None if self.holder is None else self.locks[self.holder].number)
            assert {owner for owner, lock in enumerate(self.locks) if lock.is_held} == self.deposed | ({self.holder} - {None})


class Counters(Machine):
    """One number."""

    @initialize(value=draw.integers(0, 5))
    def make(self, value):
        self.counters = [Counter(session, "visits") for session in self.sessions]
        self.value = value
        Counter(self.watch, "visits").make(value)

    @rule(owner=OWNERS, amount=draw.integers(1, 9))
    def add(self, owner, amount):
        self.value += amount
        assert self.counters[owner].add(amount) == self.value

    @precondition(lambda self: hasattr(self, "counters"))
    @rule(owner=OWNERS, amount=draw.integers(1, 9), request=LOST, is_executed=draw.booleans())
    def add_without_an_answer(self, owner, amount, request, is_executed):
        """One of its requests has no answer. What came of it is told by the error's operation and outcome, as the page of the client says."""
        session, counter = self.sessions[owner], self.counters[owner]
        session.lose(request, is_executed)
        with pytest.raises(Unknown) as raised:
            counter.add(amount)
        error = raised.value
        session.settle()
        assert error.outcome is not None
        has_put = isinstance(error.operation, Put) and error.operation.key == "visits"
        gives_back = isinstance(error.operation, Delete) and error.operation.key.startswith("visits.free.held.")
        assert (has_put, gives_back) == (request == 8, request == 9)
        if has_put or gives_back:
            self.value += amount
        if counter.cell.lock.is_held:
            counter.cell.finish()
        else:
            counter.cell.lock.acquire()
            counter.cell.finish()

    @invariant()
    def it_is_what_the_model_has(self):
        if hasattr(self, "counters"):
            assert Counter(self.watch, "visits").value() == self.value


TestLocks = Locks.TestCase
TestCounters = Counters.TestCase
