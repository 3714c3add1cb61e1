"""What goes wrong at first, and what the library says then: wrong words for a group, wrong values, a session that is closed or forked."""

import importlib
import logging
import math
import os
import pickle
import re
import threading
import time
import unittest
from pathlib import Path

import nozhgiva
from fakes import Members, State, Streams, reply_to
from nozhgiva.messages import ReplyKind, Request, decode
from running import free_addresses

FAST = nozhgiva.Retry(first=0.05, factor=1.5, most=0.2, jitter=0.5)
SECRET = "very-secret-value"
SHORT = 0.6
"""Seconds after which a request that nobody answers ends."""
SOON = 5.0
"""Seconds in which what waits for nobody has to be done, on a busy machine too."""


class Seen(unittest.TestCase):
    """A group that doesn't answer: what the error says of each address."""

    def unknown(self, addresses, cluster=5, **words):
        group = nozhgiva.Group(cluster, addresses, timeout=SHORT, retry=FAST, **words)
        begun = time.monotonic()
        with self.assertRaises(nozhgiva.Unknown) as raised:
            group.register()
        self.assertGreaterEqual(time.monotonic() - begun, SHORT)
        return raised.exception

    def noticed(self, addresses, cluster=5, **words):
        """What a group is told while a register waits, and after how many seconds; and what the register raises, or None."""
        notices, error = [], None
        begun = time.monotonic()
        group = nozhgiva.Group(cluster, addresses, timeout=2.0, notice=lambda text: notices.append((time.monotonic() - begun, text)), **words)
        try:
            group.register().close()
        except nozhgiva.Unknown as raised:
            error = raised
        return notices, error, time.monotonic() - begun

    def test_another_version_is_found_within_a_second(self):
        for kind in (Members, Streams):
            for version, other in ((1, 2), (2, 1)):
                with self.subTest(kind, version=version), kind(3, State(version=other)) as members:
                    notices, error, took = self.noticed(members.addresses, version=version)
                    self.assertEqual((notices, error), ([], None))
                    self.assertLess(took, 1.0)

    def test_a_session_goes_over_with_its_group_and_asks_once(self):
        lost = [True]
        state = State(quiet=lambda number: number == 1 and lost[0])
        with Members(3, state) as members:
            group = nozhgiva.Group(5, members.addresses, timeout=SHORT, retry=FAST)
            with group.register(timeout=SOON) as session:
                with self.assertRaises(nozhgiva.Unknown):
                    session.put("color", "green")
                with self.assertRaises(ValueError):
                    session.put("long", "v" * 3000)
                state.version, lost[0] = 2, False
                self.assertEqual(session.settle(SOON).kind.name, "OK")
                session.put("long", "v" * 3000, timeout=SOON)
                self.assertEqual(session.get("color", timeout=SOON), "green")
            begun = time.monotonic()
            group.register(timeout=SOON).close()
            self.assertLess(time.monotonic() - begun, 0.2)  # the group's sessions know by now
        self.assertEqual([str(operation) for operation in state.executed], ["register", "put color (5 bytes)", "put long (3,000 bytes)", "get color", "register"])

    def test_what_is_wrong_is_said_within_a_second(self):
        with Members(3, State(cluster=6)) as members, Streams(3, State(cluster=6)) as streams:
            for addresses, said in ((members.addresses, "another group"), (streams.addresses, "another group"), (free_addresses(3), "no member runs"),
                                    (free_addresses(3, "tcp:"), "no member runs")):
                with self.subTest(addresses=addresses):
                    notices, error, _ = self.noticed(addresses)
                    self.assertEqual(len(notices), 1)
                    self.assertLess(notices[0][0], 1.0)
                    self.assertIn(said, notices[0][1])
                    self.assertNotIsInstance(error, nozhgiva.Misconfigured)

    def test_another_order_is_said_though_the_group_answers(self):
        state = State()

        def answer(place, data):
            member, request = (place + 1) % 3, decode(data)
            if member == 0:
                return state(0, data)
            return [reply_to(request, member, ReplyKind.REDIRECT, view=0).encode()] if request.version == 1 else []
        with Members(3, answer) as members:
            notices, error, _ = self.noticed(members.addresses)
            self.assertIsNone(error)
            self.assertGreaterEqual(len(notices), 1)
            self.assertLess(notices[0][0], 1.0)
            self.assertIn("another order", notices[0][1])

    def test_it_fails_at_once_where_each_address_says_that_it_is_misconfigured(self):
        def answer(place, data):
            request = decode(data)
            return [reply_to(request, (place + 1) % 3, ReplyKind.BUSY).encode()] if request.version == 1 else []
        with Members(3, answer) as members:
            _, error, took = self.noticed(members.addresses)
            self.assertIsInstance(error, nozhgiva.Misconfigured)
            self.assertLess(took, 1.0)
            self.assertIn("another order", str(error))

    def test_another_group(self):
        with Members(2, State(cluster=6)) as members:
            error = self.unknown(members.addresses)
            self.assertEqual(str(error).count("silent;") + str(error).count("silent ("), 2)
            self.assertIn("another group", str(error))
            self.assertEqual([sight.address for sight in error.seen], members.addresses)

    def test_streams_to_a_group_of_datagrams_and_the_other_way_round(self):
        with Members(2, State()) as members:
            error = self.unknown([f"tcp:{address}" for address in members.addresses])
            self.assertEqual([sight.trouble for sight in error.seen], ["refused", "refused"])
            self.assertIn("TCP", str(error))
        with Streams(2, State()) as members:
            error = self.unknown([address[len("tcp:"):] for address in members.addresses])
            self.assertEqual([sight.trouble for sight in error.seen], ["refused", "refused"])

    def test_addresses_in_another_order(self):
        def answer(place, data):
            request = decode(data)
            return [reply_to(request, 1 - place, ReplyKind.REDIRECT, view=0).encode()] if request.version == 1 else []
        with Members(2, answer) as members:
            error = self.unknown(members.addresses)
            self.assertIn(f"{members.addresses[0]}: member 1 answers at place 0", str(error))
            self.assertIn("another order", str(error))

    def test_nobody_there(self):
        for scheme in ("", "tcp:"):
            error = self.unknown(free_addresses(2, scheme))
            self.assertEqual(str(error).count(": refused"), 2)
            self.assertIn("no member runs", str(error))

    def test_an_address_that_cant_be_resolved(self):
        with Members(2, State()) as members:
            for addresses in ([members.addresses[0], "nowhere.invalid:4000"], ["nowhere.invalid:4000", members.addresses[0]]):
                with nozhgiva.Group(5, addresses, timeout=SOON, retry=FAST).register() as session:
                    session.put("color", "green")
        for scheme in ("", "tcp:"):
            error = self.unknown([*free_addresses(1, scheme), f"{scheme}nowhere.invalid:4000"])
            self.assertEqual([sight.trouble for sight in error.seen], ["refused", "can't be resolved"])
            with self.assertRaises(nozhgiva.Unresolved) as raised:
                nozhgiva.Group(5, [f"{scheme}nowhere.invalid:4000", f"{scheme}no-where.invalid:4000"]).register()
            self.assertIn("nowhere.invalid", str(raised.exception))
            self.assertIsInstance(raised.exception, OSError)

    def test_unknown_is_a_timeout(self):
        self.assertTrue(issubclass(nozhgiva.Unknown, TimeoutError))
        error = self.unknown(free_addresses(2))
        self.assertEqual(str(pickle.loads(pickle.dumps(error))), str(error))


class Words(unittest.TestCase):
    def test_one_address_and_values_of_version_2(self):
        with Members(1, State(version=2)) as members:
            with nozhgiva.Group(5, members.addresses, version=2, timeout=SOON).register() as session:
                session.put("long", "v" * 3000)
                self.assertEqual(session.get("long"), "v" * 3000)
                with self.assertRaises(ValueError):
                    session.put("long", "v" * 3001)
        with self.assertRaisesRegex(ValueError, "version=2"):
            nozhgiva.Group(5, ["127.0.0.1:4000"])
        for version, size in ((1, 7), (2, 7), (2, 0), (3, 2), (0, 2)):
            with self.subTest(version=version, size=size), self.assertRaises(ValueError):
                nozhgiva.Group(5, ["127.0.0.1:4000"] * size, version=version)

    def test_clients_ask_at_their_own_address(self):
        with Members(2, State()) as members:
            addresses = [f"127.0.0.1:1/{address}" for address in members.addresses]
            with nozhgiva.Group(5, addresses, timeout=SOON).register() as session:
                session.put("k", "v")
                self.assertEqual(session.get("k"), "v")
        for address in ("127.0.0.1:4000/", "/127.0.0.1:4000", "127.0.0.1:4000/x", "x/127.0.0.1:4000"):
            with self.subTest(address), self.assertRaises(ValueError):
                nozhgiva.Group(5, [address, "127.0.0.1:4001"])

    def test_words_of_other_types(self):
        for cluster, addresses in (("5", ["a:1", "b:1"]), (5, "a:1"), (5, b"a:1"), (5, [("a", 1), ("b", 1)])):
            with self.subTest(cluster=cluster, addresses=addresses), self.assertRaises(TypeError):
                nozhgiva.Group(cluster, addresses)

    def test_keys_and_values_of_other_types(self):
        with Members(2, State()) as members, nozhgiva.Group(5, members.addresses, timeout=SOON).register() as session:
            for value in (b"bytes", 3, None, ["a"]):
                with self.subTest(value=value), self.assertRaisesRegex(TypeError, f"a value is a str, not {type(value).__name__}"):
                    session.put("key", value)
                with self.subTest(key=value), self.assertRaisesRegex(TypeError, "a key is a str"):
                    session.get(value)

    def test_timeouts_in_which_nothing_can_be_asked(self):
        state = State()
        with Members(2, state) as members, nozhgiva.Group(5, members.addresses, timeout=SOON).register() as session:
            for timeout in (0, -1, math.nan):
                with self.subTest(timeout=timeout):
                    for ask in (lambda: session.put("key", "v", timeout=timeout), lambda: session.settle(timeout=timeout),
                                lambda: nozhgiva.Group(5, members.addresses, timeout=timeout)):
                        with self.assertRaises(ValueError):
                            ask()
        self.assertEqual(len(state.executed), 1)

    def test_no_text_has_a_value(self):
        with Members(2, State(quiet=lambda number: number == 2)) as members:
            session = nozhgiva.Group(5, members.addresses, timeout=SHORT, retry=FAST).register(timeout=SOON)
            with session, self.assertRaises(nozhgiva.Full) as full:
                session.put("one-too-many", SECRET, timeout=SOON)
            session = nozhgiva.Group(5, members.addresses, timeout=SHORT, retry=FAST).register(timeout=SOON)
            with session:
                session.put("key", SECRET, timeout=SOON)
                with self.assertRaises(nozhgiva.Unknown) as unknown:
                    session.put("key", SECRET)
                self.assertNotIn(SECRET, repr(session))
        lost = nozhgiva.SessionLost("evicted", nozhgiva.Put("key", SECRET))
        wrong = self.assertRaises(ValueError)
        with wrong:
            Request(5, 7, 1, nozhgiva.Put("key", f"{SECRET} with a space")).encode()
        for error, key in ((full.exception, "one-too-many"), (unknown.exception, "key"), (lost, "key"), (wrong.exception, "")):
            with self.subTest(type(error)):
                self.assertNotIn(SECRET, f"{error} {error!r} {error.args}")
                self.assertIn(key, str(error))
        self.assertIn(f"put key ({len(SECRET)} bytes)", str(unknown.exception))
        self.assertNotIn(SECRET, repr(nozhgiva.Outcome(nozhgiva.OutcomeKind.VALUE, SECRET)))

    def test_any_bytes_and_text_have_a_value(self):
        for data in (b"", b"\x00\xff\n", "", "crème brûlée", '{"a": 1}', "b64:", bytes(range(256)), "x" * nozhgiva.Blob.room(1)):
            value = nozhgiva.Blob.encode(data)
            self.assertEqual((nozhgiva.Blob.decode(value), type(nozhgiva.Blob.decode(value))), (data, type(data)))
            size = len(data.encode()) if isinstance(data, str) else len(data)
            self.assertEqual(len(value), 4 + 4 * -(-size // 3))
            Request(5, 7, 1, nozhgiva.Put("key", value)).encode()
        self.assertEqual((nozhgiva.Blob.encode(b"ab\xff"), nozhgiva.Blob.encode("é")), ("b64:YWL/", "t64:w6k="))
        for version, room in ((1, 765), (2, 2247)):
            self.assertEqual(nozhgiva.Blob.room(version), room)
            Request(5, 7, 1, nozhgiva.Put("key", nozhgiva.Blob.encode(bytes(room))), version).encode()
            with self.assertRaises(ValueError):
                Request(5, 7, 1, nozhgiva.Put("key", nozhgiva.Blob.encode(bytes(room + 1))), version).encode()
        for value in ("green", "b64:YWL", "b64:YWL/*", "t64:/w==", "x64:YWL/", ""):
            with self.subTest(value), self.assertRaises(ValueError):
                nozhgiva.Blob.decode(value)
        with self.assertRaises(TypeError):
            nozhgiva.Blob.encode(3)


class Ended(unittest.TestCase):
    def test_a_closed_session(self):
        for fake in (Members, Streams):
            with self.subTest(fake), fake(2, State()) as members:
                session = nozhgiva.Group(5, members.addresses, timeout=60.0).register()
                session.close()
                session.close()
                begun = time.monotonic()
                for ask in (lambda: session.get("key"), lambda: session.put("key", "v"), session.settle):
                    with self.assertRaises(nozhgiva.Closed):
                        ask()
                self.assertLess(time.monotonic() - begun, SOON)

    def test_closed_while_a_request_waits(self):
        with Members(2, State(quiet=lambda number: number == 1)) as members:
            session = nozhgiva.Group(5, members.addresses, timeout=60.0, retry=FAST).register()
            timer = threading.Timer(0.2, session.close)
            timer.start()
            begun = time.monotonic()
            with self.assertRaises(nozhgiva.Unknown):
                session.get("key")
            self.assertLess(time.monotonic() - begun, 30.0)
            timer.join()

    def test_a_forked_process(self):
        for fake in (Members, Streams):
            with self.subTest(fake), fake(2, State()) as members, nozhgiva.Group(5, members.addresses, timeout=SOON).register() as session:
                session.put("key", "before")
                child = os.fork()
                if child == 0:
                    self.in_the_child(session)
                self.assertEqual(os.waitstatus_to_exitcode(os.waitpid(child, 0)[1]), 0)
                self.assertEqual(session.get("key"), "before")
                session.put("key", "after")

    def in_the_child(self, session):
        """Ends the child with 0 where the session refuses, and closes it as a `with` block does."""
        code = 1
        try:
            session.put("key", "of-the-child", timeout=SHORT)
        except Exception as error:
            code = 0 if "process" in str(error) else 2
            session.close()
        finally:
            os._exit(code)

    def test_time_in_line_counts(self):
        with Members(2, State(quiet=lambda number: number == 1)) as members:
            with nozhgiva.Group(5, members.addresses, timeout=30.0, retry=FAST).register() as session:
                waiting = threading.Thread(target=lambda: self.assertRaises(nozhgiva.Unknown, session.put, "key", "v", timeout=2.0))
                waiting.start()
                while session.pending is None:
                    time.sleep(0.01)
                with self.assertRaises(nozhgiva.NotAsked):
                    session.get("other", timeout=0.2)
                waiting.join()


class Told(unittest.TestCase):
    """What the library tells of itself."""

    def test_texts_of_objects(self):
        with Members(2, State()) as members:
            group = nozhgiva.Group(5, members.addresses, timeout=SOON)
            self.assertEqual(repr(group), f"Group(5, {members.addresses}, version=1)")
            with group.register(client=77) as session:
                session.put("key", "v")
                self.assertEqual(repr(session), "<Session of client 77 in group 5, 2 requests, open>")
            self.assertEqual(repr(session), "<Session of client 77 in group 5, 2 requests, closed>")
            with nozhgiva.Pool(group, 2) as pool:
                pool.put("key", "v")
                self.assertEqual(repr(pool), f"<Pool of {group!r}: 1 of 2 sessions made, 1 idle>")

    def test_a_line_for_each_request_and_a_warning_for_a_lost_primary(self):
        state, view = State(), [0]

        def answer(member, data):
            request = decode(data)
            return [reply_to(request, member, view=view[0], outcome=state.outcome(request.operation)).encode()]
        with Members(2, answer) as members, self.assertLogs("nozhgiva", logging.DEBUG) as logs:
            with nozhgiva.Group(5, members.addresses, timeout=SOON).register(client=77) as session:
                session.put("key", SECRET)
                view[0] = 2
                session.get("key")
        levels = [record.levelname for record in logs.records]
        self.assertEqual(levels, ["DEBUG", "DEBUG", "DEBUG", "WARNING"])
        self.assertRegex(logs.output[1], r"client 77: put key \(17 bytes\) as number 1: ok in \d+\.\d{3} s, sent 1 times")
        self.assertIn("view 2", logs.output[3])
        self.assertNotIn(SECRET, "".join(logs.output))

    def test_the_version(self):
        project = (Path(__file__).resolve().parent.parent / "pyproject.toml").read_text(encoding="utf-8")
        self.assertEqual(re.search(r'^version = "(.*)"$', project, re.MULTILINE).group(1), nozhgiva.__version__)

    def test_the_modules(self):
        for name, names in (("aio", {"Group", "Pool", "Session"}), ("recipes", {"Cell", "Configuration", "Counter", "Election", "Lock"})):
            self.assertLessEqual(names, set(importlib.import_module(f"nozhgiva.{name}").__all__))


class Pools(unittest.TestCase):
    def test_many_threads_have_few_sessions(self):
        state = State()
        with Members(2, state) as members, nozhgiva.Pool(nozhgiva.Group(5, members.addresses, timeout=30.0), 3) as pool:
            threads = [threading.Thread(target=pool.put, args=(f"key{number}", str(number))) for number in range(40)]
            for thread in threads:
                thread.start()
            for thread in threads:
                thread.join()
            self.assertEqual((len(state.keys), pool.get("key7"), pool.delete("key7"), pool.get("key7")), (40, "7", True, None))
        self.assertLessEqual(len(state.last), 3)
        with self.assertRaises(nozhgiva.Closed):
            pool.get("key")

    def test_a_lost_session_is_replaced_and_said(self):
        with Members(2, State()) as members, nozhgiva.Pool(nozhgiva.Group(5, members.addresses, timeout=SOON), 1) as pool:
            with pool.session() as session:
                session._ledger.lost = "evicted"
            pool.put("key", "v")
            with pool.session() as session:
                self.assertIsNone(session.lost)
                with self.assertRaises(nozhgiva.NotAsked):
                    pool.get("key", timeout=0.2)

    def test_an_unknown_register_isnt_an_unknown_put(self):
        pool = nozhgiva.Pool(nozhgiva.Group(5, free_addresses(2), timeout=SHORT, retry=FAST))
        with self.assertRaises(nozhgiva.Unknown) as raised:
            pool.put("key", "v")
        self.assertEqual((raised.exception.operation, raised.exception.unsent), (nozhgiva.Register(), nozhgiva.Put("key", "v")))

    def test_a_forked_process_has_its_own(self):
        state = State()
        with Members(2, state) as members, nozhgiva.Pool(nozhgiva.Group(5, members.addresses, timeout=SOON)) as pool:
            pool.put("key", "before")
            child = os.fork()
            if child == 0:
                code = 1
                try:
                    pool.put("key", "of-the-child")
                    code = 0
                finally:
                    os._exit(code)
            self.assertEqual(os.waitstatus_to_exitcode(os.waitpid(child, 0)[1]), 0)
            self.assertEqual((pool.get("key"), len(state.last)), ("of-the-child", 2))

    def test_sizes(self):
        for sessions in (0, 33):
            with self.assertRaises(ValueError):
                nozhgiva.Pool(nozhgiva.Group(5, ["a:1", "b:1"]), sessions)


if __name__ == "__main__":
    unittest.main()
