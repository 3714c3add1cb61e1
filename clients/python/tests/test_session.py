"""Sessions over real sockets on loopback, with members that answer by a script."""

import time
import unittest

from fakes import OK, SESSION, Members, State, Streams, reply_to
from nozhgiva import Full, Get, Group, Put, Retry, SessionLost, Unknown
from nozhgiva.messages import Register, ReplyKind, decode

FAST = Retry(first=0.05, factor=1.5, most=0.2, jitter=0.5)


def answers(kind):
    """Registers a session, and answers all else so."""
    def answer(member, data):
        request = decode(data)
        if request.number == 0:
            return [reply_to(request, member, outcome=SESSION).encode()]
        return [reply_to(request, member, kind).encode()]
    return answer


class Sessions(unittest.TestCase):
    def paths(self, members):
        group = Group(5, members.addresses, timeout=20.0, retry=FAST)
        with group.register() as session:
            self.assertIsNone(session.put("color", "green"))
            self.assertEqual(session.get("color"), "green")
            self.assertIs(session.delete("color"), True)
            self.assertIs(session.delete("color"), False)
            self.assertIsNone(session.get("color"))
            with self.assertRaises(Full) as raised:
                session.put("one-too-many", "x")
            self.assertEqual(raised.exception.operation, Put("one-too-many", "x"))
            self.assertIsNone(session.settle())

    def test_over_datagrams(self):
        with Members(3, State()) as members:
            self.paths(members)

    def test_over_streams(self):
        with Streams(3, State()) as members:
            self.paths(members)

    def test_a_reply_in_pieces_and_two_replies_at_once(self):
        state = State()

        def answer(member, data):
            for reply in state(member, data):
                yield reply[:50]
                time.sleep(0.02)
                yield reply[50:] + reply
        with Streams(2, answer) as members:
            self.paths(members)

    def test_a_stream_that_ends_is_made_again(self):
        state = State()
        with Streams(2, lambda member, data: state(member, data) + [None]) as members:
            self.paths(members)
            self.assertGreaterEqual(sum(members.made), 7)

    def test_a_stream_with_something_else_is_closed(self):
        state = State()
        with Streams(2, lambda member, data: [bytes(200)] if member == 0 else state(member, data)) as members:
            with Group(5, members.addresses, timeout=20.0, retry=FAST).register() as session:
                session.put("color", "green")
                begun = time.monotonic()
                while not members.ended[0].wait(0.01) and time.monotonic() < begun + 20.0:
                    session.get("color")  # what a stream brought is read while an answer is waited for
                self.assertTrue(members.ended[0].is_set())
                self.assertEqual(session.get("color"), "green")

    def test_a_member_that_isnt_there(self):
        with Streams(2, State()) as members:
            group = Group(5, ["tcp:127.0.0.1:1", members.addresses[1]], timeout=20.0, retry=FAST)
            with group.register() as session:
                session.put("color", "green")

    def test_an_unknown_put_is_settled_and_executed_once(self):
        lost = [True]
        state = State(quiet=lambda number: number == 1 and lost[0])
        with Members(2, state) as members:
            with Group(5, members.addresses, timeout=0.4, retry=FAST).register(timeout=20.0) as session:
                with self.assertRaises(Unknown) as raised:
                    session.put("color", "green")
                self.assertEqual((raised.exception.operation, raised.exception.unsent), (Put("color", "green"), None))
                self.assertEqual(session.pending, Put("color", "green"))
                with self.assertRaises(Unknown) as raised:
                    session.get("color")
                self.assertEqual((raised.exception.operation, raised.exception.unsent), (Put("color", "green"), Get("color")))
                lost[0] = False
                self.assertEqual(session.settle(20.0), OK)
                self.assertEqual((session.pending, session.get("color", timeout=20.0)), (None, "green"))
        self.assertEqual(state.executed, [Register(), Put("color", "green"), Get("color")])

    def test_the_next_request_settles_the_one_before(self):
        lost = [True]
        state = State(quiet=lambda number: number == 1 and lost[0])
        with Members(2, state) as members:
            with Group(5, members.addresses, timeout=0.3, retry=FAST).register(timeout=20.0) as session:
                with self.assertRaises(Unknown):
                    session.put("color", "green")
                lost[0] = False
                self.assertEqual(session.get("color", timeout=20.0), "green")
        self.assertEqual(state.executed, [Register(), Put("color", "green"), Get("color")])

    def test_a_lost_session_stays_lost(self):
        for kind in (ReplyKind.OLD, ReplyKind.GAP, ReplyKind.EVICTED):
            with self.subTest(kind), Members(2, answers(kind)) as members:
                with Group(5, members.addresses, timeout=20.0, retry=FAST).register() as session:
                    for key in ("color", "size"):
                        with self.assertRaises(SessionLost) as raised:
                            session.get(key)
                        self.assertEqual((raised.exception.reason, raised.exception.operation), (kind.name.lower(), Get(key)))

    def test_nobody_answers_a_register(self):
        with Members(2, lambda member, data: []) as members, self.assertRaises(Unknown):
            Group(5, members.addresses, timeout=0.3, retry=FAST).register()

    def test_what_is_out_of_form_isnt_asked(self):
        state = State()
        with Members(2, state) as members, Group(5, members.addresses, timeout=20.0).register() as session:
            for key, value in (("", "v"), ("k" * 65, "v"), ("a b", "v"), ("é", "v"), ("k", ""), ("k", "v" * 1025), ("k", "a\n")):
                with self.subTest(key=key, value=value), self.assertRaises(ValueError):
                    session.put(key, value)
            session.put("k" * 64, "v" * 1024)
            self.assertEqual(session.get("k" * 64), "v" * 1024)
        self.assertEqual(len(state.executed), 3)

    def test_groups_out_of_form(self):
        good = ["127.0.0.1:4000", "127.0.0.1:4001"]
        for cluster, addresses in (
                (-1, good), (2**64, good), (5, good[:1]), (5, good * 4), (5, ["tcp:127.0.0.1:4000", "127.0.0.1:4001"]), (5, ["127.0.0.1", "b:1"]),
                (5, ["a:65536", "b:1"]), (5, [":1", "b:1"]), (5, ["a:+1", "b:1"])):
            with self.subTest(cluster=cluster, addresses=addresses), self.assertRaises(ValueError):
                Group(cluster, addresses)
        for client in (0, 2**64):
            with self.subTest(client=client), self.assertRaises(ValueError):
                Group(5, good).register(client=client)


if __name__ == "__main__":
    unittest.main()
