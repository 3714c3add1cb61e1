"""What a session does with bytes that aren't its answers: it never takes one of them, and never ends but by an error of its own."""

import random
import socket
import threading
import time
import unittest

from fakes import Members, State, Streams, reply_to
from nozhgiva import Get, Group, Outcome, OutcomeKind, Register, Retry, Unknown
from nozhgiva.messages import ReplyKind, Request, decode

FAST = Retry(first=0.05, factor=1.5, most=0.2, jitter=0.5)
SOON = 20.0
"""Seconds in which a request is answered that somebody answers, on a busy machine too."""


class Liar:
    """A member's answers, behind many that are none: of other requests, sessions and groups, cut, flipped, and what it said before."""

    def __init__(self, seed, garbage=True):
        self.state = State()
        self.draw = random.Random(seed)
        self.said = []
        self.garbage = garbage

    def __call__(self, member, data):
        request = decode(data)
        answers = self.state(member, data)
        if not answers:
            return []
        lies = [*self.whole(request, member), *(self.broken(answers[0]) if self.garbage else [])]
        self.draw.shuffle(lies)
        self.said.append(answers[0])
        return lies + answers

    def whole(self, request, member):
        """Messages that are whole, and none of them the answer."""
        wrong = Outcome(OutcomeKind.VALUE, "wrong")
        others = [
            Request(request.cluster, request.client, request.number + 1, request.operation) if request.number else None,
            Request(request.cluster, request.client + 1, request.number, request.operation),
            Request(request.cluster + 1, request.client, request.number, request.operation),
            Request(request.cluster, request.client, request.number, request.operation, 2)]
        replies = [reply_to(other, member, kind, outcome=wrong).encode() for other in others if other for kind in ReplyKind]
        return replies + self.draw.sample(self.said, min(len(self.said), 5)) + [request.encode()]

    def broken(self, answer):
        """Bytes that are no message."""
        flipped = bytearray(answer)
        flipped[self.draw.randrange(len(answer))] ^= 1 << self.draw.randrange(8)
        return [answer[:self.draw.randrange(1, len(answer))], bytes(flipped), answer + b"\0", self.draw.randbytes(200), bytes(20_481)]


class BadInput(unittest.TestCase):
    def play(self, addresses):
        """Requests whose answers are known, one after the other."""
        with Group(5, addresses, timeout=SOON, retry=FAST).register() as session:
            for number in range(12):
                key, value = f"key{number % 3}", f"value{number}"
                self.assertIsNone(session.put(key, value))
                self.assertEqual(session.get(key), value)
                self.assertIs(session.delete(key), True)
                self.assertIsNone(session.get(key))

    def test_datagrams_that_are_no_answer(self):
        with Members(2, Liar(1)) as members:
            self.play(members.addresses)

    def test_streams_with_what_is_no_answer(self):
        with Streams(2, Liar(2, garbage=False)) as members:
            self.play(members.addresses)

    def test_streams_that_break_now_and_then(self):
        liar = Liar(3)

        def answer(member, data):
            # Of ten answers three come behind bytes that close the stream.
            replies = liar.state(member, data)
            return liar.broken(replies[0])[-1:] + replies if replies and liar.draw.random() < 0.3 else replies
        with Streams(2, answer) as members:
            self.play(members.addresses)

    def test_a_flood_of_strangers(self):
        with Members(2, State()) as members, Group(5, members.addresses, timeout=SOON, retry=FAST).register() as session:
            stranger = socket.socket(socket.AF_INET, socket.SOCK_DGRAM)
            lie = reply_to(Request(5, session.client, 2, Get("key")), 0, outcome=Outcome(OutcomeKind.VALUE, "wrong")).encode()
            places = [one.getsockname() for one in session._link._sockets.values()]
            over = threading.Event()

            def flood():
                while not over.is_set():
                    for place in places:
                        stranger.sendto(lie, place)
            thread = threading.Thread(target=flood)
            thread.start()
            try:
                for number in range(20):
                    session.put("key", str(number))
                    self.assertEqual(session.get("key"), str(number))
            finally:
                over.set()
                thread.join()
                stranger.close()

    def test_a_member_that_floods(self):
        state = State()

        def answer(member, data):
            request = decode(data)
            old = reply_to(Request(5, request.client, 0, Register()), member).encode()
            return [old] * 100 + ([] if request.number == 2 else state(member, data))
        for fake in (Members, Streams):
            with self.subTest(fake), fake(2, answer) as members, Group(5, members.addresses, timeout=SOON, retry=FAST).register() as session:
                session.put("key", "v")
                begun = time.monotonic()
                with self.assertRaises(Unknown):
                    session.get("key", timeout=0.5)
                self.assertLess(time.monotonic() - begun, SOON)

    def test_a_member_that_is_busy_for_ever(self):
        state = State()

        def answer(member, data):
            request = decode(data)
            if request.version != 1:
                return []
            return [reply_to(request, 0, ReplyKind.BUSY).encode()] if member == 0 else state(member, data)
        with Members(2, answer) as members, Group(5, members.addresses, timeout=SOON, retry=FAST).register() as session:
            session.put("key", "v")
            self.assertEqual(session.get("key"), "v")


if __name__ == "__main__":
    unittest.main()
