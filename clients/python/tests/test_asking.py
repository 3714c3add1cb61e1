"""Where a request is sent, how often, and what counts as its answer: over a link and a clock in memory."""

import unittest
from pathlib import Path

from fakes import OK, SESSION, MemoryLink, reply_to
from nozhgiva import Put, Retry
from nozhgiva.asking import Asker, Course, Search
from nozhgiva.messages import Outcome, OutcomeKind, Register, Reply, ReplyKind, Request, decode
from nozhgiva.sights import meaning

REQUEST = Request(5, 7, 1, Put("a", "b"))
STEADY = Retry(first=0.25, factor=1.5, most=2.0, jitter=0.0)


def course_of(size):
    return Course([f"member-{place}:4000" for place in range(size)])


def ask(answer, *, size=3, deadline=20.0, retry=STEADY, request=REQUEST):
    """The reply, and the link with what was sent."""
    link = MemoryLink(answer, request.version)
    reply, _ = Asker(link, course_of(size), retry, link.clock).ask(request, deadline)
    return reply, link


def seen(answer, *, size=3, deadline=5.0):
    """What is said of each address after so many seconds, and what it may mean."""
    link = MemoryLink(answer)
    reply, search = Asker(link, course_of(size), STEADY, link.clock).ask(REQUEST, deadline)
    assert reply is None
    return [str(sight).partition(": ")[2] for sight in search.sights], meaning(search.sights)


class Asking(unittest.TestCase):
    def test_the_primary_answers_and_one_message_is_sent(self):
        reply, link = ask(lambda member, request: [(0.01, reply_to(request, member))])
        self.assertEqual((reply.outcome, link.sent), (OK, [(0.0, 0)]))

    def test_a_redirect_is_followed_at_once(self):
        def answer(member, request):
            return [(0.01, reply_to(request, 2) if member == 2 else reply_to(request, member, ReplyKind.REDIRECT, view=5))]
        reply, link = ask(answer)
        self.assertEqual((reply.replica, link.sent), (2, [(0.0, 0), (0.01, 2)]))

    def test_who_answered_last_is_asked_first(self):
        link = MemoryLink(lambda member, request: [(0.01, reply_to(request, 2) if member == 2 else reply_to(request, member, ReplyKind.REDIRECT, view=2))])
        asker = Asker(link, course_of(3), STEADY, link.clock)
        asker.ask(REQUEST, 20.0)
        asker.ask(Request(5, 7, 2, Put("a", "c")), 20.0)
        self.assertEqual([member for _, member in link.sent], [0, 2, 2])

    def test_a_silent_member_gives_its_place_to_the_next_after_a_pause(self):
        reply, link = ask(lambda member, request: [(0.01, reply_to(request, 2))] if member == 2 else [])
        self.assertEqual((reply.replica, link.sent), (2, [(0.0, 0), (0.25, 1), (0.625, 2)]))

    def test_a_busy_member_is_asked_again_after_a_pause_and_another_one_beside_it(self):
        times = iter([ReplyKind.BUSY, ReplyKind.BUSY, ReplyKind.OUTCOME])
        reply, link = ask(lambda member, request: [(0.01, reply_to(request, member, next(times)))] if member == 0 else [])
        self.assertEqual((reply.kind, link.sent), (ReplyKind.OUTCOME, [(0.0, 0), (0.25, 0), (0.25, 1), (0.625, 0), (0.625, 2)]))

    def test_a_member_that_is_busy_for_ever_doesnt_keep_the_request(self):
        # Member 0 was cut off in view 0; the others go on in view 1.
        def answer(member, request):
            if member == 0:
                return [(0.01, reply_to(request, 0, ReplyKind.BUSY))]
            return [(0.01, reply_to(request, 1, view=1) if member == 1 else reply_to(request, 2, ReplyKind.REDIRECT, view=1))]
        reply, link = ask(answer)
        self.assertEqual((reply.replica, reply.view, link.sent), (1, 1, [(0.0, 0), (0.25, 0), (0.25, 1)]))

    def test_a_member_that_redirects_to_itself_for_ever_doesnt_keep_the_request(self):
        # Member 0 was cut off while its view changed, to one that it would lead itself.
        def answer(member, request):
            return [(0.01, reply_to(request, 0, ReplyKind.REDIRECT, view=9) if member == 0 else reply_to(request, member, view=1))]
        reply, link = ask(answer)
        self.assertEqual((reply.replica, link.sent), (1, [(0.0, 0), (0.01, 0), (0.25, 0), (0.25, 1)]))

    def test_what_an_older_view_says_of_the_session_doesnt_count(self):
        # Member 0 leads view 0 and was cut off; this session had its last answer in view 1.
        for kind in (ReplyKind.OLD, ReplyKind.GAP, ReplyKind.EVICTED):
            link = MemoryLink(lambda member, request: [(0.01, reply_to(request, 0, kind) if member == 0 else reply_to(request, 1, view=1))])
            course = course_of(2)
            course.view = 1
            reply, _ = Asker(link, course, STEADY, link.clock).ask(REQUEST, 20.0)
            self.assertEqual((reply.kind, link.sent), (ReplyKind.OUTCOME, [(0.0, 0), (0.25, 1)]))

    def test_a_group_without_a_primary_isnt_stormed(self):
        # Each member names another one of the same view for as long as the view changes. Twenty seconds have at most
        # 0.25, 0.375, 0.5625, 0.84375, 1.265625, 1.8984375 and then 2 seconds between them: 14 pauses, all but the first with two messages;
        # one redirect was news.
        reply, link = ask(lambda member, request: [(0.0001, reply_to(request, member, ReplyKind.REDIRECT, view=1))])
        self.assertIsNone(reply)
        self.assertEqual(len(link.sent), 1 + 13 * 2 + 1)

    def test_views_that_run_away_are_followed_only_so_far(self):
        views = iter(range(1, 10_000))
        reply, link = ask(lambda member, request: [(0.0001, reply_to(request, member, ReplyKind.REDIRECT, view=next(views)))])
        self.assertIsNone(reply)
        self.assertEqual(len(link.sent), 1 + 13 * 2 + 14 * 3)

    def test_time_ends(self):
        reply, link = ask(lambda member, request: [], deadline=1.0)
        self.assertIsNone(reply)
        self.assertEqual((link.time, [member for _, member in link.sent]), (1.0, [0, 1, 2]))

    def test_what_ends_a_session_is_an_answer(self):
        for kind in (ReplyKind.OLD, ReplyKind.GAP, ReplyKind.EVICTED):
            reply, _ = ask(lambda member, request: [(0.01, reply_to(request, member, kind))])
            self.assertEqual(reply.kind, kind)

    def test_what_isnt_the_answer_is_passed_over(self):
        other = Request(5, 7, 2, Put("a", "b"))
        elsewhere = Request(6, 7, 1, Put("a", "b"))
        right = reply_to(REQUEST, 0)
        wrong = [b"", bytes(128), right.encode()[:-1], right.encode() + b"\0", reply_to(other, 0).encode(), reply_to(elsewhere, 0).encode(),
                 Reply(6, 7, 1, REQUEST.name(), 0, 0, ReplyKind.OUTCOME, 1, OK).encode(), REQUEST.encode(),
                 reply_to(REQUEST, 0, outcome=Outcome(OutcomeKind.VALUE, "b")).encode()]
        reply, link = ask(lambda member, request: [(0.001 * at, data) for at, data in enumerate(wrong)] + [(0.1, right)])
        self.assertEqual((reply, link.time, len(link.sent)), (right, 0.1, 1))

    def test_who_says_nothing_is_asked_in_the_other_version_when_the_pause_ends(self):
        reply, link = ask(lambda member, request: [(0.01, reply_to(request, 1, ReplyKind.BUSY))] if member == 1 else [], deadline=3.5)
        self.assertIsNone(reply)
        self.assertEqual(link.sent, [(0.0, 0), (0.25, 1), (0.625, 1), (0.625, 2), (1.1875, 1), (1.1875, 0), (2.03125, 1), (2.03125, 2), (3.296875, 1), (3.296875, 0)])
        self.assertEqual(link.probes, [(0.25, 0), (1.1875, 2), (2.03125, 0), (3.296875, 2)])

    def test_a_register_asks_all_members_at_once(self):
        asked = Request(5, 7, 0, Register())
        reply, link = ask(lambda member, request: [(0.01, reply_to(request, 2, outcome=SESSION))] if member == 2 else [], request=asked)
        self.assertEqual((reply.replica, link.sent), (2, [(0.0, 0), (0.0, 1), (0.0, 2)]))


class Play:
    """One row of clients/vectors/scenarios.txt; `step` raises `AssertionError` where this client does otherwise."""

    def __init__(self):
        self.course = course_of(3)
        self.number = 0
        self.sent = []
        self.reply = None

    def step(self, word, *rest):
        known = {"ask": self.ask, "pause": self.pause, "sends": self.sends, "ends": self.ends, "lost": self.lost}
        if word.isdigit():
            self.come(int(word), *rest)
        else:
            known[word](*rest)

    def ask(self):
        self.number += 1
        self.request, self.sent, self.reply = Request(5, 7, self.number, Put("a", "b")), [], None
        self.search = Search(self.request, self.course, STEADY)
        self.pause()

    def pause(self):
        assert self.reply is None, self.reply
        self._note(self.search.next_round())

    def _note(self, sends):
        self.sent += [send.place for send in sends if send.data == self.request.encode()]

    def come(self, place, kind, view, _="as", replica=None):
        kind = ReplyKind.OUTCOME if kind == "ok" else ReplyKind[kind.upper()]
        came = self.search.take(place, reply_to(self.request, int(replica or place), kind, view=int(view)).encode())
        if isinstance(came, Reply):
            self.reply = came
        else:
            self._note(came)

    def sends(self, *places):
        musts, mays = ([int(place.strip("()")) for place in places if place.startswith("(") == is_choice] for is_choice in (False, True))
        chosen = [place for place in mays if place in self.sent]
        assert sorted(self.sent) == sorted(musts + chosen), f"sent to {self.sent}, not to {places}"
        self.sent = []

    def ends(self):
        assert self.reply is not None and self.reply.outcome is not None, self.reply

    def lost(self):
        assert self.reply is not None and self.reply.outcome is None, self.reply


class Scenarios(unittest.TestCase):
    def test_each_is_played(self):
        lines = (Path(__file__).resolve().parents[2] / "vectors/scenarios.txt").read_text(encoding="ascii").splitlines()
        rows = [line.split("\t") for line in lines if not line.startswith("#")]
        self.assertGreaterEqual(len(rows), 10)
        for shown, steps in rows:
            play = Play()
            for step in steps.split("; "):
                with self.subTest(shown, step=step):
                    play.step(*step.split(" "))


class Seeing(unittest.TestCase):
    """What is told of each address, and what it may mean."""

    def test_silent_and_refused(self):
        self.assertEqual(seen(lambda member, request: []), (["silent"] * 3, "members are silent to whoever asks for another group, and where too few of them run"))
        said, means = seen(lambda member, request: [(0.0, "refused")])
        self.assertEqual((said, means[:36]), (["refused"] * 3, "no member runs at these addresses; o"))
        said, means = seen(lambda member, request: [(0.0, "refused")] if member else [])
        self.assertEqual((said, means), (["silent", "refused", "refused"], ""))

    def test_who_was_not_asked(self):
        self.assertEqual(seen(lambda member, request: [], deadline=0.2)[0], ["silent", "not asked", "not asked"])

    def test_redirects_and_busy(self):
        said, means = seen(lambda member, request: [(0.0, reply_to(request, member, ReplyKind.REDIRECT, view=4) if member else reply_to(request, 0, ReplyKind.BUSY))])
        self.assertEqual(said, ["busy", "redirects to itself (view 4)", "redirects to member 1 (view 4)"])
        self.assertEqual(means, "no member leads: fewer run, or hear each other, than the group needs")

    def test_another_order(self):
        said, means = seen(lambda member, request: [(0.0, reply_to(request, (member + 2) % 3, ReplyKind.BUSY))])
        self.assertEqual(said, ["member 2 answers at place 0, busy", "member 0 answers at place 1, busy", "member 1 answers at place 2, busy"])
        self.assertEqual(means, "the addresses stand in another order than at the members")

    def test_another_group_and_another_version(self):
        other = Reply(6, 7, 1, bytes(16), 0, 0, ReplyKind.BUSY)
        self.assertEqual(seen(lambda member, request: [(0.0, other)]), (["answers for group 6"] * 3, "another group has these addresses"))
        later = [Reply(5, 7, 1, bytes(16), member, 0, ReplyKind.BUSY, version=2) for member in range(3)]
        self.assertEqual(seen(lambda member, request: [(0.0, later[member])])[0], ["answers in version 2"] * 3)

    def test_what_is_no_answer(self):
        self.assertEqual(seen(lambda member, request: [(0.0, b"x" * 200)]), (["sends what is no answer"] * 3, ""))
        stale = [(0.0, reply_to(Request(5, 7, 0, Register()), 0))]
        self.assertEqual(seen(lambda member, request: stale if member == 0 else [])[0], ["sends what is no answer", "silent", "silent"])


class GoingOver(unittest.TestCase):
    """Members that answer in another version than the one in which the session asks, all of them or some."""

    def ask(self, answer, *, version=1, course=None, deadline=20.0, request=None):
        link = EitherLink(answer)
        request = request or Request(5, 7, 1, Put("a", "b"), version)
        reply, search = Asker(link, course or course_of(3), STEADY, link.clock).ask(request, deadline)
        return reply, link, search

    def test_a_group_of_the_other_version_is_found_at_the_end_of_the_first_pause(self):
        for version, other in ((1, 2), (2, 1)):
            with self.subTest(version):
                reply, link, _ = self.ask(lambda member, request: self.member(member, request, {0: other, 1: other, 2: other}), version=version)
                self.assertEqual((reply.outcome, reply.version), (OK, other))
                self.assertEqual(link.sent, [(0.0, 0, version), (0.25, 1, version), (0.26, 0, other)])

    def member(self, place, request, versions, leader=0):
        """What a member says that hears its own version alone."""
        if request.version != versions[place]:
            return []
        if request.client != 7:
            return [(0.01, reply_to(request, place, ReplyKind.EVICTED if place == leader else ReplyKind.REDIRECT, view=leader))]
        return [(0.01, reply_to(request, place) if place == leader else reply_to(request, place, ReplyKind.REDIRECT, view=leader))]

    def test_one_member_that_has_gone_over_keeps_nobody_from_the_others(self):
        # Member 0 has moved to version 2 and knows nothing new; member 1 leads in version 1.
        reply, link, _ = self.ask(lambda member, request: self.member(member, request, {0: 2, 1: 1, 2: 1}, leader=1))
        self.assertEqual((reply.outcome, reply.version, reply.replica), (OK, 1, 1))

    def test_the_same_request_goes_over_under_its_number(self):
        # Member 0 leads in version 1, executes the request, and its answer is lost; then it moves.
        state = {"executed": [], "version": 1}

        def answer(member, request):
            if request.version != state["version"] or member != 0:
                return []
            if request.client == 7 and request.number not in state["executed"]:
                state["executed"].append(request.number)
                state["version"] = 2
                return []
            return [(0.01, reply_to(request, 0, ReplyKind.EVICTED) if request.client != 7 else reply_to(request, 0))]
        reply, link, _ = self.ask(answer)
        self.assertEqual((reply.outcome, reply.version, state["executed"]), (OK, 2, [1]))
        self.assertEqual({(request.number, request.operation) for request in link.requests if request.client == 7}, {(1, Put("a", "b"))})

    def test_who_has_heard_version_2_never_goes_back(self):
        course = course_of(3)
        self.ask(lambda member, request: self.member(member, request, {0: 2, 1: 2, 2: 2}), version=2, course=course)
        reply, link, _ = self.ask(lambda member, request: self.member(member, request, {0: 1, 1: 1, 2: 1}), version=2, course=course, deadline=5.0)
        self.assertIsNone(reply)
        self.assertEqual({version for _, _, version in link.sent}, {2})

    def test_a_redirect_is_followed_in_the_version_of_who_told_it(self):
        reply, link, _ = self.ask(lambda member, request: self.member(member, request, {0: 2, 1: 2, 2: 2}, leader=2))
        self.assertEqual((reply.replica, link.sent), (2, [(0.0, 0, 1), (0.25, 1, 1), (0.26, 0, 2), (0.27, 2, 2)]))


class EitherLink(MemoryLink):
    """A link whose members get requests of both versions, and probes."""

    def __init__(self, answer):
        super().__init__(answer)
        self.requests = []

    def send(self, member, data):
        request = decode(data)
        self.requests.append(request)
        self.version = request.version
        super().send(member, data)
        if request.client == 7:
            self.sent[-1] = (round(self.time, 6), member, request.version)
        else:
            self.sent.pop()


class Retrying(unittest.TestCase):
    def test_pauses_grow_to_the_most(self):
        pauses = STEADY.pauses()
        self.assertEqual([next(pauses) for _ in range(8)], [0.25, 0.375, 0.5625, 0.84375, 1.265625, 1.8984375, 2.0, 2.0])

    def test_jitter_leaves_out_a_share(self):
        pauses = Retry(first=1.0, factor=2.0, most=4.0, jitter=0.5).pauses(iter([0.0, 0.5, 1.0]).__next__)
        self.assertEqual([next(pauses) for _ in range(3)], [1.0, 1.5, 2.0])

    def test_what_is_no_policy_is_refused(self):
        for words in ({"first": 0.0}, {"first": 3.0}, {"factor": 0.5}, {"jitter": 1.0}, {"jitter": -0.1}):
            with self.subTest(words), self.assertRaises(ValueError):
                Retry(**words)


if __name__ == "__main__":
    unittest.main()
