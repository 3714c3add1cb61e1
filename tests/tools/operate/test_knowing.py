"""What a keeper makes of its member's lines: keys and sessions, clients that ask in vain; and what is told while a view may be changing."""

import unittest
from typing import Dict, List, Optional, Tuple

from nozhgiva_tools.operate.doors import http_asked, place_of
from nozhgiva_tools.operate.judging import AILS, Settling, SILENT, Verdict, WELL
from nozhgiva_tools.operate.knowing import Demand, Tally
from nozhgiva_tools.operate.probing import places_of, where_of
from nozhgiva_tools.told.datafile import Checkpoint, Report, Value
from nozhgiva_tools.told.lines import Applied, parse


def applied(op: int, client: int, request: int, what: str) -> str:
    return f"commit 0 op {op} view 0 client {client} request {request} {what}"


def heard(tally: Tally, now: float, text: str) -> None:
    line = parse(text.encode())
    assert isinstance(line, Applied)
    tally.hear(now, line)


def number(value: int, size: int) -> bytes:
    return value.to_bytes(size, "big")


def report(op: int, clients: Dict[int, Tuple[int, int]], keys: List[str], version: int = 1) -> Report:
    """What a look at a file finds of its checkpoint, whose two texts are those of docs/STATE.md: each client's last reply is `ok`, each value is `v`."""
    made, value, checkpoint = Report.__new__(Report), Value.__new__(Value), Checkpoint.__new__(Checkpoint)
    made.value, made.checkpoint, value.version, checkpoint.op = value, checkpoint, version, op
    checkpoint.sessions = number(len(clients), 2) + b"".join(number(client, 8) + number(request, 4) + number(last, 8) + b"\2" for client, (request, last) in clients.items())
    checkpoint.keys = number(len(keys), 2) + b"".join(number(len(key), 1) + number(1, 2) + key.encode() + b"v" for key in keys)
    return made


class Tallying(unittest.TestCase):
    """By docs/STATE.md: a register begins a session, and where as many are held as may be ends the one that was used longest ago; a request with the next
    number of its session is executed; 128 keys are held."""

    def tally(self, start: Optional[Report], *lines: str) -> Tally:
        tally = Tally()
        tally.begin(start)
        for line in lines:
            heard(tally, 0.0, line)
        return tally

    def test_which_sessions_are_evicted(self) -> None:
        """Of 32 sessions the one that was used longest ago goes for the 33rd. Whether that may be of a client at work is told by its last use."""
        for name, last, lately in [("used just now", 990.0, 1), ("used five minutes ago", 700.0, 1), ("used longer ago", 699.0, 0)]:
            with self.subTest(name):
                tally = Tally()
                tally.begin(report(0, {}, []))
                for client in range(1, 33):
                    heard(tally, 10.0, applied(client, client, 0, "register"))
                for client in range(1, 33):
                    heard(tally, last, applied(32 + client, client, 1, "get a"))
                heard(tally, 1000.0, applied(65, 40, 0, "register"))
                self.assertEqual((tally.sessions, tally.evicted), (32, {"lately": lately, "earlier": 1 - lately}))
                heard(tally, 1000.0, applied(65, 40, 0, "register"))
                self.assertEqual(sum(tally.evicted.values()), 1)

    def test_a_session_of_which_nothing_was_heard_is_an_old_one(self) -> None:
        tally = Tally()
        tally.begin(report(32, {client: (0, client) for client in range(1, 33)}, []))
        heard(tally, 1000.0, applied(33, 40, 0, "register"))
        self.assertEqual(tally.evicted, {"lately": 0, "earlier": 1})

    def test_rows(self) -> None:
        many = {client: (0, client) for client in range(1, 33)}
        rows: List[Tuple[str, Optional[Report], List[str], Optional[int], Optional[int]]] = [
            ("nothing is known", None, [applied(1, 7, 0, "register")], None, None),
            ("from the beginning", report(0, {}, []), [applied(1, 7, 0, "register"), applied(2, 7, 1, "put a x"), applied(3, 7, 2, "put b x"), applied(4, 7, 3, "del a")], 1, 1),
            ("asked twice", report(0, {}, []), [applied(1, 7, 0, "register"), applied(2, 7, 1, "put a x"), applied(3, 7, 1, "put c x"), applied(4, 7, 0, "register")], 1, 1),
            ("without a session, and with a gap", report(32, {7: (3, 30)}, ["a"]), [applied(33, 8, 1, "put b x"), applied(34, 7, 5, "put c x")], 1, 1),
            ("all keys are taken", report(32, {7: (3, 30)}, [f"k{i}" for i in range(128)]), [applied(33, 7, 4, "put more x"), applied(34, 7, 5, "put k1 x")], 128, 1),
            ("all sessions are taken", report(32, many, []), [applied(33, 40, 0, "register"), applied(34, 1, 1, "put a x")], 0, 32),
            ("in version 2 there is room", report(32, many, [], 2), [applied(33, 40, 0, "register"), applied(34, 1, 1, "put a x")], 1, 33),
            ("a jump: nothing is known until the file is read", report(32, {7: (3, 30)}, ["a"]), [applied(97, 7, 4, "put b x")], None, None),
            ("a line that was cut", report(32, {7: (3, 30)}, ["a"]), ["commit 0 op 33 view 0"], None, None),
            ("cut before its key", report(32, {7: (3, 30)}, ["a"]), [applied(33, 7, 4, "put"), applied(34, 7, 5, "del")], 1, 1),
        ]
        for name, start, lines, keys, sessions in rows:
            with self.subTest(name):
                tally = self.tally(start, *lines)
                self.assertEqual((tally.keys, tally.sessions), (keys, sessions))

    def test_what_was_applied_before_the_file_was_read_counts(self) -> None:
        tally = self.tally(None, *(applied(op, 7, op - 30, "put a x") for op in range(31, 40)))
        tally.begin(report(32, {7: (2, 32)}, ["b"]))
        self.assertEqual((tally.op, tally.keys, tally.sessions), (39, 2, 1))
        tally.begin(report(0, {}, []))
        self.assertEqual(tally.op, 39)


class Asking(unittest.TestCase):
    REDIRECT = "reply 1 client 7 request 3 redirect 4"

    def test_rows(self) -> None:
        rows: List[Tuple[str, List[Tuple[float, str]], float, float]] = [
            ("nobody asks", [], 9.0, 0.0),
            ("asked once", [(1.0, self.REDIRECT)], 2.0, 0.0),
            ("again and again", [(1.0, self.REDIRECT), (2.0, self.REDIRECT), (3.5, self.REDIRECT)], 4.0, 2.5),
            ("and then answered", [(1.0, self.REDIRECT), (2.0, self.REDIRECT), (2.1, applied(5, 7, 3, "get a"))], 4.0, 0.0),
            ("an old line again is no answer", [(0.5, applied(5, 7, 3, "get a")), (1.0, self.REDIRECT), (2.0, self.REDIRECT), (2.1, applied(5, 7, 3, "get a"))], 3.0, 1.0),
            ("they have given up", [(1.0, self.REDIRECT), (3.0, self.REDIRECT)], 7.0, 0.0),
            ("and ask anew", [(1.0, self.REDIRECT), (3.0, self.REDIRECT), (9.0, self.REDIRECT), (9.5, self.REDIRECT)], 10.0, 0.5),
            ("busy", [(1.0, "reply 1 client 7 request 3 busy"), (2.0, "reply 1 client 7 request 3 busy")], 2.0, 1.0),
            ("evicted is an answer", [(1.0, "reply 1 client 7 request 3 evicted"), (2.0, "reply 1 client 7 request 3 evicted")], 2.0, 0.0),
        ]
        for name, lines, now, waits in rows:
            with self.subTest(name):
                demand = Demand()
                for at, line in lines:
                    demand.hear(at, parse(line.encode()))
                self.assertAlmostEqual(demand.waits(now), waits)


class Telling(unittest.TestCase):
    def test_a_view_change_is_no_silence(self) -> None:
        settling, told = Settling(), []
        for now, code in [(0.0, WELL), (0.5, SILENT), (1.0, SILENT), (1.5, WELL), (2.0, SILENT), (2.9, SILENT), (3.0, SILENT), (9.0, SILENT), (9.5, AILS)]:
            told.append(settling.hear(now, Verdict(code, None, None, 0, [], may_change=True)).code)
        self.assertEqual(told, [WELL, AILS, AILS, WELL, AILS, AILS, SILENT, SILENT, AILS])
        self.assertEqual(Settling().hear(0.0, Verdict(SILENT, 0, 3, 9, [])).code, SILENT)

    def test_both_addresses_of_a_member(self) -> None:
        own, clients = ("127.0.0.1", 4000), ("::1", 4001)
        for scheme in ("", "tcp:"):
            self.assertEqual(places_of(f"{scheme}127.0.0.1:4000"), [own])
            self.assertEqual(places_of(f"{scheme}127.0.0.1:4000/[::1]:4001"), [own, clients])
            self.assertEqual(where_of(f"{scheme}127.0.0.1:4000/[::1]:4001"), clients)
        for text in ("a:1/", "/a:1", "a:1/b", "a/b:1"):
            self.assertRaises(ValueError, places_of, text)

    def test_addresses_and_questions(self) -> None:
        for text, place in [("127.0.0.1:80", ("127.0.0.1", 80)), ("[::1]:80", ("::1", 80)), ("host:65535", ("host", 65535))]:
            self.assertEqual(place_of(text), place)
        for text in ("", "host", ":80", "host:", "host:65536", "host:-1", "host:x", "host:\u0663"):
            self.assertRaises(ValueError, place_of, text)
        for asked, found in [(b"GET /metrics HTTP/1.1\r\nHost: x\r\n", None), (b"GET /metrics HTTP/1.1\r\n\r\n", ("GET", "/metrics")), (b"GET /a?b HTTP/1.0\n\n", ("GET", "/a")),
                             (b"health\n\n", ("", "")), (b"GET / HTTP/2\r\n\r\n", ("", ""))]:
            self.assertEqual(http_asked(asked), found)
