"""What the lines of a member are taken for, and how they are cut from pieces; and headers as the readers spell and read them, by docs/FORMATS.md."""

import unittest
from typing import Dict, List, Tuple

from nozhgiva_tools.told import datafile
from nozhgiva_tools.told.formats import Field, header
from nozhgiva_tools.told.lines import (Applied, Beat, Choice, Given, Halt, Line, LONGEST, Message, parse, Prepare, Question, Reply, Request, Splitter, Start, UNKNOWN,
                                       without_value)

NAME = bytes(range(16))
ROWS: List[Tuple[str, Line]] = [
    ("send 9 0 1 commit view 3 op 12 commit 10", Beat(3, 12, 10)),
    ("send 9 0 1 prepare view 3 op 13 made 3 commit 12", Prepare(3, 13, 12)),
    ("send 1 1 0 prepare_ok view 3 op 13 made 3", Message("prepare_ok", 3)),
    ("send 7 2 0 get_prepare op 5 made 1", Question("get_prepare", ("get_prepare", "op", "5", "made", "1"), None, 5)),
    ("send 7 2 0 get_block 64", Question("get_block", ("get_block", "64"))),
    ("send 7 2 0 get_sync view 4", Question("get_sync", ("get_sync", "view", "4"), 4)),
    ("send 7 2 0 start_view_change view 8", Message("start_view_change", 8)),
    ("send 7 2 0 do_view_change view 8 log 7 commit 3 head 4 parts hl", Message("do_view_change", 8)),
    ("send 7 2 0 give_block 1", Given("give_block")),
    ("commit 2 op 7 view 1 client 9 request 3 put commit op", Applied(1, 7, Request(9, 3, "put", "commit"))),
    ("commit 2 op 7 view 1 client 9 request 0 register", Applied(1, 7, Request(9, 0, "register"))),
    ("reply 2 client 9 request 3 op 7 ok", Reply("reply", 9)),
    ("reply 2 client 9 request 3 busy", Reply("busy", 9)),
    ("reply 2 client 9 request 3 redirect 5", Reply("redirect", 9)),
    ("start 1 view 2 log_view 1 commit 32", Start(2, 32)),
    ("wait 1 view 2 op 5", Choice("wait", 2, 5)),
    ("choose 1 view 2 log 1 commit 3 head 4 own h", Choice("choose", 2)),
    ("halt 2", Halt()),
    # Cut, or no line of a member.
    ("commit 2 op 7 view 1", Applied(1, 7)),
    ("commit 2 op 7 view 1 client 9 request 3", Applied(1, 7)),
    ("commit 2 op 7 view 1 client 9 request 3 put", Applied(1, 7, Request(9, 3, "put"))),
    ("", UNKNOWN),
    ("send 9 0 1 commit view 3 op 12 com", UNKNOWN),
    ("send 9 0 1 get_pre", UNKNOWN),
    ("send 9 0", UNKNOWN),
    ("reply 2 client 9 requ", UNKNOWN),
    ("commit 2 op", UNKNOWN),
    ("commit 2 op x view 1", UNKNOWN),
    ("thread 'main' panicked", UNKNOWN),
    ("\u00e9", UNKNOWN),
]


VALUES = [
    ("commit 2 op 7 view 1 client 9 request 3 put color green", "commit 2 op 7 view 1 client 9 request 3 put color *"),
    ("reply 2 client 9 request 4 op 8 value green", "reply 2 client 9 request 4 op 8 value *"),
    ("commit 2 op 7 view 1 client 9 request 3 put color gr", "commit 2 op 7 view 1 client 9 request 3 put color *"),
    ("commit 2 op 7 view 1 client 9 request 3 put color", "commit 2 op 7 view 1 client 9 request 3 put color"),
    ("commit 2 op 7 view 1 client 9 request 3 put", "commit 2 op 7 view 1 client 9 request 3 put"),
    ("commit 2 op 7 view 1 client 9 request 3 get put", "commit 2 op 7 view 1 client 9 request 3 get put"),
    ("commit 2 op 7 view 1 client 9 request 3 del color", "commit 2 op 7 view 1 client 9 request 3 del color"),
    ("commit 2 op 7 view 1 client 9 request 0 register", "commit 2 op 7 view 1 client 9 request 0 register"),
    ("reply 2 client 9 request 3 op 7 ok", "reply 2 client 9 request 3 op 7 ok"),
    ("reply 2 client 9 request 3 busy", "reply 2 client 9 request 3 busy"),
    ("send 9 0 1 prepare view 3 op 13 made 3 commit 12", "send 9 0 1 prepare view 3 op 13 made 3 commit 12"),
    ("keep: member=2 well=yes", "keep: member=2 well=yes"),
    ("", ""),
]


class Lines(unittest.TestCase):
    def test_values_are_left_out(self) -> None:
        for text, shown in VALUES:
            with self.subTest(text):
                self.assertEqual(without_value(text.encode()), shown.encode())

    def test_rows(self) -> None:
        for text, line in ROWS:
            with self.subTest(text):
                self.assertEqual(parse(text.encode()), line)

    def test_pieces_of_any_length(self) -> None:
        text = b"commit 0 op 1\nreply 0\n\nstart 1 view 2"
        for length in range(1, len(text) + 1):
            splitter = Splitter()
            lines = [line for at in range(0, len(text), length) for line in splitter.take(text[at:at + length])]
            self.assertEqual((lines, splitter.end()), ([b"commit 0 op 1", b"reply 0", b""], b"start 1 view 2"), length)

    def test_a_line_that_never_ends_is_given_up(self) -> None:
        splitter = Splitter()
        for _ in range(1000):
            self.assertEqual(list(splitter.take(b"x" * 1000)), [])
        self.assertLessEqual(len(splitter.rest), 2 * LONGEST)
        self.assertEqual(list(splitter.take(b"x\nstart\n")), [b"start"])
        self.assertEqual(splitter.too_long, 1)


class Headers(unittest.TestCase):
    """Of 128 bytes."""

    def test_what_is_spelled_is_read(self) -> None:
        read = datafile.header_of(header("prepare", b"body", parent=NAME, cluster=2 ** 64 - 1, view=3, op=2 ** 62, commit=8, replica=5))
        assert read is not None
        self.assertEqual((read.command, read.cluster, read.view, read.op, read.commit, read.replica, read.version, read.size), (6, 2 ** 64 - 1, 3, 2 ** 62, 8, 5, 1, 132))
        self.assertEqual((read.bytes[32:48], read.body), (NAME, datafile.name(b"body")))

    def test_a_field_that_there_is_not_is_refused(self) -> None:
        wrong: List[Dict[str, Field]] = [{"veiw": 3}, {"name": NAME}, {"parent": 3}, {"view": NAME}]
        for fields in wrong:
            with self.subTest(fields):
                self.assertRaises(TypeError, header, "prepare", **fields)
