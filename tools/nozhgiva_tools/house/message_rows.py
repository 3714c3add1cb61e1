"""Makes the rows of tests/rows/messages (stdin) and what they come to (stdout) by docs/FORMATS.md and docs/SCHEDULE.md, apart from the
program: each message is spelled here, field by field, and beside it stands its line, or why its bytes are no message.
  ./nozhgiva message-rows [--check]     writes both files; with --check it compares them with what stands there"""

import argparse
from typing import Dict, List, Sequence, Tuple

from nozhgiva_tools.told.formats import Field, header, name, number, REGISTER, rows_parser, SEVENS, spelled, write_rows
from nozhgiva_tools.told.store import Kind, Operation, Outcome

VALUE = Outcome.VALUE.spelled("a")


Fields = Dict[str, Field]


def with_others(fields: Fields, **others: Field) -> Fields:
    """These fields, and of the others those that they don't name."""
    return {**others, **fields}


def entry(op: int, **fields: Field) -> bytes:
    """The header of a register of client 7 in group 5, made in view 1."""
    return header("entry", REGISTER, **with_others(fields, cluster=5, client=7, view=1, op=op, request_name=SEVENS, parent=SEVENS))


def entries(first: int, last: int) -> bytes:
    return b"".join(entry(op) for op in range(first, last + 1))


def sent(command: str, body: bytes = b"", **fields: Field) -> bytes:
    return spelled(command, body, **with_others(fields, cluster=5, replica=2))


def in_view(command: str, body: bytes = b"", **fields: Field) -> bytes:
    return sent(command, body, **with_others(fields, view=3))


def changed(data: bytes, places: Sequence[Tuple[int, int]], renamed: bool) -> bytes:
    """The bytes with others at these places, and with the header's name made right again or left."""
    made = bytearray(data)
    for at, byte in places:
        made[at] = byte
    if renamed:
        made[:16] = name(bytes(made[16:128]))
    return bytes(made)


# Long pieces of several rows. The longer ones are looked for first.
PIECES = {"ENTRIES11TO65": entries(11, 65), "ENTRIES66TO74": entries(66, 74), "ENTRY75": entry(75), "ENTRY9": entry(9),
          "BLOCK": bytes([9] * 4095), "V3000": b"v" * 3000, "V1024": b"v" * 1024}

rows: List[Tuple[str, bytes, str, str]] = []
"""What each is, its bytes, what they come to, and what they are read as."""


def row(what: str, data: bytes, told: str, kind: str = "message") -> None:
    rows.append((what, data, told, kind))


def sends(what: str, data: bytes, line: str) -> None:
    row(what, data, f"send 6 1 0 {line}")


def refused(what: str, data: bytes, fault: str = "BodyShape") -> None:
    row(what, data, fault)


# Requests and replies.
sends("a request", spelled("request", Operation(Kind.PUT, "a", "b").spelled(), cluster=5, client=7, request=1), "request")
refused("a get under number 0", spelled("request", Operation(Kind.GET, "a").spelled()))


def reply(kind: int, body: bytes = b"", **fields: Field) -> bytes:
    return in_view("reply", body, **with_others(fields, client=7, request_name=SEVENS, kind=kind))


row("a reply with a value", reply(1, VALUE, op=9), "reply 2 client 7 request 0 op 9 value a")
for kind, text in [(2, "old"), (3, "gap"), (4, "evicted"), (5, "busy"), (6, "redirect 3")]:
    row("a reply without an outcome", reply(kind), f"reply 2 client 7 request 0 {text}")
for outcome, text in [(Outcome.SESSION, "session"), (Outcome.OK, "ok"), (Outcome.FULL, "full"), (Outcome.ABSENT, "absent"), (Outcome.VALUE, "value b")]:
    body = outcome.spelled("b")
    row("a reply with an outcome", reply(1, body, cluster=0, replica=0, request=1, op=2), f"reply 0 client 7 request 1 op 2 {text}")

# Entries.
body = entry(9) + REGISTER
sends("a prepare", in_view("prepare", body, op=9, commit=8), "prepare view 3 op 9 made 1 commit 8")
sends("a give_prepare", sent("give_prepare", body, op=9), "give_prepare op 9 made 1")
sends("a prepare_ok", in_view("prepare_ok", op=9, parent=SEVENS, aux=1), "prepare_ok view 3 op 9 made 1")
sends("a get_prepare", sent("get_prepare", op=9, parent=SEVENS, aux=1), "get_prepare op 9 made 1")
refused("a prepare of another op than its entry's", in_view("prepare", body, op=8))

# Views and blocks.
sends("a commit", in_view("commit", op=9, commit=8), "commit view 3 op 9 commit 8")
sends("a start_view_change", in_view("start_view_change"), "start_view_change view 3")
sends("a get_view", in_view("get_view"), "get_view view 3")
sends("a get_block", sent("get_block", parent=SEVENS, aux=70), "get_block 70")
sends("a give_block", sent("give_block", bytes([9] * 4096), aux=70), "give_block 70")
refused("a give_block without its last byte", sent("give_block", bytes([9] * 4095)))
refused("a commit of a client", in_view("commit", client=1))
refused("a view that is none", in_view("commit", view=2**32 - 1))
refused("an op that is none", in_view("commit", op=2**62 + 1))
for command in ["reserved", "root", "entry", "block"]:
    refused("no message's command", spelled(command))


# A log has at most 64 headers.
def start_view(head: int, lo: int, last: int, **fields: Field) -> bytes:
    return in_view("start_view", entries(11, last), op=head, aux=lo, **fields)


sends("a log of 64 headers", start_view(74, 10, 74), "start_view view 3 op 74 commit 0")
refused("a log of 65 headers", start_view(75, 10, 75))
refused("a header past the head", start_view(73, 10, 74))
refused("headers that begin elsewhere", start_view(73, 9, 74))
refused("a log of another group", start_view(74, 10, 74, cluster=6))
refused("a log made in later views", start_view(74, 10, 74, view=0))
sends("a log of no headers", start_view(0, 0, 10), "start_view view 3 op 0 commit 0")
refused("a log that begins behind its head", start_view(5, 6, 10))
refused("a log whose commit number is past its head", start_view(0, 0, 10, commit=1))


# A checkpoint is committed and within its log.
def checkpoint(op: int, address: int, last: int = 65) -> bytes:
    return number(op, 8) + number(address, 8) + SEVENS + entries(11, last)


def sync_view(lo: int, commit: int, body: bytes) -> bytes:
    return in_view("sync_view", body, op=65, commit=commit, aux=lo)


sends("a get_sync", in_view("get_sync"), "get_sync view 3")
refused("a get_sync of an op", sent("get_sync", op=9))
for op, address, commit in [(32, 127, 32), (32, 127, 65), (64, 127, 64), (64, 1, 65)]:
    line = f"sync_view view 3 op 65 commit {commit} checkpoint {op}"
    sends("a checkpoint", sync_view(10, commit, checkpoint(op, address)), line)
refused("a checkpoint between two", sync_view(10, 64, checkpoint(33, 0)))
refused("checkpoint 0", sync_view(10, 64, checkpoint(0, 0)))
refused("a checkpoint past the commit number", sync_view(10, 63, checkpoint(64, 0)))
refused("a checkpoint past its log", sync_view(10, 65, checkpoint(96, 0)))
refused("a root that isn't in the grid", sync_view(10, 64, checkpoint(32, 128)))
refused("a commit number past the head", sync_view(10, 66, checkpoint(32, 0)))
refused("headers that begin elsewhere", sync_view(9, 64, checkpoint(32, 0)))
refused("a checkpoint below its headers", sync_view(65, 65, checkpoint(32, 0, 10)))
refused("a checkpoint without its last byte", sync_view(10, 64, checkpoint(32, 0, 10)[:31]))

# A statement has at most 128 tags.
TAGS = bytes([1, 3, 2]) + bytes([4] * 126)


def statement(commit: int, head: int, first: int, tags: bytes, known: int, **fields: Field) -> bytes:
    body = number(first, 8) + number(len(tags), 2) + tags + entries(first, first + known - 1)
    return in_view("do_view_change", body, **with_others(fields, op=head, commit=commit, aux=2))


sends("a statement of 128 Parts", statement(6, 9, 7, TAGS[:128], 3), "do_view_change view 3 log 2 commit 6 head 9 parts hwl" + "u" * 125)
refused("a statement of 129 Parts", statement(6, 9, 7, TAGS, 3))
refused("a head without a header", statement(6, 10, 7, TAGS[:128], 3))
refused("a first op past the commit number", statement(5, 9, 7, TAGS[:128], 3))
refused("a header that lacks", statement(6, 9, 7, TAGS[:128], 2))
refused("a last tag for nothing", statement(0, 0, 1, b"\x00", 0))
refused("a tag that is none", statement(0, 0, 1, b"\x05", 0))
refused("a first op 0", statement(0, 0, 0, b"", 0))
sends("a statement of no Parts", statement(0, 0, 1, b"", 0), "do_view_change view 3 log 2 commit 0 head 0 parts -")
refused("a log view that isn't below the view", statement(0, 0, 1, b"", 0, aux=3))

# Each message of group 0, from replica 1.
first = header("entry", REGISTER, client=7, op=1, request_name=name(header("request", REGISTER, client=7)[16:]), parent=SEVENS) + REGISTER
of_group_0: List[Tuple[str, Fields, bytes, str]] = [
    ("prepare", dict(op=1), first, "prepare view 0 op 1 made 0 commit 0"),
    ("prepare_ok", dict(op=1, parent=SEVENS), b"", "prepare_ok view 0 op 1 made 0"),
    ("commit", dict(view=1, op=1), b"", "commit view 1 op 1 commit 0"),
    ("start_view_change", dict(view=1), b"", "start_view_change view 1"),
    ("start_view", dict(view=1), b"", "start_view view 1 op 0 commit 0"),
    ("get_view", dict(), b"", "get_view view 0"),
    ("get_sync", dict(), b"", "get_sync view 0"),
    ("do_view_change", dict(view=1), number(1, 8) + number(2, 2) + b"\x00\x04",
     "do_view_change view 1 log 0 commit 0 head 0 parts nu"),
    ("get_prepare", dict(op=1, parent=SEVENS), b"", "get_prepare op 1 made 0"),
    ("give_prepare", dict(op=1), first, "give_prepare op 1 made 0"),
    ("get_block", dict(aux=64, parent=SEVENS), b"", "get_block 64"),
    ("give_block", dict(aux=64), bytes(4096), "give_block 64"),
]
for command, fields, body, line in of_group_0:
    sends("of group 0", spelled(command, body, **with_others(fields, replica=1)), line)

# The first fault is told.
a_commit = in_view("commit")
refused("another byte in the header", changed(a_commit, [(127, 1)], False), "Header(BadSum)")
refused("no command and no version", changed(a_commit, [(108, 0), (110, 0)], True), "Header(BadCommand)")
refused("another version", changed(a_commit, [(110, 3)], True), "Header(BadVersion)")
refused("a size below a header's", changed(a_commit, [(107, 127)], True), "Header(BadSize)")
refused("a size above the largest", changed(a_commit, [(106, 80), (107, 1)], True), "Header(BadSize)")
refused("a header without its last byte", a_commit[:127], "Header(Short)")
cut = in_view("prepare", entry(9) + REGISTER, op=9)[:-1]
refused("a body without its last byte", cut, "BodySum")
refused("the same with padding that isn't zero", changed(cut, [(120, 1)], True), "Header(NotZero)")


# Two versions: how long a value may be is by the version of the header that names it, and a frame has entries of its own version or
# an earlier one.
def put(length: int) -> bytes:
    return b"\x02\x01" + number(length, 2) + b"a" + b"v" * length


def put_entry(version: int, length: int) -> bytes:
    body = put(length)
    return header("entry", body, cluster=5, client=7, request=1, view=1, op=9, version=version, request_name=SEVENS, parent=SEVENS) + body


for version, length in [(1, 1024), (2, 3000)]:
    asks = dict(cluster=5, client=7, request=1, version=version)
    sends("the longest value in a request", spelled("request", put(length), **asks), "request")
    refused("a longer value in a request", spelled("request", put(length + 1), **asks))
    longest = in_view("prepare", put_entry(version, length), op=9, version=version)
    sends("the longest value in an entry", longest, "prepare view 3 op 9 made 1 commit 0")
    refused("a longer value in an entry", in_view("prepare", put_entry(version, length + 1), op=9, version=version))
    value = b"\x05" + number(length, 2) + b"v" * length
    row("the longest value in a reply", reply(1, value, op=9, version=version), f"reply 2 client 7 request 0 op 9 value {'v' * length}")
    refused("a longer value in a reply", reply(1, b"\x05" + number(length + 1, 2) + b"v" * (length + 1), op=9, version=version))
sends("a commit of version 2", in_view("commit", op=9, commit=8, version=2), "commit view 3 op 9 commit 8")
refused("a value of version 2 in an entry of version 1", in_view("prepare", put_entry(1, 1025), op=9, version=2))
later, earlier = entry(9, version=2) + REGISTER, entry(9) + REGISTER
sends("an earlier entry", in_view("prepare", earlier, op=9, version=2), "prepare view 3 op 9 made 1 commit 0")
refused("a later entry", in_view("prepare", later, op=9))
sends("an earlier entry that was asked for", sent("give_prepare", earlier, op=9, version=2), "give_prepare op 9 made 1")
refused("a later entry that was asked for", sent("give_prepare", later, op=9))
log = entry(11) + entry(12, version=2)
sends("a log of both versions", in_view("start_view", log, op=12, aux=10, version=2), "start_view view 3 op 12 commit 0")
refused("a log with a later header", in_view("start_view", log, op=12, aux=10))
behind = number(32, 8) + number(1, 8) + SEVENS + entry(32) + entry(33, version=2)
sends("a log of both versions behind a checkpoint", in_view("sync_view", behind, op=33, commit=32, aux=31, version=2),
      "sync_view view 3 op 33 commit 32 checkpoint 32")
refused("a log with a later header behind a checkpoint", in_view("sync_view", behind, op=33, commit=32, aux=31))
stated = number(11, 8) + number(2, 2) + bytes([1, 3]) + log
sends("a statement of both versions", in_view("do_view_change", stated, op=12, commit=10, aux=2, version=2),
      "do_view_change view 3 log 2 commit 10 head 12 parts hw")
refused("a statement with a later header", in_view("do_view_change", stated, op=12, commit=10, aux=2))


# Texts of keys and values, and of sessions, as docs/STATE.md has them.
def key(name: bytes, value: bytes) -> bytes:
    return bytes([len(name)]) + number(len(value), 2) + name + value


def session(client: int, request: int, op: int, outcome: bytes) -> bytes:
    return number(client, 8) + number(request, 4) + number(op, 8) + outcome


def keys(what: str, data: bytes, told: str = "whole") -> None:
    row(f"keys: {what}", data, told, "keys")


def sessions(what: str, data: bytes, told: str = "whole") -> None:
    row(f"sessions: {what}", data, told, "sessions")


keys("none", number(0, 2))
keys("two", number(2, 2) + key(b"a", b"v") + key(b"b", b"v"))
keys("nothing", b"", "Torn")
keys("half a count", b"\x00", "Torn")
keys("a count above the limit", number(129, 2), "TooMany")
keys("a value that ends early", number(1, 2) + key(b"a", b"zz")[:-1], "Torn")
keys("the longest value", number(1, 2) + key(b"a", b"v" * 3000))
keys("a value that is too long", number(1, 2) + key(b"a", b"v" * 3001), "Torn")
keys("a byte behind the last", number(0, 2) + b"\x00", "Torn")
keys("a key of no bytes", number(1, 2) + key(b"", b"z"), "Torn")
keys("a byte that no key has", number(1, 2) + key(b" ", b"z"), "Torn")
keys("the greater key first", number(2, 2) + key(b"b", b"z") + key(b"a", b"z"), "NotSorted")
keys("one key twice", number(2, 2) + key(b"a", b"z") + key(b"a", b"z"), "NotSorted")
sessions("one that has a value", number(1, 2) + session(1, 1, 2, b"\x05\x00\x01v"))
sessions("the greater client first", number(2, 2) + session(2, 0, 1, b"\x01") + session(1, 0, 2, b"\x01"), "NotSorted")
sessions("an op past the last", number(1, 2) + session(1, 0, 2**62 + 1, b"\x01"), "Torn")
sessions("as many as there may be", number(64, 2) + b"".join(session(client, 0, client, b"\x01") for client in range(1, 65)))
sessions("the longest value", number(1, 2) + session(1, 1, 2, b"\x05" + number(3000, 2) + b"v" * 3000))
sessions("a value that is too long", number(1, 2) + session(1, 1, 2, b"\x05" + number(3001, 2) + b"v" * 3001), "Torn")
sessions("a count above the limit", number(65, 2), "TooMany")
sessions("a session that ends early", number(1, 2) + b"\x00", "Torn")
sessions("a byte behind the last", number(0, 2) + b"\x00", "Torn")


def words(data: bytes) -> List[str]:
    """Hex, and the names of the pieces that are in the bytes."""
    for title, piece in PIECES.items():
        at = data.find(piece)
        if at >= 0:
            return [*words(data[:at]), title, *words(data[at + len(piece):])]
    return [data.hex()] if data else []


def make_parser() -> argparse.ArgumentParser:
    return rows_parser("message-rows", __doc__)


def run() -> None:
    given = "".join(f"piece {title} {piece.hex()}\n" for title, piece in PIECES.items())
    told = ""
    for what, data, line, kind in rows:
        given += f"# {what}\n{kind} {' '.join(words(data))}\n"
        told += f"# {what}\n{line}\n"
    write_rows(make_parser(), "messages", given, told)


if __name__ == "__main__":
    run()
