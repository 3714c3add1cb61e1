"""Makes the rows of tests/rows/commands (stdin) and what they come to (stdout) by docs/NODE.md, docs/SCHEDULE.md and docs/FORMATS.md,
apart from the program: each datagram is spelled here, and beside each run stands what it writes, how it ends, to which ports it sends, and
what it has a spawner do.
  ./nozhgiva command-rows [--check]     writes both files; with --check it compares them with what stands there"""

import argparse
from typing import List, Optional, Sequence, Tuple, Union

from nozhgiva_tools.told.formats import header, name, REGISTER, rows_parser, spelled, write_rows
from nozhgiva_tools.told.store import Kind, Operation, Outcome

given, told = "", ""


def row(what: str) -> None:
    global given, told
    given += f"== {what}\n"
    told += f"== {what}\n"


def finds(line: str) -> None:
    """What the next run finds outside."""
    global given
    given += line + "\n"


def arrives(data: bytes, port: int = 0) -> None:
    finds(f"arrive {port} {data.hex()}")


def runs(line: str, text: str, end: str, ports: Sequence[int] = (), calls: str = "") -> None:
    """A run, what it writes, its end, the ports to which it sends, and the calls of its spawner."""
    global given, told
    given += f"run {line}\n"
    told += f"run {line}\n" + "".join(f"  {it}\n" for it in text.splitlines())
    told += f"  {end}" + "".join(f", to {port}" for port in ports) + "\n" + "".join(f"  {it}\n" for it in calls.splitlines())


def streams(line: str, text: str, end: str) -> None:
    """A run over streams, what it writes and its end."""
    global given, told
    given += f"streams {line}\n"
    told += f"streams {line}\n" + "".join(f"  {it}\n" for it in text.splitlines()) + f"  {end}\n"


def comes(data: bytes, port: int = 0) -> None:
    """Bytes come next over streams."""
    finds(f"piece {port} {data.hex()}")


def words(line: str, read: str) -> None:
    """A command line, and what it is read as."""
    global given, told
    given += f"words {line}\n"
    told += f"words {line}\n  {read}\n"


# Datagrams of group 5.
def register(client: int = 7, cluster: int = 5, request: int = 0, operation: bytes = REGISTER, version: int = 1) -> bytes:
    return spelled("request", operation, cluster=cluster, client=client, request=request, version=version)


def reply(kind: int, op: int, outcome: bytes, client: int = 7, view: int = 0, request: int = 0, operation: bytes = REGISTER, version: int = 1) -> bytes:
    asked = name(register(client, 5, request, operation, version)[16:128])
    return spelled("reply", outcome, cluster=5, client=client, request=request, request_name=asked, view=view, kind=kind, op=op, version=version)


ABSENT, GET_A = (1, 2, Outcome.ABSENT.spelled()), Operation(Kind.GET, "a").spelled()
SESSION, OLD, BUSY, REDIRECT = (1, 1, Outcome.SESSION.spelled()), (2, 0, b""), (5, 0, b""), (6, 0, b"")


def put(key: str, value: str) -> bytes:
    return Operation(Kind.PUT, key, value).spelled()


def get(key: str) -> bytes:
    return Operation(Kind.GET, key).spelled()


def delete(key: str) -> bytes:
    return Operation(Kind.DELETE, key).spelled()


def value(it: str) -> bytes:
    return Outcome.VALUE.spelled(it)


OK = Outcome.OK.spelled()


def answers(client: int, outcomes: Sequence[Tuple[bytes, bytes]], version: int = 1) -> None:
    """What each operation is answered with comes, one after the other, the first to request 1."""
    for number, (operation, outcome) in enumerate(outcomes, 1):
        arrives(reply(1, number + 1, outcome, client, request=number, operation=operation, version=version))


def commit(view: int) -> bytes:
    return spelled("commit", cluster=5, view=view)


def prepare(cluster: int, replica: int, op: int) -> bytes:
    """A prepare from this member in view 0, of client 7's register as this op of a group."""
    root = name(header("root", cluster=cluster)[16:])
    entry = spelled("entry", REGISTER, cluster=cluster, client=7, op=op, parent=root)
    return spelled("prepare", entry, cluster=cluster, replica=replica, op=op)


FIRST, FOUND, SECOND = "node 5 0 f 2 a b --fresh", "node 5 0 f 2 a b", "node 5 1 f 2 a b --fresh"
PREPARES = "send 0 0 1 prepare view 0 op 1 made 0 commit 0"

# A member.
row("a disk has one member")
runs(FOUND, "", "superblock lost")
arrives(register())
runs(FIRST, PREPARES, "done", [1])
runs(FIRST, "", "occupied")
runs("node 5 1 f 2 a b", "", "other member: found 5 0 2 asked 5 1 2")
row("a send that fails is a loss")
arrives(register())
finds("fail send 0")
runs(FIRST, PREPARES, "done")
row("attaching the disk is its call 1; it is made in 320 writes and a sync, and then the superblock: a sync that fails ends it")
finds("fail disk 322")
runs(FIRST, "", "disk fault")
row("a receive that fails ends it")
finds("fail receive 0")
runs(FIRST, "", "link fault")
row("messages are answered")
arrives(prepare(5, 0, 1))
runs(SECOND, "send 0 1 0 prepare_ok view 0 op 1 made 0", "done", [0])
row("a commit of a later view")
arrives(commit(2))
runs(SECOND, "send 0 1 0 get_view view 2", "done", [0])


def changes_nothing(what: str, datagram: Union[str, bytes]) -> None:
    row(f"{what} changes nothing")
    finds(datagram if isinstance(datagram, str) else f"arrive 0 {datagram.hex()}")
    runs(SECOND, "", "done")


for length in (0, 127, 20481):
    changes_nothing(f"a datagram of {length} bytes that are no message", f"noise 0 {length}")
changes_nothing("another last byte", commit(2)[:-1] + b"\x01")
changes_nothing("a prepare without its last byte", prepare(5, 0, 1)[:-1])
changes_nothing("a prepare of another group", prepare(6, 0, 1))
changes_nothing("a prepare of a member that doesn't lead", prepare(5, 1, 1))
changes_nothing("a prepare past the window", prepare(5, 0, 65))
changes_nothing("a view that is none", commit(2**32 - 1))
changes_nothing("the log of the view that it is in", spelled("start_view", cluster=5))


# Four turns of the member that leads, which is due to tick at the third: nothing comes, a request of another group, one of a client without
# a session, zeros.
def turns(what: str) -> None:
    row(what)
    finds("quiet")
    arrives(register(cluster=6), 9)
    arrives(register(request=1, operation=GET_A), 9)
    arrives(bytes(128), 9)
    for number in (5, 104, 3, 103):
        finds(f"clock {number}")


LEADS = "node 5 0 f 4 a b --fresh"
turns("a request is answered at its port, and a tick comes")
runs(LEADS, "reply 0 client 7 request 1 evicted\nsend 0 0 1 commit view 0 op 0 commit 0", "done", [9, 1])
turns("nothing is sent before its whole text")
finds("room 5")
runs(LEADS, "reply", "write fault")
turns("a receive that fails ends it in the midst")
finds("fail receive 2")
runs(LEADS, "", "link fault")

# A member of a group of one, on a file of version 2: what it stores is committed, and it leads the next view when it is found again.
ALONE = "node 5 0 f 2 a --fresh --v2"
EXECUTES = "commit 0 op 1 view 0 client 7 request 0 register\nreply 0 client 7 request 0 op 1 session"
row("a member alone answers by itself")
arrives(register(version=2), 9)
runs(ALONE, EXECUTES, "done", [9])
runs(ALONE, "", "occupied")
runs(FOUND, "", "other member: found 5 0 1 asked 5 0 2")
for number in (0, 100):
    finds(f"clock {number}")
runs("node 5 0 f 2 a", f"start 0 view 1 log_view 0 commit 0\nchoose 0 view 1 log 0 commit 0 head 1 own h\n{EXECUTES}", "done")
row("its file says that it is alone")
runs(FIRST, "", "done")
runs("node 5 0 f 2 a", "", "other member: found 5 0 2 asked 5 0 1")
row("a member hears what is of its file's version")
for line, text, ports in [
        ("node 5 0 f 2 a b --fresh --v2", PREPARES, [1]),
        (FOUND, "start 0 view 1 log_view 0 commit 0\nsend 0 0 1 start_view_change view 1\nreply 0 client 7 request 0 redirect 1", [1, 9])]:
    arrives(register(), 9)
    arrives(register(version=2), 9)
    runs(line, text, "done", ports)
row("so does one of version 1")
arrives(register(version=2))
runs(FIRST, "", "done")
row("files of both versions may be careful")
arrives(register(version=2))
runs("node 5 0 f 2 a b --fresh --careful --v2", PREPARES, "done", [1])

# A file becomes one of version 2, and its member hears what is of that version; a second time nothing is left to do. What it holds it holds on: of op 1 that
# it stored it knows in the next view that client 7 has asked it.
MOVE = "migrate 5 0 2 f"
FOUND_ON = "start 0 view 1 log_view 0 commit 0\nsend 0 0 1 start_view_change view 1\nreply 0 client 7 request 0 redirect 1"


def made_as(line: str) -> None:
    """A member's file is made, on which a register of client 7 stands as op 1."""
    arrives(register())
    runs(line, PREPARES, "done", [1])


def found_as(version: int) -> None:
    """The member is found again on a file of this version, and hears a register of each."""
    arrives(register(version=3 - version), 9)
    arrives(register(version=version), 9)
    runs(FOUND, FOUND_ON, "done", [1, 9])


row("a file becomes one of version 2")
runs(MOVE, "", "superblock lost")
made_as(FIRST)
runs(MOVE, "", "done")
runs(MOVE, "", "done")
found_as(2)
row("a careful one too")
made_as(f"{FIRST} --careful")
runs(MOVE, "", "done")
found_as(2)
row("that of another member stays one of version 1")
made_as(FIRST)
for asked in ("6 0 2", "5 1 2", "5 0 3"):
    runs(f"migrate {asked} f", "", f"other member: found 5 0 2 asked {asked}")
found_as(1)
row("attaching the disk is its call 1; all from 2 on are the migration's: one that fails ends it, and it may be done again")
made_as(FIRST)
for call in (1, 2, 300, 513, 514, 515):
    finds(f"fail disk {call}")
    runs(MOVE, "", "disk fault")
runs(MOVE, "", "done")
found_as(2)
row("other words than four migrate nothing")
made_as(FIRST)
for asked in ("5 0 2", "5 2 2 f", "5 0 0 f", "5 0 7 f", "5 0 2 f --v2"):
    runs(f"migrate {asked}", "", "usage")
found_as(1)

# Over streams. To the first member client 7 registers, in two pieces; then nothing comes.
row("a member serves over streams")
comes(register()[:100], 2)
comes(register()[100:], 2)
streams("node 5 0 f 3 tcp:a tcp:b --fresh", PREPARES, "done")
CLIENT = "client 5 7 3 tcp:a tcp:b"
row("a client asks over streams")
comes(reply(*SESSION)[:100])
comes(reply(*SESSION)[100:])
streams(CLIENT, "session", "done")
row("two replies in pieces of 1, 200 and 56 bytes")
both = reply(*BUSY) + reply(*SESSION)
for first, last in [(0, 1), (1, 201), (201, 257)]:
    comes(both[first:last])
streams(CLIENT, "session", "done")
row("nothing comes behind damage")
comes(reply(*BUSY) + bytes(128))
comes(reply(*SESSION))
streams(CLIENT, "", "no answer")
row("what comes over another stream does")
comes(reply(*BUSY) + bytes(128))
comes(reply(*SESSION))
comes(reply(*SESSION), 1)
streams(CLIENT, "session", "done")

# A client.
for count, ports in [(3, [0]), (50, [0]), (51, [0, 1]), (120, [0, 1, 0])]:
    row("a quiet link gives no answer; each 50 turns another member is asked")
    runs(f"client 5 7 {count} a b", "", "no answer", ports)
row("a session is written")
arrives(reply(*SESSION))
runs("client 5 7 3 a b", "session", "done", [0])
row("then each line of its source is asked, and its answer written")
finds("line get a")
finds("line get b c")
arrives(reply(*SESSION))
arrives(reply(*ABSENT, request=1, operation=GET_A))
runs("client 5 7 3 a b", "session\nabsent", "refused: line 2", [0, 0])
row("an old answer ends it")
arrives(reply(*OLD))
runs("client 5 7 3 a b", "old", "session lost", [0])
row("busy and another's reply are ignored, and a redirect goes at once")
arrives(reply(*BUSY))
arrives(reply(*SESSION, client=8))
arrives(reply(*REDIRECT, view=3))
arrives(reply(*SESSION))
runs("client 5 7 4 a b", "session", "done", [0, 1])
row("a receive that fails ends it")
finds("fail receive 0")
runs("client 5 7 3 a b", "", "link fault", [0])
row("three lines are asked, and each answer is written")
for line in ("put a b", "get a", "del a"):
    finds(f"line {line}")
arrives(reply(*SESSION))
answers(7, [(put("a", "b"), OK), (get("a"), value("b")), (delete("a"), OK)])
runs("client 5 7 3 a b", "session\nok\nvalue b\nok", "done", [0, 0, 0, 0])

# A client of version 2.
row("a client of version 2 asks one member")
arrives(reply(*SESSION, version=2))
runs("client 5 7 3 a --v2", "session", "done", [0])
row("it hears replies of its version")
arrives(reply(*SESSION))
arrives(reply(*SESSION, version=2))
runs("client 5 7 3 a b --v2", "session", "done", [0])
row("so does one of version 1")
arrives(reply(*SESSION, version=2))
runs("client 5 7 3 a b", "", "no answer", [0])
row("each 50 turns it asks the one that it has")
runs("client 5 7 120 a --v2", "", "no answer", [0, 0, 0])
KEY = 64 * "k"
for version, most, flag in [(1, 1024, ""), (2, 3000, " --v2")]:
    row(f"a client of version {version} puts values of at most {most} bytes")
    finds(f"line put {KEY} {most * 'v'}")
    finds(f"line put {KEY} {(most + 1) * 'v'}")
    arrives(reply(*SESSION, version=version))
    answers(7, [(put(KEY, most * "v"), OK)], version)
    runs(f"client 5 7 3 a b{flag}", "session\nok", "refused: line 2", [0, 0])
    row("also behind a shorter key")
    finds(f"line put a {(most + 1) * 'v'}")
    arrives(reply(*SESSION, version=version))
    runs(f"client 5 7 3 a b{flag}", "session", "refused: line 1", [0])

# A trial.
STARTS = ["start node 5 0 f0 1000000 a b c --fresh: 0", "start node 5 1 f1 1000000 a b c --fresh: 1",
          "start node 5 2 f2 1000000 a b c --fresh: 2"]
TRIES, STARTED = "trial 5 20 f a b c", "started 0\nstarted 1\nstarted 2"
row("a start that fails ends it")
finds("fail start 1")
runs(TRIES, "started 0", "spawn fault", [], f"{STARTS[0]}\n{STARTS[1][:-1]}-\nstop 0")
row("a group that doesn't answer is stopped")
runs(TRIES, STARTED, "no answer", [0], "\n".join([*STARTS, "stop 0", "stop 1", "stop 2"]))
row("once the session is there, it asks on")
arrives(reply(*SESSION, client=1))
runs(TRIES, f"{STARTED}\nsession", "no answer", [0, 0], "\n".join([*STARTS, "stop 0", "stop 1", "stop 2"]))
row("a stop that fails on the way out changes nothing")
finds("fail stop 1")
runs(TRIES, STARTED, "no answer", [0], "\n".join([*STARTS, "stop 0", "stop 1: -", "stop 2"]))

row("a group that answers is tried to the end; member 0 is started a second time, as program 3")
arrives(reply(*SESSION, client=1))
answers(1, [(put(f"k{n}", f"v{n}"), OK) for n in range(1, 9)] + [(get(f"k{n}"), value(f"v{n}")) for n in range(1, 9)])
TRIED = [STARTED, "session", *8 * ["ok"], "stopped 0", "started 0", *(f"value v{n}" for n in range(1, 9)), "stopped 0", "stopped 1", "stopped 2"]
runs(TRIES, "\n".join(TRIED), "done", [0, 0, 0, 0], "\n".join([*STARTS, "stop 0", "start node 5 0 f0 1000000 a b c: 3", "stop 3", "stop 1", "stop 2"]))

# A schedule of no lines: the sum of no text is the first 16 bytes of SHA-256 of no bytes.
row("no lines are summed up")
runs("soak 7 0", f"events 0\nmessages 0\ncommits 0\nview 0\ndone 0\nkept out 0\nsum {name(b'').hex()}", "done")

# The number 320 makes a group of two, of which member 0 is asked for a session and messages 0 and 1 are delivered.
row("lines are drawn, played and summed up")
PLAYED = f"""{PREPARES}
send 1 1 0 prepare_ok view 0 op 1 made 0
commit 0 op 1 view 0 client 1 request 0 register
reply 0 client 1 request 0 op 1 session
"""
runs("soak 320 3", f"events 3\nmessages 2\ncommits 1\nview 0\ndone 0\nkept out 0\nsum {name(PLAYED.encode()).hex()}", "done")

row("words that are none call nothing")
runs("replay extra", "", "usage")
for line in ("Replay", ""):
    finds("line cluster 2")
    runs(line, "", "usage")
row("a schedule is replayed; a line that is none is refused, and nothing is played behind it")
runs("replay", "", "refused: line 1")
SCHEDULE, REDIRECTED = ("cluster 2", "request 1 7 0 register"), "reply 1 client 7 request 0 redirect 0"
for line in SCHEDULE:
    finds(f"line {line}")
runs("replay", REDIRECTED, "done")
for line in (*SCHEDULE, "request 2 7 0 register", SCHEDULE[1]):
    finds(f"line {line}")
runs("replay", REDIRECTED, "refused: line 3")


# The number 7 makes a group of five and 64 lines. By the rules: a fault of a disk, a redirect, three ticks of the primary, a request that it prepares, a tick that
# prepares it again; of what is delivered behind that, five prepares reach members that run; a redirect and three faults stand between. The rest puts out nothing.
LINES: List[str] = []


def sends(sender: int, others: Sequence[int], what: str) -> None:
    for other in others:
        LINES.append(f"send {sum(line.startswith('send') for line in LINES)} {sender} {other} {what}")


def beats(op: int) -> None:
    sends(0, (1, 2, 3, 4), f"commit view 0 op {op} commit 0")


def redirects(member: int, client: int) -> None:
    LINES.append(f"reply {member} client {client} request 0 redirect 0")


LINES.append("done")
redirects(4, 1)
for _ in range(3):
    beats(0)
sends(0, (1, 2, 3, 4), "prepare view 0 op 1 made 0 commit 0")
beats(1)
sends(0, (1, 2, 3, 4), "prepare view 0 op 1 made 0 commit 0")
LINES += ["done", "done"]
redirects(1, 2)
for member in (1, 4, 2):
    sends(member, (0,), "prepare_ok view 0 op 1 made 0")
LINES.append("done")
for member in (1, 2):
    sends(member, (0,), "prepare_ok view 0 op 1 made 0")
SUM = name("".join(line + "\n" for line in LINES).encode()).hex()
row("64 lines are drawn, played and summed up")
runs("soak 7 64", f"events 64\nmessages 29\ncommits 0\nview 0\ndone 4\nkept out 0\nsum {SUM}", "done")


def texts(peers: str) -> str:
    return "[" + ", ".join(f'"{peer}"' for peer in peers.split()) + "]"


def node(cluster: int, replica: int, turns: int, peers: str, mode: Optional[str] = None, version: int = 1) -> str:
    fresh = f"Some(Kind {{ mode: {mode}, version: Version {{ number: {version} }} }})" if mode else "None"
    return f'Node(NodeWords {{ cluster: {cluster}, replica: {replica}, file: "f", turns: {turns}, peers: {texts(peers)}, fresh: {fresh} }})'


def client(peers: str, version: int = 1) -> str:
    return f"Client(ClientWords {{ version: Version {{ number: {version} }}, cluster: 5, id: 7, turns: 3, peers: {texts(peers)} }})"


row("forms are commands")
words("replay", "Replay")
words("soak 7 2000", "Soak(SoakWords { seed: 7, count: 2000 })")
words("soak 0 999999", "Soak(SoakWords { seed: 0, count: 999999 })")
words("node 5 0 f 2 a b", node(5, 0, 2, "a b"))
words("node 5 1 f 2 a b --fresh", node(5, 1, 2, "a b", "Strict"))
words("node --fresh 5 0 f 2 a b", node(5, 0, 2, "a b", "Strict"))
words("node 5 0 f 2 a --fresh b", node(5, 0, 2, "a b", "Strict"))
words("node 5 1 f 2 a b --fresh --careful", node(5, 1, 2, "a b", "Careful"))
words("node --careful 5 1 f 2 a --fresh b", node(5, 1, 2, "a b", "Careful"))
words("node 5 1 f 2 --careful a b --fresh", node(5, 1, 2, "a b", "Careful"))
words("node 18446744073709551615 5 f 0 a b c d e f", node(2**64 - 1, 5, 0, "a b c d e f"))
words("node 5 0 f 2 a b --fresh --v2", node(5, 0, 2, "a b", "Strict", 2))
words("node 5 0 f 2 a b --fresh --careful --v2", node(5, 0, 2, "a b", "Careful", 2))
words("node --v2 5 0 f 2 a --careful b --fresh", node(5, 0, 2, "a b", "Careful", 2))
words("node 5 0 f 2 a --fresh --v2", node(5, 0, 2, "a", "Strict", 2))
words("node 5 0 f 2 a --fresh --careful --v2", node(5, 0, 2, "a", "Careful", 2))
words("node 5 0 f 2 a", node(5, 0, 2, "a"))
words("client 5 7 3 a b", client("a b"))
words("client 5 7 3 a b --v2", client("a b", 2))
words("client --v2 5 7 3 a", client("a", 2))
words("trial 5 20 f a b c", f'Trial(TrialWords {{ cluster: 5, turns: 20, files: "f", peers: {texts("a b c")} }})')
words("trial 0 18446744073709551615 f a b c d e f",
      f'Trial(TrialWords {{ cluster: 0, turns: {2**64 - 1}, files: "f", peers: {texts("a b c d e f")} }})')
for cluster, replica, n in [(5, 0, 1), (5, 5, 6), (2**64 - 1, 1, 2)]:
    words(f"migrate {cluster} {replica} {n} f",
          f'Migrate(MigrateWords {{ config: Config {{ cluster: {cluster}, replica: {replica}, n: {n} }}, file: "f" }})')
row("other words are none")
for line in ["", " ", "help", "rep", "replay extra", "-- replay", "soak 7", "soak 07 1", "soak 7 1000000", "soak 18446744073709551616 1",
             "node 5 0 f 2 a --fresh", "node 5 0 f 2 a --fresh --careful", "node 5 0 f 2 a --v2", "node 5 0 f 2 a b --v2", "node 5 1 f 2 a",
             "node 5 1 f 2 a --fresh --v2", "node 5 0 f 2 --fresh --v2", "node 5 0 f 2 a b c d e f g --fresh --v2",
             "node 5 0 f 2 a b --fresh --v2 --v2", "node 5 0 f 2 a b --fresh --v1", "node 5 0 f 2 a b --careful --v2", "node 5 2 f 2 a b", "node 5 -1 f 2 a b", "node 5 0 f +2 a b",
                 "node 5 0 f 2 a b c d e f g",
             "node 5 0 f 2 a b --fresh --fresh", "node 5 0 f 2 a b --fres", "node 5 0 f 2 a b --careful",
             "node 5 0 f 2 a b --fresh --careful --careful", "client 5 0 3 a b", "client 5 7 3 a b --fresh",
             "client 5 7 3 a b -h", "client 5 7 3 a", "client 5 7 3 --v2", "client 5 0 3 a --v2", "client 5 7 3 a b c d e f g --v2",
             "client 5 7 3 a b --v2 --v2", "trial 5 20 f a", "trial 5 20 f a b c d e f g", "trial 5 020 f a b",
             "trial 18446744073709551616 20 f a b", "trial 5 20 f a b --fresh", "trial 5 20 f a b --careful", "trial 5 20 f a b --v2", "trial 5 20 f a --v2",
             "trial 5 20", "migrate", "migrate 5 0 2", "migrate 5 0 0 f", "migrate 5 0 7 f", "migrate 5 1 1 f", "migrate 5 6 6 f", "migrate 5 0 2 f g",
             "migrate 5 0 02 f", "migrate 5 00 2 f", "migrate 5 -1 2 f", "migrate 18446744073709551616 0 2 f", "migrate 5 0 2 f --v2", "migrate 5 0 2 f --fresh"]:
    words(line, "usage")


def make_parser() -> argparse.ArgumentParser:
    return rows_parser("command-rows", __doc__)


def run() -> None:
    write_rows(make_parser(), "commands", given, told)


if __name__ == "__main__":
    run()
