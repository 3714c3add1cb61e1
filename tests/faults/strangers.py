"""What strangers send: datagrams and streams of every kind, while a client puts and reads with account of what it was told."""

from __future__ import annotations

import os
import random
import selectors
import socket
import subprocess
import sys
import tempfile
import threading
import time
from functools import partial
from pathlib import Path
from typing import Callable, Dict, Iterator, List, NamedTuple, Sequence

from nozhgiva import links
from nozhgiva_tools.run.group import NUMBER, Puts
from nozhgiva_tools.told import datafile, formats
from nozhgiva_tools.told.store import Kind, Operation

from . import flood
from .account import Account
from .members import HOST, Members, Prepared
from .table import LeftOut, Outcome, Scenario

FAR, NEWCOMER = "127.0.0.9", "127.0.0.8"
"""Where strangers and newcomers come from: no member is on these machines."""
OTHER, VERSION, OTHER_VERSION = NUMBER + 1, 1, 2
CROWD = 200  # streams to each member
SILENCE = 5.0  # seconds within which each answer comes beside strangers
NEW, ENDED, LOST = 5.0, 1.0, 6.0  # a newcomer's seconds beside a crowd, once it has ended, and where the primary is lost
FLOOD, BLOCKS = 20_000.0, 5_000.0  # datagrams a second
MEASURED = 3  # times at most that this is measured: a busy machine takes from the one more than from the other
HIGH, SHARE = 60_000.0, 0.8  # datagrams a second of another group, and which part they leave of the puts that those of another version do
WHOLE = Operation(Kind.PUT, "k", "v" * 1024).spelled()  # a put of the longest value
GET = Operation(Kind.GET, "k").spelled()
IDLE, SOON = 70, 2.0  # clients on members' machines that ask no more, to each member, and a newcomer's seconds beside them
PATIENCE = 60.0


def request(body: bytes = GET, cluster: int = NUMBER, version: int = VERSION, client: int = 77, number: int = 1) -> bytes:
    return formats.spelled("request", body, cluster=cluster, version=version, client=client, request=number)


def messages(draw: random.Random, cluster: int, version: int) -> List[bytes]:
    """Messages of each kind that members say, of a group and a version."""
    told: Dict[str, Dict[str, int]] = {
        "commit": {}, "start_view_change": {}, "get_view": {}, "get_sync": {}, "prepare_ok": {"op": 1}, "get_prepare": {"op": 1}, "get_block": {"aux": 3}, "reply": {"kind": 5},
    }
    found = [request(WHOLE, cluster, version, draw.randrange(1, 2**64))]
    for command, fields in told.items():
        found.append(formats.spelled(command, b"", cluster=cluster, version=version, replica=draw.randrange(3), view=draw.randrange(9), **fields))
    return found


def garbage(draw: random.Random) -> List[bytes]:
    return [draw.randbytes(draw.choice((draw.randrange(128), draw.randrange(2000), 20_480))) for _ in range(200)]


def sizes(draw: random.Random) -> List[bytes]:
    """Datagrams of all sizes near the limits, empty ones too, each with a header whose size is true, or not."""
    found = []
    for size in [*range(0, 300, 3), 1_500, 9_000, 20_479, 20_480, 20_481, 40_000, 65_507]:
        for told in (size, 0, 128, 20_480, 2**32 - 1):
            found.append((formats.header("request", bytes(max(0, size - 128)), cluster=NUMBER, client=7, request=1, size=told) + bytes(max(0, size - 128)))[:size])
    return found


def spoiled(draw: random.Random) -> List[bytes]:
    """Messages of the group, each with one byte that is another."""
    found = []
    for one in messages(draw, NUMBER, VERSION) * 20:
        at = draw.randrange(len(one))
        found.append(one[:at] + bytes([one[at] ^ draw.randrange(1, 256)]) + one[at + 1:])
    return found


class Heard(threading.Thread):
    """Hears all datagrams to some ports of this machine, for a while, at most so many."""

    MOST = 3_000
    ALL = 0x0003  # every protocol

    def __init__(self, ports: Sequence[int]) -> None:
        super().__init__(daemon=True)
        self.ports, self.datagrams, self.going = ports, [], True  # type: Sequence[int], List[bytes], bool
        try:
            self.socket = socket.socket(socket.AF_PACKET, socket.SOCK_RAW, socket.htons(self.ALL))
            self.socket.bind(("lo", 0))
        except (OSError, AttributeError) as error:
            raise LeftOut(f"nothing can be heard on the network: {error}") from None
        self.socket.settimeout(0.2)

    def run(self) -> None:
        while self.going and len(self.datagrams) < self.MOST:
            try:
                frame = self.socket.recv(65_536)
            except socket.timeout:
                continue
            # Ethernet, IPv4 without options, UDP: the port that it goes to, and what it says.
            if frame[12:14] == b"\x08\x00" and frame[23] == socket.IPPROTO_UDP and int.from_bytes(frame[36:38], "big") in self.ports:
                self.datagrams.append(frame[42:])
        self.socket.close()


def old_ones(members: Members, account: Account) -> List[bytes]:
    """What was said to members while they were asked, a view changed, and one came back."""
    heard = Heard(members.ports)
    heard.start()
    account.work(60, PATIENCE)
    leader = members.leader()
    members.kill(leader)
    account.work(20, PATIENCE)
    members.start(leader)
    account.work(20, PATIENCE)
    heard.going = False
    heard.join()
    return heard.datagrams


def for_blocks(members: Members) -> List[bytes]:
    """Requests for the blocks of a member's checkpoint and for its entries, as other members make them."""
    with open(members.file(0), "rb") as file:
        data = file.read()
    found = []
    for address in datafile.look(members.file(0)).checkpoint.used:
        block = datafile.block_at(data, address)
        found.append(formats.spelled("get_block", cluster=NUMBER, replica=1, parent=block[:16], aux=address))
    return found


class Datagrams(NamedTuple):
    """A row of datagrams: what they are, how many a second, and how they are made, once a group answers."""

    name: str
    rate: float
    make: Callable[[Members, Account, random.Random], List[bytes]]
    short: bool = True
    is_forged: bool = False
    """Whether they seem to come from members: what isn't a request is taken from members' addresses alone."""


DATAGRAMS = (
    Datagrams("garbage", FLOOD, lambda members, account, draw: garbage(draw)),
    Datagrams("of all sizes", FLOOD, lambda members, account, draw: sizes(draw), False),
    Datagrams("messages with one wrong byte", FLOOD, lambda members, account, draw: spoiled(draw), False),
    Datagrams("another group's messages", FLOOD, lambda members, account, draw: messages(draw, OTHER, VERSION)),
    Datagrams("another version's messages", FLOOD, lambda members, account, draw: messages(draw, NUMBER, OTHER_VERSION), False),
    Datagrams("messages with one wrong byte, from members' addresses", FLOOD, lambda members, account, draw: spoiled(draw), False, True),
    Datagrams("another group's messages, from members' addresses", FLOOD, lambda members, account, draw: messages(draw, OTHER, VERSION), True, True),
    Datagrams("another version's messages, from members' addresses", FLOOD, lambda members, account, draw: messages(draw, NUMBER, OTHER_VERSION), False, True),
    Datagrams("old messages again, from members' addresses", FLOOD / 4, lambda members, account, draw: old_ones(members, account), False, True),
    Datagrams("requests for blocks, 20 MB/s of answers, from members' addresses", BLOCKS, lambda members, account, draw: for_blocks(members), True, True),
    Datagrams("members' messages, from strangers", FLOOD, lambda members, account, draw: messages(draw, NUMBER, VERSION) + for_blocks(members)),
)


class Place:
    """What rows of strangers need."""

    def __init__(self, folder: Path, port: int, prepared: Callable[[], Prepared], seconds: float) -> None:
        self.folder, self.port, self.prepared, self.seconds = folder, port, prepared, seconds

    def group(self, scheme: str) -> Members:
        members = Members(self.port, 3, scheme)
        members.lay(self.prepared())
        for r in range(3):
            members.start(r)
        return members

    def sender(self, members: Sequence[str], datagrams: List[bytes], rate: float, seconds: float, is_forged: bool = False) -> "subprocess.Popen[str]":
        """A process that sends them to these addresses, from ports of its own or, as it seems, from those of other members."""
        if is_forged and os.geteuid():
            raise LeftOut("a sender's address is forged by root alone")
        handle, path = tempfile.mkstemp(dir=self.folder)
        os.close(handle)
        flood.write(path, datagrams)
        return subprocess.Popen([sys.executable, flood.__file__, str(seconds), str(rate), path, *members, *["--forged"] * is_forged], stdout=subprocess.PIPE, text=True)


def try_datagrams(place: Place, row: Datagrams, _: int, number: int) -> Outcome:
    with place.group("") as members:
        account = members.account("c", place.prepared().history, number)
        if account.work(4, PATIENCE) < 4:
            return Outcome("no answer before it", wrong="the group doesn't answer")
        datagrams = row.make(members, account, random.Random(number))
        sender = place.sender(members.addresses, datagrams, row.rate, place.seconds, row.is_forged)
        begun = time.monotonic()
        account.work_for(place.seconds)
        done = time.monotonic()
        sent = int(sender.communicate()[0] or 0)
        whole = account.read_all(PATIENCE)
        account.close()
        silence, count = account.longest_silence(begun, done), sum(begun <= at <= done for at in account.answers)
        wrong = members.who_ended() or ("" if whole else "no answer after it") or (f"{silence:.1f} s without an answer" if silence > SILENCE else "")
        return Outcome(f"{sent / (done - begun):,.0f} a second; {count / (done - begun):.0f} answers a second, at most {silence:.2f} s between two", wrong=wrong, lost=len(account.lost()))


def try_share(place: Place, _: int, number: int) -> Outcome:
    """The puts a second beside messages of another version, and of another group, by turns."""
    with place.group("") as members:
        puts = Puts(members)
        puts.await_answers(50)
        leader = members.leader()
        kinds = {"another version's": request(WHOLE, NUMBER, OTHER_VERSION), "another group's": request(WHOLE, OTHER, VERSION)}
        alone = puts.phase(place.seconds)[0]
        shares: List[float] = []
        while len(shares) < MEASURED and max(shares, default=0.0) < SHARE:
            counts, sent = dict.fromkeys(kinds, 0), dict.fromkeys(kinds, 0)
            for turn in range(4):
                for name in sorted(kinds, reverse=bool(turn % 2)):
                    sender = place.sender([members.addresses[leader]], [kinds[name]], HIGH, place.seconds + 0.5)
                    time.sleep(0.5)
                    counts[name] += puts.phase(place.seconds)[0]
                    sent[name] += int(sender.communicate()[0])
            shares.append(counts["another group's"] / max(1, counts["another version's"]))
        wrong = members.who_ended()
        puts.close()
    rates = ", ".join(f"beside {name} {counts[name] / 4 / place.seconds:.0f} ({sent[name] / 4 / (place.seconds + 0.5):,.0f} messages a second)" for name in kinds)
    told = ", ".join(f"{share:.3f}" for share in shares)
    return Outcome(f"puts a second: alone {alone / place.seconds:.0f}, {rates}; {told} of them", wrong=wrong or judge_shares(shares))


def judge_shares(shares: Sequence[float]) -> str:
    """Why what was measured isn't what is promised; an empty text where it is, once."""
    return "" if max(shares) >= SHARE else f"{', '.join(f'{share:.3f}' for share in shares)} are less than {SHARE}"


class Behaviour(NamedTuple):
    """What each stream of a crowd does: what it says at first, and what each so many seconds after that."""

    name: str
    first: Callable[[random.Random], bytes]
    then: Callable[[random.Random], bytes] = lambda _: b""
    each: float = 0.0
    reads: bool = True
    leaves: bool = False  # its machine is gone, without a word
    keeps: bool = False  # it asks all the time as a client does, and so keeps its place: nothing is promised to newcomers meanwhile
    short: bool = False


def nothing(_: random.Random) -> bytes:
    return b""


def asked(draw: random.Random) -> bytes:
    return request(client=draw.randrange(1, 2**64))


BEHAVIOURS = (
    Behaviour("silent", nothing, short=True),
    Behaviour("a byte each 2.5 s", lambda _: b"\x00", lambda _: b"\x00", 2.5, short=True),
    Behaviour("half a header, and silence", lambda draw: asked(draw)[:64]),
    Behaviour("a header, and silence", lambda draw: asked(draw)[:128]),
    Behaviour("one message, and silence", asked),
    Behaviour("a message each 2 s", asked, asked, 2.0),
    Behaviour("a message each 5 s", asked, asked, 5.0),
    Behaviour("another group's message each 0.5 s", lambda _: request(cluster=OTHER), lambda _: request(cluster=OTHER), 0.5),
    Behaviour("garbage", lambda draw: draw.randbytes(4096), lambda draw: draw.randbytes(4096), 0.5),
    Behaviour("asks, and never reads", lambda draw: asked(draw) * 50, lambda draw: asked(draw) * 50, 0.5, reads=False, keeps=True),
    Behaviour("one message, and its machine is gone", asked, leaves=True),
)


class Crowd(threading.Thread):
    """Streams of strangers to each member, of one behaviour. In the place of those that a member ended others are made, ten a second: fewer than the 64 in
    three seconds against which nothing helps."""

    TCP_REPAIR = 19
    AGAIN = 0.1  # seconds from one stream that is made anew to the next

    def __init__(self, members: Members, behaviour: Behaviour, draw: random.Random) -> None:
        super().__init__(daemon=True)
        self.members, self.behaviour, self.draw = members, behaviour, draw
        self.selector = selectors.DefaultSelector()
        self.streams: Dict[socket.socket, float] = {}  # when each says something next
        self.counts = [0] * members.size
        self.places: Dict[socket.socket, int] = {}
        self.going = True

    def visit(self, r: int) -> None:
        """Opens all of them to a member."""
        end = time.monotonic() + 10
        while self.counts[r] < CROWD and time.monotonic() < end:
            self.open(r)

    def open(self, r: int) -> None:
        """One stream, from a machine on which no member is."""
        stream = socket.socket()
        stream.bind((FAR, 0))
        stream.settimeout(1)
        try:
            stream.connect((HOST, self.members.ports[r]))
            stream.setblocking(False)
            stream.send(self.behaviour.first(self.draw))
        except OSError:
            stream.close()
            return
        self.counts[r] += 1
        self.leave(stream) if self.behaviour.leaves else self.take(stream, r)

    def leave(self, stream: socket.socket) -> None:
        """The stream is gone, and nothing tells so."""
        try:
            stream.setsockopt(socket.IPPROTO_TCP, self.TCP_REPAIR, 1)
        except OSError as error:
            raise LeftOut(f"no stream can be left without a word: {error}") from None
        stream.close()

    def take(self, stream: socket.socket, r: int) -> None:
        if self.behaviour.reads:
            self.selector.register(stream, selectors.EVENT_READ)
        self.streams[stream] = time.monotonic() + (self.draw.random() * self.behaviour.each or 1e9)
        self.places[stream] = r

    def run(self) -> None:
        again = 0.0
        while self.going:
            for key, _ in self.selector.select(0.02):
                assert isinstance(key.fileobj, socket.socket)  # nothing else is registered
                self.hear(key.fileobj)
            now = time.monotonic()
            for stream in [one for one, due in self.streams.items() if due <= now]:
                self.say(stream, now)
            if now >= again:
                again = now + self.AGAIN
                for r in range(self.members.size):
                    if self.counts[r] < CROWD:
                        self.open(r)
        for stream in list(self.streams):
            self.drop(stream)

    def hear(self, stream: socket.socket) -> None:
        try:
            if not stream.recv(65_536):
                self.drop(stream)
        except BlockingIOError:
            pass
        except OSError:
            self.drop(stream)

    def say(self, stream: socket.socket, now: float) -> None:
        self.streams[stream] = now + self.behaviour.each
        try:
            stream.send(self.behaviour.then(self.draw))
        except BlockingIOError:
            pass
        except OSError:
            self.drop(stream)

    def drop(self, stream: socket.socket) -> None:
        if self.behaviour.reads:
            self.selector.unregister(stream)
        self.streams.pop(stream)
        self.counts[self.places.pop(stream)] -= 1
        stream.close()

    def end(self) -> None:
        self.going = False
        self.join()


class From:
    """While it lasts, streams that are made here come from another machine."""

    def __init__(self, host: str) -> None:
        self.host, self.made = host, links.stream_socket

    def __enter__(self) -> None:
        def bound(member: links.Found) -> socket.socket:
            one = self.made(member)
            one.bind((self.host, 0))
            return one
        links.stream_socket = bound

    def __exit__(self, *_: object) -> None:
        links.stream_socket = self.made


def newcomer(members: Members, name: str, patience: float = 20.0) -> float:
    """After how many seconds a client that is new, on a machine on which no member is, has its first put answered."""
    with From(NEWCOMER):
        account, begun = members.account(name), time.monotonic()
        account.keys = [name]
        well = account.put(patience)
        account.close()
        return time.monotonic() - begun if well else float("inf")


def try_crowd(place: Place, behaviour: Behaviour, _: int, number: int) -> Outcome:
    with place.group("tcp:") as members:
        account = members.account("c", place.prepared().history, number)
        if account.work(4, PATIENCE) < 4:
            return Outcome("no answer before it", wrong="the group doesn't answer")
        crowd = Crowd(members, behaviour, random.Random(number))
        for r in range(3):
            crowd.visit(r)
        crowd.start()
        beside = []
        for visit in range(3 if place.seconds > 3 else 1):
            beside.append(newcomer(members, f"n{visit}"))
            account.work_for(place.seconds)
        leader = members.leader()
        members.kill(leader)
        lost = newcomer(members, "lost")
        members.start(leader)
        crowd.end()
        after = newcomer(members, "after")
        whole = account.read_all(PATIENCE)
        account.close()
        figures = [("once they had ended", after, NEW)] if behaviour.keeps else [("beside them", max(beside), NEW), ("once the primary was lost", lost, LOST), ("once they had ended", after, ENDED)]
        late = [f"{seconds:.1f} s {what}" for what, seconds, most in figures if seconds > most]
        happened = f"a newcomer is answered after {', '.join(f'{one:.2f}' for one in beside)} s; the primary lost: {lost:.2f} s; once they ended: {after:.2f} s"
        return Outcome(happened, wrong=members.who_ended() or "; ".join(late) or ("" if whole else "no answer after it"), lost=len(account.lost()))


class Idle:
    """Clients on the machines of members, so many to each member: each had one answer, and asks no more."""

    def __init__(self, members: Members, draw: random.Random) -> None:
        self.streams = [self.answered(port, asked(draw)) for port in members.ports for _ in range(IDLE)]

    @staticmethod
    def answered(port: int, message: bytes) -> socket.socket:
        stream = socket.create_connection((HOST, port), PATIENCE, (HOST, 0))
        try:
            stream.sendall(message)
            stream.recv(65_536)
        except ConnectionError:
            pass  # no place was left for it
        return stream

    def close(self) -> None:
        for stream in self.streams:
            stream.close()


def far_rate(account: Account, seconds: float) -> float:
    """How many answers a second a client has that is on a machine on which no member is."""
    with From(FAR):
        begun = time.monotonic()
        account.work_for(seconds)
        ended = time.monotonic()
    return sum(begun <= at <= ended for at in account.answers) / (ended - begun)


def try_idle(place: Place, _: int, number: int) -> Outcome:
    """The answers of a client from afar without and beside clients on members' machines that are idle, by turns."""
    with place.group("tcp:") as members:
        account, draw, told = members.account("c", place.prepared().history, number), random.Random(number), []
        shares: List[float] = []
        late: List[str] = []
        if not far_rate(account, 1.0):
            return Outcome("no answer before it", wrong="the group doesn't answer")
        while len(shares) < MEASURED and max(shares, default=0.0) < SHARE:
            alone = far_rate(account, place.seconds)
            idle = Idle(members, draw)
            beside = far_rate(account, place.seconds)
            new = max(newcomer(members, f"n{len(shares)}.{visit}") for visit in range(3))
            idle.close()
            shares.append(beside / alone)
            late += [f"{new:.1f} s for a newcomer"] if new > SOON else []
            told.append(f"{alone:.0f} answers a second alone, {beside:.0f} beside them, a newcomer's after {new:.2f} s")
        account.close()
        wrong = members.who_ended() or "; ".join(late) or judge_shares(shares)
        return Outcome("; ".join(told), wrong=wrong, lost=len(account.lost()))


def scenarios(folder: Path, port: int, prepared: Callable[[], Prepared], seconds: float, seed: int) -> Iterator[Scenario]:
    """Rows of strangers, each of which lasts for so many seconds, and longer."""
    place = Place(folder, port, prepared, seconds)

    def once() -> List[int]:
        return [seed]

    well = f"answers that fit, none {SILENCE:g} s late; no member ends"
    for row in DATAGRAMS:
        yield Scenario(f"strangers, datagrams: {row.name}", well, once, partial(try_datagrams, place, row), alone=True, short=row.short, seconds=seconds + 3)
    yield Scenario("strangers, datagrams: 60,000 a second of another group", f"{SHARE} of the puts a second that another version's leave", once, partial(try_share, place),
                   alone=True, short=False, seconds=10 * seconds)
    answered = f"a newcomer's answer in {NEW:g} s, {LOST:g} s where the primary is lost, {ENDED:g} s once they end"
    for behaviour in BEHAVIOURS:
        promised = f"answers that fit; a newcomer's in {NEW:g} s once they end" if behaviour.keeps else answered
        yield Scenario(f"strangers, {CROWD} streams to each member: {behaviour.name}", promised, once, partial(try_crowd, place, behaviour), alone=True, short=behaviour.short,
                       seconds=3 * seconds + 10)
    yield Scenario(f"strangers, {IDLE} idle clients on each member's machine", f"{SHARE} of the answers that a client has without them; a newcomer's in {SOON:g} s", once,
                   partial(try_idle, place), alone=True, seconds=3 * seconds + 10)
