"""Runs of three members, which are the same each time: their clocks stand still, so that nobody ticks, and each line rests on messages alone."""

from __future__ import annotations

import contextlib
import os
import shutil
import socket
import time
from functools import partial
from pathlib import Path
from typing import Callable, Dict, Iterator, Optional

from nozhgiva_tools.places import ROWS
from nozhgiva_tools.run import ports
from nozhgiva_tools.run.group import Group, SIZE
from nozhgiva_tools.run.nets import Net
from tests.faults.shim import read_counts, Shim

from . import Case, Given, ran
from .cases import CLUSTER, Prepared

BACKUP = 2  # it is ended in the midst, and started again
FIRST, SECOND = 7, 8  # clients
PUTS, MORE_PUTS = 70, 40  # the first come to a checkpoint
WAITS = 30.0  # seconds


class Stuck(Exception):
    """Members don't come to what they have to come to, in words."""


def await_that(holds: Callable[[], bool], what: str) -> None:
    end = time.monotonic() + WAITS
    while not holds():
        if time.monotonic() > end:
            raise Stuck(what)
        time.sleep(0.005)


class Members(Group):
    """Members of one program, over UDP. Under a shim their clocks stand still."""

    def __init__(self, program: str, shim: Optional[Shim] = None) -> None:
        super().__init__(Net(SIZE, ports.free(SIZE)), "", program=program)
        self.shim = shim

    def environment(self, r: int) -> Dict[str, str]:
        if self.shim is None:
            return dict(os.environ)
        return self.shim.environment(self.counts(r), CLOCK_AT=1, CLOCK_BY=0, CLOCK_RATE=0)

    def counts(self, r: int) -> str:
        return f"{self.folder}/counts.{r}"

    def received(self, r: int) -> int:
        """How often a member under a shim has begun to receive."""
        count: int = read_counts(self.counts(r)).of["receive"]
        return count

    def begin(self, r: int, *more: str) -> None:
        """Starts a member, and waits until it receives."""
        self.start(r, *more, env=self.environment(r))
        await_that(lambda: waiting(self.ports[r]) is not None, f"member {r} doesn't start")

    def lines(self, r: int) -> bytes:
        return Path(self.folder, f"{r}.text").read_bytes()

    def puts(self, client: int, count: int) -> bytes:
        """Asks puts, a get and a delete, and gives the answers."""
        lines = [*(f"put k{at % 10} {client}-{at}" for at in range(count)), "get k1", "del k1", "get k1"]
        asked = ran(self.program, self.asking(client)[1:], "".join(f"{line}\n" for line in lines).encode())
        return b"status " + asked["status"] + b"\n" + asked.get("output", b"") + asked.get("errors", b"")

    def settle(self, ops: int) -> None:
        """Waits until each backup has acknowledged the last op, and applied the one before."""
        for r in range(1, SIZE):
            await_that(lambda: f"commit {r} op {ops - 1} ".encode() in self.lines(r), f"member {r} doesn't apply op {ops - 1}")

    def given(self) -> Given:
        """What all members have written; they are ended."""
        given: Given = {}
        for r in range(SIZE):
            self.kill(r)
            for name, path in (("lines", f"{r}.text"), ("errors", f"{r}.err"), ("file", str(r))):
                with contextlib.suppress(FileNotFoundError):
                    given[f"member {r}, {name}"] = Path(self.folder, path).read_bytes()
        return given


def waiting(port: int) -> Optional[int]:
    """How many bytes wait at a UDP port of this machine; None where nobody has it."""
    for line in Path("/proc/net/udp").read_text(encoding="ascii").splitlines()[1:]:
        fields = line.split()
        if fields[1].endswith(f":{port:04X}"):
            return int(fields[4].partition(":")[2], 16)
    return None


def talk(shim: Shim, program: str, folder: str) -> Given:
    """Clients ask three members, one of which is ended in the midst and started again: answers, lines and files."""
    with Members(program, shim) as members:
        for r in range(SIZE):
            members.begin(r, "--fresh")
        answers = members.puts(FIRST, PUTS)
        ops = 1 + PUTS + 3
        members.settle(ops)
        members.kill(BACKUP)
        members.begin(BACKUP)
        answers += members.puts(SECOND, MORE_PUTS)
        members.settle(ops + 1 + MORE_PUTS + 3)
        return {"answers": answers, **members.given()}


def datagrams() -> socket.socket:
    return socket.socket(socket.AF_INET, socket.SOCK_DGRAM)


def hear_strangers(shim: Shim, program: str, folder: str) -> Given:
    """A member is sent each message of tests/rows/messages, right ones and spoiled ones, from a peer's port and from a stranger's: its lines, its file,
    and the bytes that it sends there."""
    with Members(program, shim) as members, datagrams() as peer, datagrams() as stranger:
        host, _, port = members.addresses[1].partition(":")
        peer.bind((host, int(port)))
        members.begin(0, "--fresh")
        own = members.ports[0]
        for data in messages():
            for sender in (peer, stranger):
                sender.sendto(data, (host, own))
                await_that(lambda: not waiting(own), "a datagram isn't taken")
        # What it received last is done once it receives again.
        seen = members.received(0)
        await_that(lambda: members.received(0) > seen + 1, "the member doesn't go on")
        sent = {f"sent to the {who}, {at}": data for who, there in (("peer", peer), ("stranger", stranger)) for at, data in enumerate(arrived(there))}
        return {**members.given(), **sent}


def messages() -> Iterator[bytes]:
    """The messages of tests/rows/messages."""
    pieces: Dict[str, str] = {}
    for line in (ROWS / "messages" / "stdin").read_text(encoding="ascii").splitlines():
        kind, _, rest = line.partition(" ")
        if kind == "piece":
            name, _, pieces[name] = rest.partition(" ")
        elif kind == "message":
            yield bytes.fromhex("".join(pieces.get(word, word) for word in rest.split()))


def arrived(at: socket.socket) -> Iterator[bytes]:
    """The datagrams that came there."""
    at.setblocking(False)
    with contextlib.suppress(BlockingIOError):
        while True:
            yield at.recv(1 << 16)


def trial(scheme: str, program: str, folder: str) -> Given:
    """The program's own trial: it starts three members, kills the primary, and asks on."""
    numbers = ports.free(SIZE)
    return ran(program, ["trial", CLUSTER, "10000", f"{folder}/", *(f"{scheme}127.0.0.1:{port}" for port in numbers)])


def cases(shim: Optional[Shim]) -> Iterator[Case]:
    if shim is not None:
        standing = shim
        yield Case("group: three members", lambda program, folder: talk(standing, program, folder))
        yield Case("group: a member among strangers", lambda program, folder: hear_strangers(standing, program, folder))
    for name, scheme in (("UDP", ""), ("TCP", "tcp:")):
        yield Case(f"group: trial over {name}", partial(trial, scheme))


def prepare(program: str, folder: str) -> Prepared:
    """Makes a data file with entries and a checkpoint."""
    with Members(program) as members:
        for r in range(SIZE):
            members.begin(r, "--fresh")
        members.puts(FIRST, PUTS)
        for r in range(SIZE):
            members.kill(r)
        kept = shutil.copyfile(members.file(0), f"{folder}/prepared")
        return Prepared(kept, tuple(members.addresses))
