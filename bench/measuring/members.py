"""Members of a group on loopback: of the built program, of the floor of the rules, and of etcd. They are started, waited for, asked and ended here alone."""

import contextlib
import os
import re
import signal
import socket
import subprocess
import time
from pathlib import Path
from typing import Callable, Dict, Iterator, List, NamedTuple, Optional, Sequence

from nozhgiva_tools.run import ports as holders
from nozhgiva_tools.run.group import CLIENT_TURNS, client_words, node_words, NUMBER, TURNS

from . import reading, Refused
from .places import Place

VALUE = "v" * 100
KEYS = 10  # that a client puts in turn
PATIENCE = 20.0  # seconds until members are there
SETTLES = 0.5  # seconds from then until they are asked
PAUSE = 0.02
TRACER = re.compile(r"^TracerPid:\s*([1-9]\d*)", re.M)


class Pace(NamedTuple):
    """How fast clients side by side were answered: puts a second, and the microseconds of one."""

    rate: float
    times: reading.Times

    def __str__(self) -> str:
        return f"{self.rate:,.0f} puts a second; {told(self.times)} µs"


def told(times: reading.Times) -> str:
    """A cell of the page: median, 99 of 100, mean."""
    return f"{times.median:,.0f}, {times.tail:,.0f}, {times.mean:,.0f}"


def await_that(is_so: Callable[[], bool], what: str, most: float = PATIENCE) -> None:
    """Waits until it is so."""
    until = time.monotonic() + most
    while not is_so():
        if time.monotonic() > until:
            raise Refused(f"{what} not in {most:.0f} s")
        time.sleep(PAUSE)


class Members:
    """Members that run until they are ended, or their place goes. They are of three programs that are measured alike, so those of this one are no `Group` of
    nozhgiva_tools.run.group; their words are from there."""

    kind = "group"

    def __init__(self, place: Place, size: int = 3, ports: int = 3) -> None:
        first = holders.free_run(ports)
        if first is None:
            raise Refused(f"no {ports} ports in a row are free")
        self.place, self.size, self.port = place, size, first
        self.children: Dict[int, "subprocess.Popen[bytes]"] = {}

    def start(self, member: int, before: Sequence[str] = ()) -> None:
        raise NotImplementedError

    def client(self, number: int, times: Path) -> List["subprocess.Popen[bytes]"]:
        """Starts a client that puts one after the other; the microseconds between its answers go to a file."""
        raise NotImplementedError

    def start_all(self) -> None:
        for member in range(self.size):
            self.start(member)
        self.await_all()

    def await_all(self) -> None:
        """Waits until all that were started hear at their ports."""
        for member in self.children:
            self.await_one(member)
        time.sleep(SETTLES)

    def await_one(self, member: int) -> None:
        def hears() -> bool:
            if self.children[member].poll() is not None:
                raise Refused(f"member {member} of the {self.kind} ends with status {self.children[member].returncode}{self.last_word(member)}")
            return bool(holders.sockets_at(self.port + member))
        await_that(hears, f"member {member} of the {self.kind} hears at its port")

    def said(self, member: int) -> Path:
        """Where it writes what it says on standard error."""
        return self.place / f"{self.kind}.{member}.err"

    def last_word(self, member: int) -> str:
        path = self.said(member)
        lines = path.read_text(encoding="utf-8", errors="replace").split("\n") if path.exists() else []
        return "".join(f": {line}" for line in lines if line)

    def file(self, member: int) -> Path:
        return self.place / f"{self.kind}.{member}"

    def begin(self, member: int, words: Sequence[object], given: int = subprocess.DEVNULL, keeps: bool = False) -> None:
        """Starts a member with these words; what it puts out is kept where that is wanted."""
        out = open(self.lines(member), "wb") if keeps else open(os.devnull, "wb")
        with out, open(self.said(member), "wb") as err:
            self.children[member] = self.place.start([str(word) for word in words], given, out, err)

    def lines(self, member: int) -> Path:
        return self.place / f"{self.kind}.{member}.lines"

    def end(self, most: float = 5.0) -> None:
        self.place.end(list(self.children.values()), most)
        self.children = {}

    def kill(self, member: int) -> None:
        """Ends a member as a power failure would, but for what the system has of its writes."""
        child = self.children.pop(member)
        child.send_signal(signal.SIGKILL)
        child.wait()
        self.place.forget(child)

    def busy(self) -> List[int]:
        """The nanoseconds of a processor that each member took so far, the system's among them."""
        return [int(Path(f"/proc/{child.pid}/schedstat").read_text(encoding="ascii").split()[0]) for child in self.children.values()]


class Program(Members):
    """Members of the built program, each on a new file."""

    def __init__(self, place: Place, program: str, puts: int, size: int = 3, scheme: str = "", more: Sequence[str] = ()) -> None:
        super().__init__(place, size, size)
        self.program, self.puts, self.more = program, puts, list(more)
        self.addresses = [f"{scheme}127.0.0.1:{self.port + member}" for member in range(size)]
        self.clients = 100  # the number of the last one that asked
        self.keeps = False

    def start(self, member: int, before: Sequence[str] = ()) -> None:
        self.begin(member, [*before, *node_words(self.program, NUMBER, member, self.file(member), TURNS, self.addresses, "--fresh", *self.more)], keeps=self.keeps)

    def asking(self) -> List[str]:
        """The words of a client with a number that no other had."""
        self.clients += 1
        return client_words(self.program, NUMBER, self.clients, CLIENT_TURNS, self.addresses, *self.more)

    def client(self, number: int, times: Path) -> List["subprocess.Popen[bytes]"]:
        return self.stamped(puts(self.place, self.puts, number), times)

    def stamped(self, given: Path, times: Path, *how: str) -> List["subprocess.Popen[bytes]"]:
        with open(given, "rb") as stdin:
            asker = self.place.start(self.asking(), stdin, subprocess.PIPE)
        return [asker, stamp(self.place, asker, times, *how)]


def puts(place: Place, count: int, client: int) -> Path:
    """The lines of a client: puts of 100 bytes at ten keys of its own."""
    path = place / f"puts.{client}.{count}"
    if not path.exists():
        path.write_text("".join(f"put c{client}k{turn % KEYS} {VALUE}\n" for turn in range(count)), encoding="ascii")
    return path


def stamp(place: Place, asker: "subprocess.Popen[bytes]", times: Path, *how: str) -> "subprocess.Popen[bytes]":
    """Writes the microseconds between the lines that an asker writes to a file."""
    assert asker.stdout is not None
    with open(times, "wb") as out:
        child = place.start([place / "stamp", *how], asker.stdout, out)
    asker.stdout.close()
    return child


class Floor(Members):
    """Members of the small C program, which make the same system calls with no protocol between them."""

    kind = "floor"

    def __init__(self, place: Place, puts_of_one: int) -> None:
        super().__init__(place)
        self.puts = puts_of_one

    def start(self, member: int, before: Sequence[str] = ()) -> None:
        self.begin(member, [*before, self.place / "floor", "member", member, self.file(member), self.port], given=subprocess.PIPE)

    def client(self, number: int, times: Path) -> List["subprocess.Popen[bytes]"]:
        asker = self.place.start([self.place / "floor", "ask", str(self.port), str(self.puts)], out=subprocess.PIPE)
        return [asker, stamp(self.place, asker, times)]


class Etcd(Members):
    """Members of etcd, each asked at the leader."""

    kind = "etcd"

    def __init__(self, place: Place, puts_of_one: int) -> None:
        super().__init__(place, ports=6)
        self.puts, self.leader = puts_of_one, 0
        self.peers = [f"http://127.0.0.1:{self.port + 3 + member}" for member in range(self.size)]

    def start(self, member: int, before: Sequence[str] = ()) -> None:
        own, peer = f"http://127.0.0.1:{self.port + member}", self.peers[member]
        group = ",".join(f"m{number}={url}" for number, url in enumerate(self.peers))
        self.begin(member, [
            *before, "etcd", "--name", f"m{member}", "--data-dir", self.file(member), "--listen-client-urls", own, "--advertise-client-urls", own,
            "--listen-peer-urls", peer, "--initial-advertise-peer-urls", peer, "--initial-cluster", group])

    def await_all(self) -> None:
        """Waits until one says among its figures that it leads."""
        def has_leader() -> bool:
            self.leader = next((self.port + member for member in self.children if leads(self.port + member)), 0)
            return self.leader != 0
        await_that(has_leader, "a member of etcd leads")
        time.sleep(2 * SETTLES)

    def client(self, number: int, times: Path) -> List["subprocess.Popen[bytes]"]:
        with open(times, "wb") as out:
            return [self.place.start([self.place / "etcd", str(self.leader), str(self.puts), str(number)], out=out)]


def leads(port: int) -> bool:
    """Whether the member of etcd at this port says that it leads."""
    try:
        with socket.create_connection(("127.0.0.1", port), 1.0) as stream:
            stream.sendall(b"GET /metrics HTTP/1.0\r\n\r\n")
            answer = b"".join(iter(lambda: stream.recv(65536), b""))
    except OSError:
        return False
    return b"\netcd_server_is_leader 1" in answer


def side_by_side(members: Members, clients: int, count: int) -> Pace:
    """So many clients at once, each with so many puts."""
    place = members.place
    files = [place / f"times.{client}" for client in range(1, clients + 1)]
    for client in range(1, clients + 1):
        puts(place, count, client)
    begun = time.monotonic()
    children = [child for client, path in enumerate(files, 1) for child in members.client(client, path)]
    for child in children:
        child.wait()
    took = time.monotonic() - begun
    for child in children:
        place.forget(child)
    found = [reading.times_in(path.read_text(encoding="ascii")) for path in files]
    for client, times in enumerate(found, 1):
        if len(times) < count - 1:
            raise Refused(f"client {client} of {clients} ({members.kind}) got {len(times)} answers of {count}")
    return Pace(clients * count / took, reading.times_of(one for times in found for one in times))


@contextlib.contextmanager
def traced(place: Place, pid: int, only: Optional[str] = None) -> Iterator[Path]:
    """Has strace count the system calls of a process meanwhile; where its table stands afterwards."""
    table = place / "calls"
    tracer = place.start(["strace", "-c", "-f", *(("-e", f"trace={only}") if only else ()), "-o", table, "-p", str(pid)])
    await_that(lambda: is_traced(pid), f"strace looks at process {pid}")
    yield table
    tracer.send_signal(signal.SIGINT)
    tracer.wait()
    place.forget(tracer)


def is_traced(pid: int) -> bool:
    return bool(TRACER.search(Path(f"/proc/{pid}/status").read_text(encoding="ascii", errors="replace")))
