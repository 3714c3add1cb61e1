"""Whether a member may be made: what its group answers at the addresses, and what a group that runs sends to the address of the new member. And what is to be said
of the disk that it is made on: the unit in which that writes, as the kernel tells it, since the promises rest on one of 512 bytes (docs/NODE.md)."""

import errno
import os
import selectors
import socket
import time
from typing import Dict, List, NamedTuple, Optional

from nozhgiva_tools.told import datafile

from .probing import HEADER, LARGEST, Probe, TCP, places_of

PREPARE, COMMIT, START_VIEW = 6, 8, 11
TOLD = (PREPARE, COMMIT, 10, START_VIEW, 14, 19)  # messages of a member that hold the number of an operation of its log
LEADING = (COMMIT, START_VIEW)  # those in which whoever leads tells of its whole log
PATIENCE, HEARING = 1.0, 3.0  # seconds for the answers, and for what a primary sends: it does each 100 ms, once it has a stream
ADVICE = ("A member that lost its file can't be made again: it would have forgotten what it promised. A group that still answers is moved to a new one "
          "(docs/BACKUP.md); --anyway makes it all the same")


class Heard(NamedTuple):
    """What was heard of a group. `numbers`: the members that run, and where each answered, if one of the addresses did. `head`: the greatest number of an operation that one of
    them told of, 0 where the primary's log is empty; None where nobody told."""

    numbers: Dict[int, Optional[int]]
    head: Optional[int]


def messages(data: bytes) -> List[bytes]:
    """The headers of the whole messages at the front of these bytes, and nothing from the first on that is none."""
    found = []
    while len(data) >= HEADER.size and datafile.name(data[16:HEADER.size]) == data[:16]:
        size = datafile.number(data, 104, 4)
        found.append(data[:HEADER.size])
        data = data[max(size, HEADER.size):]
    return found


class Ear:
    """Hears at the address of a member that isn't there yet. `why`: why it can't, empty where it does."""

    def __init__(self, cluster: int, size: int, address: str) -> None:
        self.cluster, self.size, self.why = cluster, size, ""
        self.members: Dict[int, Optional[int]] = {}
        self.head: Optional[int] = None
        self.selector = selectors.DefaultSelector()
        self.is_stream = address.startswith(TCP)
        try:
            self.open(*places_of(address)[0])
        except OSError as error:
            self.why = f"{address} is taken by another process" if error.errno == errno.EADDRINUSE else f"{address} isn't of this machine ({error.strerror or error})"

    def open(self, host: str, port: int) -> None:
        kind = socket.SOCK_STREAM if self.is_stream else socket.SOCK_DGRAM
        family, kind, _, _, where = socket.getaddrinfo(host, port, type=kind)[0]
        one = socket.socket(family, kind)
        try:
            one.setblocking(False)
            if self.is_stream:
                one.setsockopt(socket.SOL_SOCKET, socket.SO_REUSEADDR, 1)
            one.bind(where)
            if self.is_stream:
                one.listen()
        except OSError:
            one.close()
            raise
        self.selector.register(one, selectors.EVENT_READ, self.accept if self.is_stream else self.hear)

    def accept(self, listener: socket.socket) -> None:
        stream, _ = listener.accept()
        stream.setblocking(False)
        self.selector.register(stream, selectors.EVENT_READ, self.hear)

    def hear(self, one: socket.socket) -> None:
        data = one.recv(LARGEST)
        if not data and self.is_stream:
            self.selector.unregister(one)
            one.close()
        for header in messages(data):
            self.take(header)

    def take(self, header: bytes) -> None:
        _, _, _, _, of, _, _, _, op, commit, _, command, replica, _, _, _, _ = HEADER.unpack(header)
        if of != self.cluster or replica >= self.size or command < PREPARE:
            return
        self.members.setdefault(replica, None)
        if command in TOLD and (op or commit or command in LEADING):
            self.head = max(self.head or 0, op, commit)

    def listen(self, seconds: float) -> None:
        """Hears for so long, or until it is clear that the log isn't empty."""
        until = time.monotonic() + seconds
        while self.selector.get_map() and not self.head and time.monotonic() < until:
            for key, _ in self.selector.select(max(0.0, until - time.monotonic())):
                try:
                    key.data(key.fileobj)
                except OSError:
                    pass  # Nothing came, or its stream is gone.

    def close(self) -> None:
        for key in list(self.selector.get_map().values()):
            if isinstance(key.fileobj, socket.socket):
                key.fileobj.close()
        self.selector.close()


def refusal(cluster: int, member: int, addresses: List[str], patience: float = PATIENCE) -> str:
    """Why this member may not be made, by what its group answers; an empty text where it may be."""
    probe = Probe(cluster, addresses)
    probe.ask(patience)
    if len(probe.refused) == len(addresses):
        return ""
    ear = Ear(cluster, len(addresses), addresses[member])
    ear.listen(HEARING)
    ear.close()
    running: Dict[int, Optional[int]] = {**ear.members, **{number: place for place, number in probe.places.items()}}
    return judge(cluster, member, addresses, Heard(running, ear.head), ear.why)


def judge(cluster: int, member: int, addresses: List[str], heard: Heard, deaf: str) -> str:
    """The same, by what was heard. `deaf`: why nothing could be heard at the member's own address, if that is so."""
    if member in heard.numbers:
        return f"member {member} of group {cluster} runs{where(addresses, heard.numbers[member])}. {ADVICE}"
    if not heard.numbers:
        return ""
    number, place = next(iter(sorted(heard.numbers.items())))
    who = f"member {number} of group {cluster} runs{where(addresses, place)}"
    if heard.head:
        return f"{who}, and the group's log has {heard.head} operations. {ADVICE}"
    if heard.head is None:
        return (f"{who}, and whether its log is empty can't be heard here ({deaf or 'no member leads'}). In a new group end the members that run, and make all members before one is "
                f"started. {ADVICE}")
    return ""


def where(addresses: List[str], place: Optional[int]) -> str:
    return "" if place is None else f" at {addresses[place]}"


def physical_sector(folder: str, system: str = "/sys", mounts: str = "/proc/self/mountinfo") -> Optional[int]:
    """The bytes of a physical sector of the disk that a folder is on; None where the kernel doesn't tell, as of a network's or of memory."""
    device = os.stat(folder).st_dev
    number = f"{os.major(device)}:{os.minor(device)}"
    found = sector_of(number, system)
    if found is None:
        source = source_of(number, mounts)
        found = sector_of(source, system) if source else None
    return found


def sector_of(number: str, system: str) -> Optional[int]:
    """That of a block device, or of the disk that a partition is of."""
    for folder in ("", ".."):
        try:
            with open(os.path.join(system, "dev", "block", number, folder, "queue", "physical_block_size"), encoding="ascii") as file:
                return int(file.read())
        except (OSError, ValueError):
            pass
    return None


def source_of(number: str, mounts: str) -> Optional[str]:
    """The block device behind a file system whose own number is none, as btrfs has it."""
    try:
        with open(mounts, encoding="utf-8", errors="replace") as file:
            lines = [line.split() for line in file]
        source = next(words[words.index("-") + 2] for words in lines if words[2] == number)
        device = os.stat(source).st_rdev
    except (OSError, StopIteration, IndexError, ValueError):
        return None
    return f"{os.major(device)}:{os.minor(device)}" if device else None


def warning(folder: str, sector: Optional[int]) -> str:
    """What to say of a disk before a member is made on it; an empty text where there is nothing to say."""
    if sector is None or sector <= datafile.SECTOR:
        return ""
    return (f"the disk of {folder} has physical sectors of {sector} bytes, and the promises rest on sectors of {datafile.SECTOR} (docs/NODE.md): a power failure may damage what was "
            f"synced long ago beside what is written. Take a disk with physical sectors of {datafile.SECTOR} bytes (`lsblk -o NAME,PHY-SEC`), or one that is protected against power loss")
