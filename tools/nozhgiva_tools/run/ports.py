"""Which processes hold a port or a file of this machine, as /proc tells it: those of other users stay unseen."""

import os
import random
import re
import socket
from typing import Iterator, List, NamedTuple, Optional, Set, Tuple

LISTENS = "0A"  # the state of a socket over TCP that waits for connections
MOST_OF_WORDS = 100
LOOPBACK = "127.0.0.1"
KINDS = (("udp", socket.SOCK_DGRAM), ("tcp", socket.SOCK_STREAM))


class Holder(NamedTuple):
    """A process, by its number and its words."""

    pid: int
    words: str

    def __str__(self) -> str:
        return f"process {self.pid}, {self.words}"


def words_of(pid: int) -> str:
    try:
        with open(f"/proc/{pid}/cmdline", "rb") as file:
            words = file.read().decode(errors="replace").replace("\0", " ").strip()
    except OSError:
        return "which has ended"
    return words if len(words) <= MOST_OF_WORDS else f"{words[:MOST_OF_WORDS]}.."


def open_files() -> Iterator[Tuple[int, str]]:
    """What the processes that can be looked at have open."""
    for name in filter(str.isdigit, os.listdir("/proc")):
        try:
            numbers = os.listdir(f"/proc/{name}/fd")
        except OSError:
            continue
        for number in numbers:
            try:
                yield int(name), os.readlink(f"/proc/{name}/fd/{number}")
            except OSError:
                continue


def sockets_at(port: int) -> Set[str]:
    """The sockets that wait at a port, by their numbers."""
    found = set()
    for kind, _ in KINDS:
        for table in (kind, f"{kind}6"):
            try:
                with open(f"/proc/net/{table}", encoding="ascii") as file:
                    rows = [line.split() for line in file][1:]
            except OSError:
                continue
            found |= {row[9] for row in rows if row[1].endswith(f":{port:04X}") and (kind == "udp" or row[3] == LISTENS)}
    return found


def of_ports(ports: List[int]) -> List[str]:
    """Who holds some of these ports: a line each."""
    lines = []
    for port in ports:
        wanted = {f"socket:[{number}]" for number in sockets_at(port)}
        holders = sorted({pid for pid, link in open_files() if link in wanted})
        lines += [f"port {port}: {Holder(pid, words_of(pid))}" for pid in holders]
        if wanted and not holders:
            lines.append(f"port {port}: a process of another user")
    return lines


def of_files(folder: str, names: "re.Pattern[str]") -> List[Holder]:
    """The processes, this one aside, that have one of these files of a folder open."""
    found = set()
    for pid, link in open_files():
        path = link[:-len(" (deleted)")] if link.endswith(" (deleted)") else link
        if os.path.dirname(path) == folder and names.fullmatch(os.path.basename(path)) and pid != os.getpid():
            found.add(pid)
    return [Holder(pid, words_of(pid)) for pid in sorted(found)]


def are_free(ports: List[int]) -> bool:
    """Whether these ports of loopback are free, over UDP and TCP."""
    held = []
    try:
        for _, kind in KINDS:
            for port in ports:
                held.append(socket.socket(socket.AF_INET, kind))
                held[-1].bind((LOOPBACK, port))
        return True
    except OSError:
        return False
    finally:
        for one in held:
            one.close()


def free(count: int) -> List[int]:
    """So many ports of loopback that nobody has, over UDP and TCP."""
    found: List[int] = []
    while len(found) < count:
        with socket.socket(socket.AF_INET, socket.SOCK_STREAM) as one:
            one.bind((LOOPBACK, 0))
            port: int = one.getsockname()[1]
        if port not in found and are_free([port]):
            found.append(port)
    return found


def free_addresses(count: int) -> List[str]:
    """The same as addresses."""
    return [f"{LOOPBACK}:{port}" for port in free(count)]


def free_run(count: int) -> Optional[int]:
    """The first of so many free ports in a row, drawn by chance; None where none are found."""
    tries = (random.randrange(10000, 30000) for _ in range(100))
    return next((first for first in tries if are_free(list(range(first, first + count)))), None)


def first_of(count: int) -> int:
    """The first of so many free ports in a row; where none are found, one that this process alone draws."""
    return free_run(count) or 20000 + os.getpid() * 7 % 9000
