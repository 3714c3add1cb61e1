"""Counts what a put takes in a group of three, of the built program and of etcd, and how long each stands still when its primary is lost.
  bench/beside [FOLDER [PUTS]]     FOLDER for the members' files (a new one in /tmp without it), PUTS in each count (300)

Both run on this machine in one run, in a network of their own (so that nothing else is counted; needs root, unshare and ip), asked by one
client that puts 100 bytes at ten keys in turn: the program's `client`, and bench/node/etcd.c at etcd's leader.
- Bytes and packets on the loopback, those of an idle group in the same time taken off.
- Of primary and backups: syncs, writes to files and the bytes of these (strace). etcd's log and its database are told apart, since it
  writes the second by the clock, every 100 ms.
- From the moment at which the primary is killed, or stopped in its tracks, to the next put that is answered, by clients that ask the others
  again after 50 ms: clients/python, and etcd's gateway for JSON. The median of five.
Where other work goes on, run it at real-time priority (chrt -f 10 bench/beside): the counts hardly change, but times would."""

import http.client
import json
import os
import re
import shutil
import signal
import statistics
import subprocess
import sys
import tempfile
import time
from abc import ABC, abstractmethod
from pathlib import Path
from typing import Callable, Dict, List, NamedTuple, Optional, Sequence, Tuple, TypeVar

from nozhgiva import Group, Retry
from nozhgiva_tools.places import TOP, words_of_module
from nozhgiva_tools.run import program
from nozhgiva_tools.run.group import CLIENT_TURNS, client_words, node_words, NUMBER, TURNS

SIZE = 3
VALUE = "v" * 100
PAUSE = 0.05
TIMES = 5
IDLE = 5.0
PATIENCE = 60.0
CALLS = "fsync,fdatasync,write,writev,pwrite64,pwritev"
LINE = re.compile(r"(\w+)\(\d+<([^>]*)>(?:.*= (\d+))?")


Counts = Dict[str, List[float]]
"""Of each kind of file: syncs, writes, and bytes written, a put."""
Thing = TypeVar("Thing")


class Members(ABC):
    """A group that runs, of this program or of etcd, whose calls are counted alike; `primary` is the place of the member that leads."""

    name: str

    def __init__(self, folder: str) -> None:
        self.folder = tempfile.mkdtemp(dir=folder)
        self.children: List["subprocess.Popen[bytes]"] = []
        self.primary = 0

    @abstractmethod
    def puts(self, count: int) -> None:
        """So many puts, one after the other."""

    @abstractmethod
    def put(self) -> None:
        """A put, which is asked again until it is answered."""

    @abstractmethod
    def changes(self) -> int:
        """How often the view was changed, where that is told."""

    @abstractmethod
    def kind(self, path: str) -> str:
        """What a file of a member is."""

    def start(self, words: Sequence[str]) -> None:
        with open(f"{self.folder}/text.{len(self.children)}", "wb") as text:
            self.children.append(subprocess.Popen(words, stdout=text, stderr=subprocess.DEVNULL))

    def signal_primary(self, number: int) -> None:
        self.children[self.primary].send_signal(number)

    def end(self) -> None:
        for child in self.children:
            child.kill()
            child.wait()


class Program(Members):
    def __init__(self, folder: str, scheme: str = "") -> None:
        super().__init__(folder)
        self.name = f"group over {'TCP' if scheme else 'UDP'}"
        self.addresses = [f"{scheme}127.0.0.1:{4000 + member}" for member in range(SIZE)]
        for member in range(SIZE):
            self.start(node_words(program.or_end(), NUMBER, member, f"{self.folder}/{member}", TURNS, self.addresses, "--fresh"))
        self.group = Group(NUMBER, self.addresses, timeout=PATIENCE, retry=Retry(first=PAUSE, factor=1.0, most=PAUSE, jitter=0.0))
        self.session = self.group.register()
        self.client = 100

    def puts(self, count: int) -> None:
        """Puts by a client with a number of its own, which registers first."""
        self.client += 1
        lines = "".join(f"put k{number % 10} {VALUE}\n" for number in range(count))
        words = client_words(program.or_end(), NUMBER, self.client, CLIENT_TURNS, self.addresses)
        subprocess.run(words, input=lines.encode(), stdout=subprocess.DEVNULL, check=True)

    def put(self) -> None:
        self.session.put("k", VALUE)

    def changes(self) -> int:
        """How often a member has entered a view, or said that it is still changing it."""
        return sum(Path(f"{self.folder}/text.{member}").read_text().count(" start_view_change ") for member in range(SIZE))

    def kind(self, path: str) -> str:
        return "file"


class Etcd(Members):
    name = "etcd"

    def __init__(self, folder: str, client: str) -> None:
        super().__init__(folder)
        self.client = client
        urls = [f"http://127.0.0.1:{5010 + member}" for member in range(SIZE)]
        group = ",".join(f"m{member}={url}" for member, url in enumerate(urls))
        for member, url in enumerate(urls):
            own = f"http://127.0.0.1:{5000 + member}"
            self.start(["etcd", "--name", f"m{member}", "--data-dir", f"{self.folder}/{member}", "--listen-client-urls", own, "--advertise-client-urls", own,
                        "--listen-peer-urls", url, "--initial-advertise-peer-urls", url, "--initial-cluster", group])
        self.primary = wait_for(lambda: next((member for member in range(SIZE) if self.leads(member)), None))
        self.asked = self.primary
        self.put()

    def leads(self, member: int) -> bool:
        try:
            connection = http.client.HTTPConnection("127.0.0.1", 5000 + member, timeout=1.0)
            connection.request("GET", "/metrics")
            return b"\netcd_server_is_leader 1" in connection.getresponse().read()
        except OSError:
            return False

    def changes(self) -> int:
        """It isn't told."""
        return 0

    def puts(self, count: int) -> None:
        subprocess.run([self.client, str(5000 + self.primary), str(count), "1"], stdout=subprocess.DEVNULL, check=True)

    def put(self) -> None:
        """A put by the gateway, at one member after the other until it is answered."""
        body = json.dumps({"key": "aw==", "value": "dg=="})
        while True:
            begun = time.monotonic()
            try:
                connection = http.client.HTTPConnection("127.0.0.1", 5000 + self.asked, timeout=PAUSE * 4)
                connection.request("POST", "/v3/kv/put", body)
                if connection.getresponse().status == http.client.OK:
                    return
            except OSError:
                pass
            self.asked = (self.asked + 1) % SIZE
            time.sleep(max(0.0, PAUSE - (time.monotonic() - begun)))

    def kind(self, path: str) -> str:
        return "log" if "/wal/" in path else "database"


def wait_for(what: Callable[[], Optional[Thing]]) -> Thing:
    end = time.monotonic() + PATIENCE
    while (found := what()) is None:
        if time.monotonic() > end:
            sys.exit("a group doesn't come up")
        time.sleep(0.1)
    return found


class Brought(NamedTuple):
    """Bytes and packets that the loopback has brought, and when."""

    bytes: int
    packets: int
    when: float


def loopback() -> Brought:
    line = next(line for line in Path("/proc/net/dev").read_text().splitlines() if line.strip().startswith("lo:"))
    fields = line.split(":")[1].split()
    return Brought(int(fields[0]), int(fields[1]), time.monotonic())


def wire(members: Members, puts: int) -> Tuple[float, float]:
    """Bytes and packets a put, without those of an idle group."""
    before = loopback()
    time.sleep(IDLE)
    idle = loopback()
    members.puts(puts)
    after = loopback()
    share = (after.when - idle.when) / (idle.when - before.when)
    size = after.bytes - idle.bytes - (idle.bytes - before.bytes) * share
    packets = after.packets - idle.packets - (idle.packets - before.packets) * share
    return size / puts, packets / puts


def disk(members: Members, puts: int) -> List[Counts]:
    """What each member wrote; again where the view was changed meanwhile, as it may where the machine is busy."""
    for _ in range(TIMES):
        before = members.changes()
        counts = traced(members, puts)
        if members.changes() == before:
            return counts
    sys.exit(f"{members.name}: its view changes each time")


def traced(members: Members, puts: int) -> List[Counts]:
    traces = [f"{members.folder}/trace.{at}" for at in range(SIZE)]
    tracers = [subprocess.Popen(["strace", "-f", "-y", "-s", "0", "-e", f"trace={CALLS}", "-o", trace, "-p", str(child.pid)], stderr=subprocess.DEVNULL)
               for trace, child in zip(traces, members.children)]
    time.sleep(2.0)
    members.puts(puts)
    for tracer in tracers:
        tracer.send_signal(signal.SIGINT)
        tracer.wait()
    return [count_calls(members, Path(trace).read_text(errors="replace"), puts) for trace in traces]


def count_calls(members: Members, text: str, puts: int) -> Counts:
    counts: Dict[str, List[int]] = {}
    for line in text.splitlines():
        call = LINE.search(line)
        if call is None or not call[2].startswith(members.folder) or "/text." in call[2]:
            continue
        count = counts.setdefault(members.kind(call[2]), [0, 0, 0])
        is_sync = call[1] in ("fsync", "fdatasync")
        count[0] += is_sync
        count[1] += not is_sync
        count[2] += 0 if is_sync else int(call[3] or 0)
    return {kind: [number / puts for number in count] for kind, count in counts.items()}


def still(make: Callable[[], Members], number: int) -> float:
    """Milliseconds from a signal to the primary to the next put that is answered."""
    members = make()
    try:
        for _ in range(10):
            members.put()
        members.signal_primary(number)
        begun = time.monotonic()
        members.put()
        return (time.monotonic() - begun) * 1000
    finally:
        members.end()


def report(make: Callable[[], Members], puts: int) -> None:
    members = make()
    try:
        print(f"{members.name}: {'%.0f bytes and %.1f packets on the wire a put' % wire(members, puts)}", flush=True)
        for at, kinds in enumerate(disk(members, puts)):
            for kind, (syncs, writes, size) in sorted(kinds.items()):
                role = "primary" if at == members.primary else "backup"
                print(f"{members.name}, {role}, {kind}: {syncs:.2f} syncs, {writes:.2f} writes, {size:.0f} bytes a put", flush=True)
    finally:
        members.end()
    for name, number in (("killed", signal.SIGKILL), ("stopped in its tracks", signal.SIGSTOP)):
        times = [still(make, number) for _ in range(TIMES)]
        print(f"{members.name}: its primary {name}, the next put is answered after {statistics.median(times):.0f} ms ({min(times):.0f} to {max(times):.0f})", flush=True)


def parse_words() -> Tuple[Optional[str], int]:
    """The folder and how many puts; other words, or a missing tool, end the script with 2."""
    words = sys.argv[1:]
    if words in (["-h"], ["--help"]):
        print(__doc__)
        sys.exit(0)
    missing = [tool for tool in ("unshare", "ip", "cc", "etcd", "strace") if shutil.which(tool) is None]
    if len(words) > 2 or words and not os.path.isdir(words[0]) or words[1:] and not (words[1].isdecimal() and int(words[1])):
        sys.exit(refuse("usage: bench/beside [FOLDER [PUTS]]: a folder that is there, and 1 or more"))
    if missing:
        sys.exit(refuse(f"beside: there is no {', '.join(missing)}"))
    return words[0] if words else None, int(words[1]) if words[1:] else 300


def refuse(text: str) -> int:
    print(text, file=sys.stderr)
    return 2


def main() -> None:
    parent, puts = parse_words()
    if "BESIDE_ALONE" not in os.environ:
        os.environ["BESIDE_ALONE"] = "1"
        os.execvp("unshare", ["unshare", "-n", "bash", "-c", 'ip link set lo up && exec "$@"', "bash", *words_of_module(sys.modules["__main__"], *sys.argv[1:])])
    with tempfile.TemporaryDirectory(dir=parent) as folder:
        client = f"{folder}/etcd-client"
        subprocess.run(["cc", "-O2", "-o", client, TOP / "bench/node/etcd.c"], check=True)
        print(f"machine: {os.cpu_count()} processors, load {' '.join(Path('/proc/loadavg').read_text().split()[:3])}, kernel {os.uname().release}, {puts} puts a count")
        report(lambda: Program(folder), puts)
        report(lambda: Program(folder, "tcp:"), puts)
        print(subprocess.run(["etcd", "--version"], capture_output=True, text=True, check=True).stdout.splitlines()[0])
        report(lambda: Etcd(folder, client), puts)


if __name__ == "__main__":
    main()
