"""A group of three real members under keepers, asked by clients, with a kill, a pause or a cut each ten seconds: do status, metrics and page tell the truth?

Each half second `status`, the keepers' metrics and the page of `status --page` are asked, and compared with what this script did at least two seconds
before: a killed member has one end more and isn't told to lead; a paused one hangs, and no other does; the group is told to answer while clients have
answers, and not to while they have none. Strangers sit at the ports all the while. With --cost it measures instead what 32 scrapes a second take of a
keeper's processor time, and the puts a second with and without scrapes and a page, by turns of a minute. It takes root, for namespaces; without
them nothing is cut. Ends with 0, with 1 where something was told wrong, with 2 where there is no program."""

import argparse
import ctypes
import json
import os
import re
import socket
import subprocess
import sys
import threading
import time
import urllib.request
from collections import Counter
from typing import Any, Dict, List, Optional, Tuple

import nozhgiva
from nozhgiva_tools.operate import standard
from nozhgiva_tools.places import OPERATE
from nozhgiva_tools.run.group import NUMBER
from nozhgiva_tools.run.keepers import Kept
from nozhgiva_tools.run.nets import best_net, Namespaces, Net

from .faults import Faults
from .load import Load

SIZE = 3
LATE = 2.0  # seconds after which what is told has to be so
LOOK = 0.5  # seconds from look to look
HEALTH, METRICS, PAGE = 4100, 4200, 4300
CLONE_NEWNET = 0x40000000


def parse_words() -> argparse.Namespace:
    parser = argparse.ArgumentParser(prog="watched", description=__doc__, formatter_class=argparse.RawDescriptionHelpFormatter)
    parser.add_argument("--minutes", type=standard.above_0, default=10.0, help="(default: %(default)s)")
    parser.add_argument("--seed", type=int, default=1, help="of the faults and of what is asked (default: %(default)s)")
    parser.add_argument("--scheme", default="", help="tcp: for streams")
    parser.add_argument("--cost", action="store_true", help="measure what it costs")
    parser.add_argument("--loopback", action="store_true", help="no namespaces, and so no cuts, although they could be had")
    return parser.parse_args()


def ports_of(net: Net, size: int) -> Dict[str, List[str]]:
    """Where the keepers tell, and where the page is."""
    if isinstance(net, Namespaces):
        hosts = [host.rsplit(":", 1)[0] for host in net.hosts]
        return {"health": [f"{host}:{HEALTH}" for host in hosts], "metrics": [f"{host}:{METRICS}" for host in hosts], "page": [f"10.77.0.99:{PAGE}"]}
    held = [socket.create_server(("127.0.0.1", 0)) for _ in range(2 * size + 1)]
    free = [f"127.0.0.1:{one.getsockname()[1]}" for one in held]
    for one in held:
        one.close()
    return {"health": free[:size], "metrics": free[size:2 * size], "page": free[2 * size:]}


def move_to(net: Net) -> None:
    """This thread lives where the clients do from now on."""
    if isinstance(net, Namespaces):
        with open(f"/run/netns/{net.name(None)}") as place:
            if ctypes.CDLL("libc.so.6", use_errno=True).setns(place.fileno(), CLONE_NEWNET) != 0:
                raise OSError(ctypes.get_errno(), "setns")


def fetch(address: str, path: str) -> str:
    with urllib.request.urlopen(f"http://{address}{path}", timeout=2) as answer:
        text: str = answer.read().decode()
    return text


class Told:
    """What status, metrics and page told at one moment, in the same words."""

    def __init__(self, seconds: float, code: Optional[int], leader: Optional[int], states: List[str], ends: List[Optional[int]]) -> None:
        self.seconds, self.code, self.leader, self.states, self.ends = seconds, code, leader, states, ends


def of_json(told: Dict[str, Any], seconds: float) -> Told:
    members = told["members"]
    return Told(seconds, told["code"], told["leader"], [member["state"] for member in members], [member["ends"] for member in members])


def of_metrics(texts: List[str], seconds: float) -> Told:
    """Of metrics: no code, and who leads is the one that tells so in the newest view."""
    values = [dict(re.findall(r"^nozhgiva_([a-z_]+(?:\{[^}]*\}))\S* (\S+)$", re.sub(r'\{group="\d+",member="\d+",?', "{", text), re.M)) for text in texts]
    states: List[str] = []
    ends: List[Optional[int]] = []
    leading: List[Tuple[int, int]] = []
    for member, found in enumerate(values):
        hangs = found.get('member_trouble{trouble="hangs"}') == "1"
        states.append("down" if found.get("member_up{}") == "0" else "hangs" if hangs else "leads" if found.get("member_leads{}") == "1" else "follows")
        ends.append(sum(int(value) for name, value in found.items() if name.startswith("member_ends_total")))
        if states[-1] == "leads":
            leading.append((int(found.get("view{}", "0")), member))
    return Told(seconds, None, max(leading)[1] if leading else None, states, ends)


class Watcher:
    """Looks in all three ways again and again, in a thread where the clients live."""

    def __init__(self, group: Kept, ports: Dict[str, List[str]]) -> None:
        self.group, self.ports = group, ports
        self.seen: Dict[str, List[Told]] = {"status": [], "metrics": [], "page": []}
        self.failed: "Counter[str]" = Counter()
        self.stopping = False
        self.threads = [threading.Thread(target=self.work, args=(way,), daemon=True) for way in self.seen]

    def start(self) -> None:
        for thread in self.threads:
            thread.start()

    def stop(self) -> None:
        self.stopping = True
        for thread in self.threads:
            thread.join()

    def work(self, way: str) -> None:
        move_to(self.group.net)
        due = time.monotonic()
        while not self.stopping:
            due = max(due + LOOK, time.monotonic() - 1)
            time.sleep(max(0.0, due - time.monotonic()))
            try:
                self.seen[way].append(getattr(self, way)())
            except (OSError, ValueError, KeyError) as why:
                self.failed[f"{way}: {why}"] += 1

    def status(self) -> Told:
        words = [str(OPERATE / "status"), str(NUMBER), *self.group.addresses, "--keepers", ",".join(self.ports["health"]), "--json", "--wait", "0.6"]
        made = subprocess.run(words, stdout=subprocess.PIPE, stderr=subprocess.PIPE, text=True)
        told = json.loads(made.stdout)
        if told["code"] != made.returncode:
            raise ValueError(f"it ends with {made.returncode} and tells {told['code']}")
        return of_json(told, time.monotonic())

    def metrics(self) -> Told:
        return of_metrics([fetch(address, "/metrics") for address in self.ports["metrics"]], time.monotonic())

    def page(self) -> Told:
        told = json.loads(fetch(self.ports["page"][0], f"/since/{time.time() + 60}"))
        if told["latest"] is None:
            raise ValueError("nothing is known yet")
        return of_json(told["latest"], time.monotonic())


class Asker:
    """One client that asks again soon where no answer comes, so that its answers show when the group answers: reads ten times a second."""

    def __init__(self, group: Kept) -> None:
        self.group, self.stopping = group, False
        self.answers: List[float] = []
        self.thread = threading.Thread(target=self.work, daemon=True)
        self.thread.start()

    def work(self) -> None:
        move_to(self.group.net)
        asked = nozhgiva.Group(NUMBER, self.group.addresses, timeout=0.4, retry=nozhgiva.Retry(first=0.1, factor=1.0, most=0.1, jitter=0.1))
        session = None
        while not self.stopping:
            try:
                session = session or asked.register()
                session.get("k0")
                self.answers.append(time.monotonic())
            except nozhgiva.SessionLost:
                session = None
            except nozhgiva.Unknown:
                continue
            time.sleep(0.1)


class Strangers:
    """Two hundred connections at each port, with half a request or nothing, made anew as they are closed."""

    def __init__(self, group: Kept, ports: Dict[str, List[str]]) -> None:
        self.group, self.places = group, [address.rsplit(":", 1) for address in ports["health"] + ports["metrics"] + ports["page"]]
        self.stopping = False
        self.thread = threading.Thread(target=self.work, daemon=True)
        self.thread.start()

    def work(self) -> None:
        move_to(self.group.net)
        while not self.stopping:
            held = [one for place in self.places for one in self.knock(place)]
            time.sleep(5)
            for one in held:
                one.close()

    def knock(self, place: List[str]) -> List[socket.socket]:
        held = []
        for number in range(200):
            one = socket.socket()
            one.setblocking(False)
            one.connect_ex((place[0], int(place[1])))
            try:
                one.send(b"GET /metr" if number % 2 else b"")
            except OSError:
                pass
            held.append(one)
        return held


class Judge:
    """Compares what was told with what was done. Times are of the monotonic clock."""

    def __init__(self, faults: Faults, answers: List[float]) -> None:
        self.faults, self.answers = faults, sorted(answers)

    def wrongs(self, told: Told) -> List[str]:
        """What is wrong in one telling, where what was done is so for LATE seconds."""
        now, found = told.seconds, []
        for member in range(SIZE):
            paused = self.faults.is_paused(member, now - LATE, now)
            if paused is True and told.states[member] != "hangs":
                found.append(f"member {member} is paused, and told as {told.states[member]}")
            if paused is False and told.states[member] == "hangs":
                found.append(f"member {member} isn't paused, and told to hang")
            if paused is True and told.leader == member:
                found.append(f"member {member} is paused, and told to lead")
            least, most = self.faults.kills(member, now - LATE), self.faults.kills(member, now)
            ends = told.ends[member]
            if ends is not None and not least <= ends <= most:
                found.append(f"member {member} was killed {least} times, and told as ended {ends} times")
        return found + self.of_code(told, now)

    def of_code(self, told: Told, now: float) -> List[str]:
        if told.code is None:
            return []
        steps = [now - LATE + i * LATE / 4 for i in range(5)]
        if all(self.has_answer(a, b) for a, b in zip(steps, steps[1:])) and told.code not in (0, 1):
            return [f"clients are answered, and the group is told by {told.code}"]
        if not self.has_answer(now - LATE - 1, now + LATE) and told.code in (0, 1):
            return [f"no client was answered for {LATE + 1:.0f} s, nor is for {LATE:.0f} s, and the group is told by {told.code}"]
        return []

    def has_answer(self, since: float, until: float) -> bool:
        return any(since <= at <= until for at in self.answers)


def begin(words: argparse.Namespace) -> Tuple[Kept, Dict[str, List[str]]]:
    """The group runs, with its ports."""
    net = Net(SIZE) if words.loopback else best_net(SIZE)
    ports, group = ports_of(net, SIZE), Kept(net, words.scheme)
    for member in range(SIZE):
        group.options = ["--health", ports["health"][member], "--metrics", ports["metrics"][member]]
        group.start(member)
    group.await_leader(120)
    return group, ports


def begin_page(group: Kept, ports: Dict[str, List[str]]) -> "subprocess.Popen[bytes]":
    words = [str(OPERATE / "status"), str(NUMBER), *group.addresses, "--keepers", ",".join(ports["health"]), "--page", ports["page"][0]]
    return subprocess.Popen(group.net.inside(None) + words, stdout=subprocess.DEVNULL)


def watch(words: argparse.Namespace, group: Kept, ports: Dict[str, List[str]]) -> int:
    """The trial of what is told."""
    page, watcher, strangers = begin_page(group, ports), Watcher(group, ports), Strangers(group, ports)
    asker, load = Asker(group), Load(group, clients=4, rate=30.0, keys=40, size=24, puts=0.5, seed=words.seed)
    faults = Faults(group, words.seed)
    try:
        load.start()
        time.sleep(5)
        watcher.start()
        faults.run(words.minutes * 60)
        time.sleep(10)
        watcher.stop()
        load.stop()
    finally:
        asker.stopping = strangers.stopping = watcher.stopping = load.stopping = True
        page.terminate()
        page.wait()
    return tell(watcher, Judge(faults, load.answers + asker.answers), load)


def tell(watcher: Watcher, judge: Judge, load: Load) -> int:
    wrong = 0
    for way, seen in watcher.seen.items():
        found = Counter(text for told in seen for text in judge.wrongs(told))
        wrong += sum(found.values())
        gaps = [after.seconds - before.seconds for before, after in zip(seen, seen[1:])]
        print(f"{way}: {len(seen)} samples, {sum(found.values())} wrong; longest time without one {max(gaps, default=0.0):.1f} s")
        for text, count in found.most_common(8):
            first = next(told for told in seen if text in judge.wrongs(told))
            print(f"  {count} times, at first at {first.seconds - judge.faults.began:.1f}, where the members were told as {', '.join(first.states)}: {text}")
    for text, count in watcher.failed.most_common(8):
        print(f"  no sample, {count} times: {text}")
    print(f"{len(load.history)} asks; longest time without an answer {load.longest_silence():.1f} s; {load.fault() or 'each answer is that of one register for each key'}")
    return 1 if wrong or load.fault() else 0


SCRAPER = """import sys, time, urllib.request
while True:
    for address in sys.argv[1:]:
        urllib.request.urlopen(f"http://{address}/metrics", timeout=5).read()
    time.sleep(1)"""


def begin_scrapes(group: Kept, ports: Dict[str, List[str]]) -> "subprocess.Popen[bytes]":
    """Each keeper is scraped once a second, by a process of its own."""
    return subprocess.Popen(group.net.inside(None) + [sys.executable, "-c", SCRAPER, *ports["metrics"]])


def cost(words: argparse.Namespace, group: Kept, ports: Dict[str, List[str]]) -> int:
    """What scrapes take, and the puts a second with and without."""
    move_to(group.net)

    def used(member: int) -> float:
        with open(f"/proc/{group.members[member].pid}/stat") as file:
            fields = file.read().rsplit(")", 1)[1].split()
        return (int(fields[11]) + int(fields[12])) / os.sysconf("SC_CLK_TCK")

    times = {}
    for count in (0, 32 * 30):
        before, began = used(0), time.monotonic()
        for number in range(count):
            time.sleep(max(0.0, began + number / 32 - time.monotonic()))
            fetch(ports["metrics"][0], "/metrics")
        time.sleep(max(0.0, began + 30 - time.monotonic()))
        times[count] = used(0) - before
    print(f"a scrape takes {(times[960] - times[0]) / 960 * 1000:.3f} ms of the keeper's processor time (30 s with 32 a second: {times[960]:.2f} s, without: {times[0]:.2f} s)")
    load = Load(group, clients=4, rate=100_000.0, keys=40, size=24, puts=1.0, seed=words.seed)
    load.start()
    rates: Dict[bool, List[float]] = {False: [], True: []}
    for turn in range(max(2, int(words.minutes))):
        asking = [begin_page(group, ports), begin_scrapes(group, ports)] if turn % 2 else []
        time.sleep(5)
        before, began = len(load.answers), time.monotonic()
        time.sleep(55)
        rates[bool(turn % 2)].append((len(load.answers) - before) / (time.monotonic() - began))
        for child in asking:
            child.terminate()
            child.wait()
    load.stop()
    for with_it, found in rates.items():
        print(f"puts a second {'with a scrape a second at each keeper and a page' if with_it else 'with nothing asked'}: {', '.join(f'{rate:.0f}' for rate in found)}")
    return 0


def main() -> int:
    words = parse_words()
    group = None
    try:
        group, ports = begin(words)
        print(f"{'namespaces' if group.net.cuts else 'loopback, no cuts'}, seed {words.seed}, load of the machine {os.getloadavg()[0]:.1f}")
        code = (cost if words.cost else watch)(words, group, ports)
        print(f"load of the machine at the end {os.getloadavg()[0]:.1f}")
        return code
    except KeyboardInterrupt:
        return 130
    finally:
        if group is not None:
            group.close()


if __name__ == "__main__":
    sys.exit(main())
