"""A group of real members under keepers on a slow network: from which delay on does no view begin any more once its primary is lost, and does `status` say so?

What members send each other goes through a proxy on loopback that hands each datagram on after a delay; clients reach the members without one. For each
delay the group is new: it answers, then the delay begins, its primary is stopped for good, and clients ask for --seconds. With --behind one of those that are
left was away for a hundred operations and comes back at that moment, so that it has to take a checkpoint first, which takes more messages. Told are the
seconds to the first answer, the views that were entered meanwhile, and what status says at the end. Ends with 0, with 1 where nobody was answered and status
doesn't say that views chase each other, or somebody was and it does."""

import argparse
import heapq
import itertools
import selectors
import socket
import sys
import threading
import time
from typing import Dict, List, Optional, Tuple

import nozhgiva
from nozhgiva_tools.operate import judging, rolling, standard, surveying
from nozhgiva_tools.run.group import NUMBER
from nozhgiva_tools.run.keepers import Kept
from nozhgiva_tools.run.nets import Net

LARGEST = 20_480  # bytes of a datagram
Way = Tuple[socket.socket, Tuple[str, int]]  # from where it is handed on, and to where
Waiting = Tuple[float, int, bytes, Way]  # when, and in which order
DELAYS = "0.1,0.2,0.3,0.4,0.5,0.6"


def parse_words() -> argparse.Namespace:
    parser = argparse.ArgumentParser(prog="slow", description=__doc__, formatter_class=argparse.RawDescriptionHelpFormatter)
    parser.add_argument("--delays", type=lambda text: [standard.above_0(word) for word in text.split(",")], default=DELAYS, metavar="SECONDS,..", help="one way (default: %(default)s)")
    parser.add_argument("--seconds", type=standard.above_0, default=60.0, help="for each delay (default: %(default)s)")
    parser.add_argument("--size", type=int, default=3, choices=[3, 5], help="members of the group (default: %(default)s)")
    parser.add_argument("--behind", action="store_true", help="one of those that are left has to take a checkpoint first")
    parser.add_argument("--port", type=int, default=45400, metavar="P", help="the first of the ports (default: %(default)s)")
    return parser.parse_args()


class Proxy:
    """Hands on what members send each other. Each way from one to another has a port, which the sender has as the address of the other. What is handed
    on comes from the port of the way back: a member takes messages of members from the addresses of its list alone."""

    def __init__(self, hosts: List[str], first: int) -> None:
        self.delay, self.late = 0.0, 0.0
        self.selector, self.order = selectors.DefaultSelector(), itertools.count()
        self.waiting: List[Waiting] = []
        self.ways: Dict[Tuple[int, int], str] = {}
        self.sockets: Dict[Tuple[int, int], socket.socket] = {}
        for number, (sender, receiver) in enumerate(itertools.permutations(range(len(hosts)), 2)):
            way = (sender, receiver)
            self.sockets[way] = socket.socket(socket.AF_INET, socket.SOCK_DGRAM)
            self.sockets[way].bind(("127.0.0.1", first + number))
            self.sockets[way].setblocking(False)
            self.ways[way] = f"127.0.0.1:{first + number}"
        for (sender, receiver), one in self.sockets.items():
            host, port = hosts[receiver].rsplit(":", 1)
            self.selector.register(one, selectors.EVENT_READ, (one, self.sockets[receiver, sender], (host, int(port))))
        threading.Thread(target=self.work, daemon=True).start()

    def addresses(self, hosts: List[str], member: int) -> List[str]:
        """The addresses of all members, as one of them has them."""
        return [host if other == member else self.ways[member, other] for other, host in enumerate(hosts)]

    def work(self) -> None:
        while True:
            wait = max(0.0, self.waiting[0][0] - time.monotonic()) if self.waiting else 1.0
            for key, _ in self.selector.select(wait):
                one, back, place = key.data
                try:
                    heapq.heappush(self.waiting, (time.monotonic() + self.delay, next(self.order), one.recv(LARGEST + 1), (back, place)))
                except OSError:
                    pass  # Nobody listens where the last one went.
            while self.waiting and self.waiting[0][0] <= time.monotonic():
                at, _, data, (back, place) = heapq.heappop(self.waiting)
                self.late = max(self.late, time.monotonic() - at)
                try:
                    back.sendto(data, place)
                except OSError:
                    pass


class Try:
    """One delay."""

    def __init__(self, words: argparse.Namespace, delay: float, port: int) -> None:
        self.words, self.delay = words, delay
        self.group = Kept(Net(words.size, range(port, port + words.size)))
        self.hosts = list(self.group.addresses)
        self.proxy = Proxy(self.hosts, port + 10)
        sources = [surveying.at_socket(member, self.group.file(0)[:-1] + "{}.socket", 1.0) for member in range(words.size)]
        self.survey = surveying.Survey(NUMBER, self.hosts, sources, 1.0)

    def start(self, member: int) -> None:
        self.group.addresses = self.proxy.addresses(self.hosts, member)
        self.group.start(member)

    def put(self, count: int, seconds: float) -> Optional[float]:
        """Seconds until so many puts were answered, each a session of its own at first; None where they weren't."""
        began = time.monotonic()
        asked = nozhgiva.Group(NUMBER, self.hosts, timeout=seconds, retry=nozhgiva.Retry(first=0.1, factor=1.0, most=0.1, jitter=0.1))
        try:
            session = asked.register()
            for number in range(count):
                session.put(f"k{number % 40}", f"v{number}", timeout=seconds)
        except (nozhgiva.Unknown, nozhgiva.SessionLost):
            return None
        return time.monotonic() - began

    def views(self) -> int:
        return max(rolling.number(self.group.health(member), "view") for member in range(self.words.size))

    def run(self) -> bool:
        """The row of this delay; whether status is right."""
        for member in range(self.words.size):
            self.start(member)
        leader = self.group.await_leader(120)
        behind = [member for member in range(self.words.size) if member != leader][-1]
        others = [member for member in range(self.words.size) if member not in (leader, behind)]
        if self.put(20, 60.0) is None:
            raise TimeoutError("the group doesn't answer without a delay")
        if self.words.behind:
            self.group.stop(behind)
            self.put(100, 60.0)
        for member in others[(self.words.size - 1) // 2:]:
            self.group.stop(member)  # Just a smallest quorum is left, the one that is behind among it.
        before, moment = self.views(), time.monotonic()
        self.proxy.delay, self.proxy.late = self.delay, 0.0
        self.group.stop(leader)
        if self.words.behind:
            self.start(behind)
        answered = self.put(1, self.words.seconds) and time.monotonic() - moment
        views = self.views() - before
        members = self.survey.look()
        verdict = judging.judge(members, True)
        chases = any(why.startswith("views chase each other") for why in verdict.why)
        first = "no answer" if answered is None else f"answered after {answered:.1f} s"
        which = ", one of them behind" if self.words.behind else ""
        print(f"{self.words.size} members{which}, {self.delay * 1000:.0f} ms one way (handed on up to {self.proxy.late * 1000:.0f} ms late): {first}, {views} views; status: "
              f"{judging.NAMES[verdict.code]}{', views chase each other' if chases else ''}", flush=True)
        return chases == (answered is None) or answered is not None and views > judging.CHASES


def main() -> int:
    words, right = parse_words(), True
    words.delays = words.delays if isinstance(words.delays, list) else [float(word) for word in words.delays.split(",")]
    for number, delay in enumerate(words.delays):
        one = Try(words, delay, words.port + 40 * number)
        try:
            right = one.run() and right
        except TimeoutError as why:
            print(f"slow: {why}", file=sys.stderr)
            right = False
        except KeyboardInterrupt:
            return 130
        finally:
            one.group.close()
    return 0 if right else 1


if __name__ == "__main__":
    sys.exit(main())
