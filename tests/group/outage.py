"""Cuts all members of a group of three, and its client, off from each other for some seconds, and measures how soon after it the first put is
answered. Each has a network namespace of its own, on one bridge; what they send while they are cut is lost without a word. Over TCP it also
counts, by the kernels' counters, which streams an idle group makes.
  ./nozhgiva test outage -- [SECONDS ..]               over UDP; outages of 5, 20 and 60 seconds
  SCHEME=tcp: ./nozhgiva test outage -- [SECONDS ..]   over TCP
It has to be run as root, needs iproute2, and leaves nothing behind. It ends with status 1 where an answer comes later than 2 seconds after an
outage, or where an idle group makes a stream in 30 seconds; with 2 where the words are wrong."""

import os
import subprocess
import sys
import time
from typing import List

from nozhgiva_tools.run.group import Group, Puts
from nozhgiva_tools.run.nets import Sealed
from nozhgiva_tools.run.scripts import end, fail, sealed

FIGURE, IDLE = 2.0, 30


def streams_made(net: Sealed) -> List[int]:
    """How many streams each member's kernel has made."""
    counts = []
    for m in range(3):
        lines = subprocess.run([*net.inside(m), "cat", "/proc/net/snmp"], check=True, capture_output=True, text=True).stdout.splitlines()
        names, values = [line.split() for line in lines if line.startswith("Tcp:")]
        counts.append(int(values[names.index("ActiveOpens")]))
    return counts


def rest(net: Sealed, puts: Puts) -> None:
    """Lets the group idle, and counts the streams that it makes."""
    puts.open.clear()
    time.sleep(2)
    before = streams_made(net)
    time.sleep(IDLE)
    made = [after - count for count, after in zip(before, streams_made(net))]
    puts.open.set()
    print(f"idle for {IDLE} s: streams made by members 0, 1, 2: {made[0]}, {made[1]}, {made[2]}", flush=True)
    if any(made):
        fail("an idle group makes streams")


def parse_words(words: List[str]) -> List[float]:
    """The outages' seconds, or the end with the help or a line of usage."""
    if words in (["-h"], ["--help"]):
        print(__doc__)
        sys.exit(0)
    try:
        seconds = [float(word) for word in words] or [5.0, 20.0, 60.0]
        if not all(0 < one < 1e6 for one in seconds):
            raise ValueError("an outage takes some seconds, more than 0")
        return seconds
    except ValueError as error:
        print(f"outage: {error}\nusage: ./nozhgiva test outage -- [SECONDS ..]", file=sys.stderr)
        sys.exit(2)


def main(outages: List[float]) -> None:
    net = Sealed()
    net.connect()
    late: List[float] = []
    with Group(net) as group:
        group.start_all()
        puts = Puts(group)
        puts.await_answers(50)
        if os.environ.get("SCHEME"):
            rest(net, puts)
        for seconds in outages:
            net.part()
            time.sleep(seconds)
            net.join()
            first = puts.after(time.monotonic(), 180)
            print(f"outage of {seconds:g} s: " + ("no answer in 180 s" if first is None else f"first answer {first:.2f} s after it"), flush=True)
            late += [seconds] if first is None or first > FIGURE else []
            puts.await_answers(20)
        puts.close()
    if late:
        fail(f"later than {FIGURE:g} s after outages of {', '.join(f'{seconds:g}' for seconds in late)} s")


if __name__ == "__main__":
    seconds_given = parse_words(sys.argv[1:])
    sealed(sys.argv, "--net")
    end(lambda: main(seconds_given))
