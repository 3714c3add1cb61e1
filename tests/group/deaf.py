"""A group of three real members under keepers, whose primary is heard and hears no member for a while: how long does no client get an answer?

It takes root, for a namespace to each member. With --patience 0 the keepers end no standstill, for comparison: then there is no answer until the cut
ends. Ends with 0, with 1 where an answer isn't that of one register for each key, with 2 where namespaces can't be had."""

import argparse
import sys
import time

from nozhgiva_tools.operate import standard
from nozhgiva_tools.run.keepers import Kept
from nozhgiva_tools.run.nets import best_net

from .load import Load

SIZE = 3


def parse_words() -> argparse.Namespace:
    parser = argparse.ArgumentParser(prog="deaf", description=__doc__, formatter_class=argparse.RawDescriptionHelpFormatter)
    parser.add_argument("--cut", type=standard.above_0, default=40.0, metavar="SECONDS", help="for which the primary hears nobody (default: %(default)s)")
    parser.add_argument("--patience", type=float, default=5.0, metavar="SECONDS", help="the keepers' (default: %(default)s)")
    return parser.parse_args()


def run(group: Kept, load: Load, seconds: float) -> int:
    group.start_all()
    group.await_leader(120)
    load.start()
    while len(load.history) < 40:
        time.sleep(0.1)
    leader = group.await_leader()
    load.answers = [time.monotonic()]
    for member in range(SIZE):
        if member != leader:
            group.net.cut(member, leader)
    time.sleep(seconds)
    silent = max(load.longest_silence(), time.monotonic() - load.answers[-1])
    group.net.mend()
    time.sleep(5)
    load.stop()
    for line in (line for member in range(SIZE) for line in group.said(member) if "is stopped and started" in line):
        print(f"  {line}")
    whole, fault = load.read_all(60.0), load.fault()
    print(f"member {leader} led, and heard nobody for {seconds:.0f} s: longest time without an answer in it {silent:.1f} s; "
          f"all keys read at the end: {'yes' if whole else 'no'}; {fault or 'each answer is that of one register for each key'}")
    return 0 if whole and fault is None else 1


def main() -> int:
    words, net = parse_words(), best_net(SIZE)
    if not net.cuts:
        print("deaf: no namespaces: run it as root", file=sys.stderr)
        return 2
    group = Kept(net, options=("--patience", str(words.patience)))
    load = Load(group, clients=2, rate=20.0, keys=20, size=24, puts=0.5, seed=1)
    try:
        return run(group, load, words.cut)
    except KeyboardInterrupt:
        return 130
    finally:
        load.stopping = True
        group.close()


if __name__ == "__main__":
    sys.exit(main())
