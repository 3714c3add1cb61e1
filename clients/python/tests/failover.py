#!/usr/bin/env python3
"""Puts one value after the other into a group of three while its primary is killed again and again, and tells how many were answered and the
longest time without an answer. Ends with 1 where a put failed or that time is above --most. The program is NOZHGIVA_PROGRAM or
crates/vr_app/out/vr_app.
  ./nozhgiva test failover -- [--seconds S] [--every S] [--rest S] [--most S] [--tcp] [--version N]"""

import argparse
import sys
import threading
import time

from nozhgiva import Error
from running import PROGRAM, Running, is_there

AWAY = 1.0
"""How many seconds a member is gone."""


class Failing:
    """Kills the member that answered last every few seconds, and starts it again."""

    def __init__(self, running, primary, every):
        self.running, self.primary, self.every = running, primary, every
        self.kills = 0
        self.over = threading.Event()
        self.thread = threading.Thread(target=self._fail)

    def _fail(self):
        while not self.over.wait(self.every - AWAY):
            member = self.primary()
            self.running.kill(member)
            self.kills += 1
            self.over.wait(AWAY)
            self.running.start(member)

    def __enter__(self):
        self.thread.start()
        return self

    def __exit__(self, *_):
        self.over.set()
        self.thread.join()


def measure(running, seconds, every, rest=0.0):
    """How many puts were answered in so many seconds, how often a primary was killed, and the longest time without an answer; between two
    puts lies a rest. What a put raises goes on to the caller."""
    with running.group.register() as session:
        with Failing(running, lambda: session._ledger.course.target, every) as failing:
            answers, longest, end = 0, 0.0, time.monotonic() + seconds
            while (begun := time.monotonic()) < end:
                session.put(f"key{answers % 100}", str(answers))
                longest, answers = max(longest, time.monotonic() - begun), answers + 1
                time.sleep(rest)
    return answers, failing.kills, longest


def main():
    parser = argparse.ArgumentParser(prog="failover", description=__doc__, formatter_class=argparse.RawDescriptionHelpFormatter)
    parser.add_argument("--seconds", type=float, default=60.0, help="for how long (60)")
    parser.add_argument("--every", type=float, default=5.0, help="how many seconds lie between two kills (5)")
    parser.add_argument("--most", type=float, default=2.0, help="the longest time that may be without an answer (2)")
    parser.add_argument("--rest", type=float, default=0.0, help="how many seconds lie between two puts (0)")
    parser.add_argument("--tcp", action="store_true", help="over TCP")
    parser.add_argument("--version", type=int, choices=(1, 2), default=1, help="of the group's files (1)")
    words = parser.parse_args()
    if words.seconds < 1:
        parser.error("it takes at least a second")
    if words.every <= AWAY:
        parser.error(f"between two kills lies more than the {AWAY:g} s that a member is gone")
    if not is_there(PROGRAM):
        parser.error(f"no program at {PROGRAM}")
    with Running("tcp:" if words.tcp else "", version=words.version) as running:
        try:
            answers, kills, longest = measure(running, words.seconds, words.every, words.rest)
        except Error as error:
            sys.exit(f"failed: {error}")
    print(f"{answers} puts answered, {kills} times a primary killed, none failed; the longest time without an answer was {longest:.2f} s")
    if longest > words.most:
        sys.exit(f"failed: that is more than {words.most:g} s")


if __name__ == "__main__":
    main()
