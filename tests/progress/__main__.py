"""Looks for groups that stand still under fair conditions, by random pasts, and for any among them that are whole: none may be.

  ./nozhgiva test progress                          120 pasts, and then whether a keeper that never restarts is found out
  ./nozhgiva test progress -- --first 120 --count 3000 other ones
  ./nozhgiva test progress -- --cuts | --damage        with writes that are cut, or with damage on disks too, in the past
  ./nozhgiva test progress -- --never                  with a keeper that never restarts: whole groups stand still then, and it ends with 1
  ./nozhgiva test progress -- --play FILE..            fair rounds behind a schedule, as one of examples/standstills

A past is drawn from a number (tests/progress/pasts.py): links fail, messages get lost, members stop and start. Then comes a fair time: a random quorum runs, or
with --all everybody; in each round every member ticks once, and all messages between them arrive, with --delay D within D rounds; a client asks until it is
answered, and then 96 more do, eight at once; after each --keep T rounds without an answer the member that leads is stopped and started. A group stands still where
no answer comes in --rounds R. Before the fair time it is found out which quorums of those that run are whole, by the files of their members, as `operate/status` does
(tools/nozhgiva_tools/told/whole.py; tests/progress/files.py says how, and where it takes the worse). For each group that stands still a line tells its past's number,
members, whether a quorum was whole or what it lacks, by which lines it is known, and what ended it; sums stand at the end. One number gives one past, in any run.

It takes the built program, or the one that NOZHGIVA_PROGRAM names. Ends with 0, with 1 where a whole group stood still, or none was found with the keeper that never
restarts, with 2 for other words or where there is no program."""

import argparse
import random
import sys
from collections import Counter
from typing import List, NamedTuple, Optional, Tuple

from nozhgiva_tools.operate import standard
from nozhgiva_tools.run import built as program, playing
from nozhgiva_tools.told import whole

from . import fair, files, pasts
from .group import Clients, Group, Net

LOAD = 96  # requests that have to be answered after the first


class Played(NamedTuple):
    """What became of one past."""

    number: int
    size: int
    members: List[int]
    quorums: List[Tuple[int, ...]]  # that were whole when the fair time began
    lacks: List[str]  # where none was: the names of what all that run lack
    first: Optional[int]  # rounds until the first answer
    stood: Optional[str]  # by which lines it stood still
    ended: str
    restarts: int
    longest: int

    def line(self) -> str:
        quorum = "whole: " + ", ".join(" ".join(map(str, one)) for one in self.quorums) if self.quorums else "not whole: " + (", ".join(self.lacks) or "not known")
        return f"past {self.number}, members {' '.join(map(str, self.members))} of {self.size}, {quorum}; stands still: {self.stood}; ended by {self.ended}"


def parse_words() -> argparse.Namespace:
    parser = argparse.ArgumentParser(prog="progress", description=__doc__, formatter_class=argparse.RawDescriptionHelpFormatter)
    parser.add_argument("--first", type=int, default=0, metavar="N", help="the number of the first past (default: %(default)s)")
    parser.add_argument("--count", type=int, default=120, metavar="N", help="how many pasts (default: %(default)s)")
    parser.add_argument("--sizes", type=sizes, default=[2, 3, 5], metavar="N,N..", help="of the groups, by turns, 2 to 6 (default: 2,3,5)")
    parser.add_argument("--cuts", action="store_true", help="writes are cut in the past")
    parser.add_argument("--damage", action="store_true", help="sectors are damaged in the past too")
    parser.add_argument("--all", action="store_true", help="all members run in the fair time")
    parser.add_argument("--delay", type=int, default=0, metavar="D", help="rounds that a message may take; above 1 views may chase each other, whole quorum or not (default: %(default)s)")
    parser.add_argument("--constant", action="store_true", help="each takes just so many")
    parser.add_argument("--keep", type=int, default=40, metavar="T", help="rounds without an answer after which who leads is restarted (default: %(default)s)")
    parser.add_argument("--never", action="store_true", help="nobody is restarted")
    parser.add_argument("--rounds", type=int, default=300, metavar="R", help="without an answer, which is standing still (default: %(default)s)")
    parser.add_argument("--play", nargs="+", metavar="FILE", help="schedules, in the place of pasts")
    words = parser.parse_args()
    if words.first < 0 or words.count < 1 or not 0 <= words.delay <= 100 or words.keep < 1 or words.rounds < 1:
        parser.error("--first isn't below 0, --delay is 0 to 100, and --count, --keep and --rounds are above 0")
    return words


def sizes(text: str) -> List[int]:
    found = [int(word) for word in text.split(",")]
    if not all(2 <= size <= 6 for size in found):
        raise ValueError(text)
    return found


def play(built: str, number: int, words: argparse.Namespace, never: bool) -> Played:
    """One past, with its fair time."""
    draw, faults = random.Random(number), pasts.Faults(words.cuts or words.damage, words.damage)
    size = words.sizes[number % len(words.sizes)]
    group = Group(built, size)
    try:
        net = Net(group, draw)
        pasts.play_past(group, net, draw, faults)
        members = sorted(draw.sample(range(size), size if words.all else draw.randint(whole.VIEW_CHANGE[size], size)))
        pasts.end_faults(group, members, faults)
        return go_on(number, group, net, draw, members, faults, words, never)
    finally:
        group.end()


def go_on(number: int, group: Group, net: Net, draw: random.Random, members: List[int], faults: pasts.Faults, words: argparse.Namespace, never: bool) -> Played:
    """The fair time of a group, judged before by what its members' files hold."""
    net.be_fair(members, words.delay, words.constant)
    facts = files.held(group, members, faults)
    quorums = whole.whole_quorums(facts, group.size)
    lacks = sorted({reason.name for reason in whole.lacks(facts)}) if len(facts) == len(members) else []
    how, clients = fair.Fair(0 if never else words.keep, words.rounds), Clients(10 ** 6)
    course = fair.run(group, net, draw, members, how, clients, 1, 1)
    first, restarts = course.rounds, course.restarts
    if first is not None:
        course = fair.run(group, net, draw, members, how, clients, LOAD, fair.MOST)
        restarts += course.restarts
    stood = fair.cause(course.last) if course.rounds is None else None
    ended = fair.remedy(group, net, draw, members, course.last) if stood else ""
    return Played(number, group.size, members, quorums, lacks, first, stood, ended, restarts, course.longest)


def play_file(built: str, path: str, words: argparse.Namespace) -> Played:
    """A schedule, with a fair time behind it, of the members that run at its end."""
    with open(path, encoding="ascii") as file:
        lines, _ = playing.schedule_of(file.read())
    head = lines[0].split(" ")
    group, draw = Group(built, int(head[1]), "".join(f" {word}" for word in head[2:])), random.Random(1)
    try:
        for line in lines[1:]:
            group.play([line])
        has_faults = any(line.split(" ", 1)[0] in playing.FAULTS + ("fuse",) for line in lines)
        return go_on(0, group, Net(group, draw), draw, sorted(group.running), pasts.Faults(has_faults, has_faults), words, words.never)
    finally:
        group.end()


class Sums:
    """What many pasts came to."""

    def __init__(self) -> None:
        self.played: List[Played] = []

    def add(self, one: Played) -> None:
        self.played.append(one)
        if one.stood:
            print(one.line(), flush=True)

    def failures(self) -> List[Played]:
        return [one for one in self.played if one.stood and one.quorums]

    def tell(self) -> None:
        stood = [one for one in self.played if one.stood]
        whole_ones = sum(bool(one.quorums) for one in self.played)
        print(f"{len(self.played)} pasts, {whole_ones} with a whole quorum; {len(stood)} stood still, {len(self.failures())} of them with one; "
              f"{sum(one.restarts > 0 for one in self.played)} needed a restart")
        for (cause, lacking, ended), count in sorted(Counter((one.stood, "whole" if one.quorums else ", ".join(one.lacks) or "not known", one.ended) for one in stood).items()):
            print(f"  {count:4d}  {cause} ({lacking}); ended by {ended}")
        all_lacks = Counter(", ".join(one.lacks) or "not known" for one in self.played if not one.quorums)
        print("  no quorum whole: " + ("; ".join(f"{count} {text}" for text, count in sorted(all_lacks.items())) or "none"))
        rounds = sorted(one.first for one in self.played if one.first is not None)
        if rounds:
            print(f"  rounds to the first answer: median {rounds[len(rounds) // 2]}, most {rounds[-1]} of {len(rounds)}; "
                  f"most without an answer under load {max(one.longest for one in self.played if not one.stood)}")


def planted(built: str, sums: Sums, words: argparse.Namespace) -> int:
    """Plays the pasts that a restart helped once more, with a keeper that never restarts: it has to be found out."""
    helped = [one for one in sums.played if one.restarts and one.quorums and not one.stood]
    for one in helped:
        again = play(built, one.number, words, never=True)
        if again.stood and again.quorums:
            print(f"planted, a keeper that never restarts: found by {again.line()}")
            return 0
    print(f"planted, a keeper that never restarts: not found, in {len(helped)} pasts that a restart had helped")
    return 1


def main() -> int:
    words, built, sums = parse_words(), program.or_end(), Sums()
    for path in words.play or []:
        try:
            one = play_file(built, path, words)
        except (OSError, ValueError, IndexError) as why:
            print(f"progress: {path}: {getattr(why, 'strerror', None) or f'no schedule: {why}'}", file=sys.stderr)
            return 2
        sums.add(one)
        print(f"{path}: {one.line() if one.stood else 'goes on'}{'' if one.stood or not one.restarts else ', after restarts: ' + str(one.restarts)}")
    if words.play:
        return 1 if sums.failures() else 0
    for number in range(words.first, words.first + words.count):
        sums.add(play(built, number, words, words.never))
    sums.tell()
    if sums.failures():
        print("whole quorums stood still: pasts " + ", ".join(str(one.number) for one in sums.failures()))
        return 1
    return 0 if words.never else planted(built, sums, words)


if __name__ == "__main__":
    standard.end(main)
