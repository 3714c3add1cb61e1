"""Tries what power failures leave of real members' files. Groups of the built program are recorded at work by strace: each write, sync and length of a
file, each line and message that leaves. From that it draws states in which a crash may have left a file, starts the program on each, tells it that
the view has changed, so that it states its whole log, and holds that against all that it had told before. And it puts all files of a group in states
of one moment, starts all members, and reads all keys. tests/crashes/README.md says what is tried, and what a failure means.

  ./nozhgiva test crashes                         ten minutes over all scenarios
  ./nozhgiva test crashes -- --minutes 60 --lanes 2  an hour, with two processors
  ./nozhgiva test crashes -- --short                 a minute, over some scenarios, with planted faults: one of the checks of ./nozhgiva test --checks
  ./nozhgiva test crashes -- --planted               plants faults: syncs that do nothing, an older superblock, swapped pages; it fails where one isn't found
  ./nozhgiva test crashes -- --page                  on disks that write 4,096 bytes as one; lists what stands still then, which the promises leave out
  ./nozhgiva test crashes three one-careful       the scenarios alone whose names begin so; --list has all

The same --seed over the same --recordings tries the same states. It ends with 0 where all is well, which rows of docs/OPERATING.md are too that are
counted, and what --page lists; with 1 where something failed, whose files are then left, or where a message left a member while something wasn't synced;
with 2 where the words or the program are wrong. Where strace is missing or may not trace it tries nothing, says so, and ends with 2."""

import argparse
import collections
import os
import pickle
import re
import shutil
import signal
import sys
import tempfile
import time
from typing import Dict, List, NoReturn

from nozhgiva_tools.operate import standard
from nozhgiva_tools.places import in_memory
from nozhgiva_tools.run import ports, program as find

from . import disk, early, members, recording, running, scenarios, tables, walking
from .scenarios import Recording, Scenario

MINUTES, SHORT_SECONDS, TRIES = 10.0, 24.0, 3
SHORT = ("fresh-strict", "three-mixed", "one-careful-v2", "migrate-strict")
PLANTED = ("three-strict", "three-careful-v2")
# What groups have of the time. In the short mode a planted fault is looked for until it is found, and for so many seconds at most.
GROUPS_SHARE, PLANT_SECONDS = 0.25, 120.0
# So many syncs does the disk of each member of a group forget, where that is planted.
LOST_SYNCS = 24
ENDLESS = 10**12
AGAIN = re.compile(r"\d+ (?:whole ([a-z0-9-]+) \d+ \d+|([a-z0-9-]+) \d+ \d+ \d+ \d+)")
TOLD = 3  # messages that left too early
EACH = 3  # states of one crash point, before the next point is gone to


def parse_words() -> argparse.Namespace:
    form = argparse.ArgumentParser(prog="crashes", description=__doc__, formatter_class=argparse.RawDescriptionHelpFormatter)
    form.add_argument("names", nargs="*", metavar="SCENARIO", help="the scenarios whose names begin so (default: all)")
    form.add_argument("--minutes", type=float, default=MINUTES, help="for how long states and groups are tried, recording not counted (default: %(default)g)")
    form.add_argument("--seed", type=int, default=1, help="the number by which states are drawn (default: %(default)d)")
    form.add_argument("--states", type=int, default=ENDLESS, help="how many states at most")
    form.add_argument("--groups", type=int, default=ENDLESS, help="how many whole groups at most")
    form.add_argument("--lanes", type=int, default=1, help="in how many processes, each of which takes up to a processor and a half (default: %(default)d)")
    form.add_argument("--port", type=int, default=ports.first_of(16), help="the first of the ports of loopback that are used (default: by chance)")
    form.add_argument("--recordings", metavar="FILE", help="takes the recordings from FILE, which is made where it isn't there; read none from strangers, it may run code")
    form.add_argument("--again", metavar="NUMBER", help="tries one state again, or one moment of a group, by the number that stands beside its failure")
    form.add_argument("--short", action="store_true", help="a minute")
    form.add_argument("--planted", action="store_true", help="plants faults, and fails where one isn't found")
    form.add_argument("--page", action="store_true", help="a power failure tears pages of 4,096 bytes: what was synced in one goes with what wasn't")
    form.add_argument("--list", action="store_true", help="tells the scenarios")
    words = form.parse_args()
    unknown = scenarios.chosen(words.names)[1]
    if unknown:
        form.error(f"no scenario begins with {', '.join(unknown)}: --list has them")
    if words.again and not (words.recordings and AGAIN.fullmatch(words.again)):
        form.error("--again needs the number as it was printed, in one word of the shell, and the recordings that it is of")
    if words.minutes <= 0 or words.lanes < 1 or words.states < 0 or words.groups < 0:
        form.error("minutes and lanes are above 0, states and groups not below")
    if not 1024 <= words.port <= 65535 - words.lanes * running.THREADS * running.PORTS:
        form.error("the port has to be from 1024 on, with room for the others above it")
    return words


def say(text: str) -> None:
    print(text, flush=True)


def say_failure(result: running.Result) -> None:
    for failure in result.verdict.failures[:3]:
        say(f"FAILED {result.number}: {failure}")


def say_broken(result: running.Result) -> None:
    """Of states with a planted fault, which are to fail: those alone of which the judgement itself failed."""
    if any(failure.startswith(running.BROKEN) for failure in result.verdict.failures):
        say_failure(result)


def record_all(words: argparse.Namespace, program: str, folder: str, wanted: List[Scenario]) -> List[Recording]:
    """The recordings of scenarios; those that are kept in a file are taken from there, and what it hasn't is put into it."""
    kept = kept_in(words.recordings) if words.recordings else {}
    missing = [it for it in wanted if it.name not in kept]
    for scenario in missing:
        kept[scenario.name] = record_one(words, program, folder, scenario)
    if words.recordings and missing:
        with open(words.recordings, "wb") as file:
            pickle.dump(kept, file)
    return [kept[it.name] for it in wanted]


def kept_in(path: str) -> Dict[str, Recording]:
    if not os.path.exists(path):
        return {}
    try:
        with open(path, "rb") as file:
            kept = pickle.load(file)
        if isinstance(kept, dict) and all(isinstance(it, Recording) for it in kept.values()):
            return kept
    except (OSError, pickle.UnpicklingError, EOFError, AttributeError, ImportError, IndexError, TypeError, ValueError) as error:
        print(f"{path}: {error}", file=sys.stderr)
    print(f"{path}: it holds no recordings of this tool", file=sys.stderr)
    sys.exit(2)


def record_one(words: argparse.Namespace, program: str, folder: str, scenario: Scenario) -> Recording:
    """Records a scenario; again where a busy machine got in the way."""
    for attempt in range(TRIES):
        begun = time.monotonic()
        try:
            one = scenarios.record(program, os.path.join(folder, f"{scenario.name}-{attempt}"), words.port, scenario, words.seed)
        except TimeoutError as error:
            say(f"{scenario.name}: not recorded: {error}")
            continue
        calls = collections.Counter(call.kind for part in one.parts for call in part.calls)
        say(f"{scenario.name}: recorded in {time.monotonic() - begun:.0f} s: {len(one.log.executed)} operations; "
            f"{calls['write']} writes, {calls['sync']} syncs, {calls['send']} messages")
        return one
    say(f"{scenario.name}: the group didn't do what it is to, {TRIES} times")
    sys.exit(1)


class Bench:
    """What the parts of a run share."""

    def __init__(self, words: argparse.Namespace, program: str, folder: str, recordings: List[Recording]) -> None:
        self.words, self.program, self.folder, self.recordings = words, program, folder, recordings
        self.unit = disk.PAGES if words.page else disk.SECTORS_ALONE
        self.tried: running.Tallies = {}
        self.grouped: running.Tallies = {}

    def plan(self, seconds: float, most: int) -> running.Plan:
        return running.Plan(self.program, self.folder, self.words.port, self.words.lanes, seconds, most)

    def states(self, seconds: float) -> None:
        running.run(self.plan(seconds, self.words.states), "states", self.cases(), say_failure, self.tried)

    def groups(self, seconds: float) -> None:
        running.run(self.plan(seconds, self.words.groups), "groups", self.moments(0), say_failure, self.grouped)

    def cases(self, plant: str = "") -> running.Items:
        return lambda share, shares: running.case_items(self.recordings, walking.Way(self.words.seed, EACH, plant, share, shares, self.unit))

    def moments(self, lag: int) -> running.Items:
        return lambda share, shares: running.moment_items(self.recordings, self.words.seed, lag, share, shares, self.unit)

    def plant(self, what: str, seconds: float) -> bool:
        """Plants one fault in states, or in groups, for so long; in the short mode until it is found. Whether it is."""
        items = self.moments(LOST_SYNCS) if what == tables.GROUPS_PLANT else self.cases(what)
        plan = self.plan(seconds, ENDLESS)._replace(keeps=False, ends_at_first=self.words.short)
        tallies: running.Tallies = {}
        running.run(plan, f"planted: {what}", items, say_broken, tallies)
        line, is_found = tables.planted_line(what, tallies)
        say(line)
        return is_found


def run_again(words: argparse.Namespace, bench: Bench) -> bool:
    """Tries one state or moment again, by its number; whether all is well."""
    item = running.item_of(bench.recordings, words.again, bench.unit)
    if item is None:
        say(f"the recordings have no {words.again}")
        return False
    verdict = item[2](members.Desk(bench.program, bench.folder, words.port))
    say("\n".join([item[3], *(f"FAILED: {it}" for it in verdict.failures), *(f"row of OPERATING: {it}" for it in verdict.rows)]))
    return not verdict.failures


def say_early(recordings: List[Recording]) -> bool:
    """Says which messages left while something wasn't synced; whether none did."""
    found = early.early(recordings)
    for sent in found[:TOLD]:
        say(f"FAILED {sent}")
    say(f"{early.messages(recordings):,} messages left, {len(found):,} of them while something wasn't synced")
    return not found


def plant_early(recordings: List[Recording]) -> bool:
    found = early.early([early.hasty(one) for one in recordings])
    say(f"planted: messages that leave before a sync: {'found' if found else 'NOT FOUND'}: {len(found):,}")
    return bool(found)


def run_planted(bench: Bench, seconds: float) -> bool:
    found = [plant_early(bench.recordings), *(bench.plant(what, seconds) for what in (walking.SYNCS, walking.COPY, walking.PAGE, tables.GROUPS_PLANT))]
    return all(found)


def run_all(words: argparse.Namespace, bench: Bench) -> bool:
    """Runs what the words ask for; whether all is well."""
    if words.again:
        return run_again(words, bench)
    if words.planted:
        return run_planted(bench, words.minutes * 60 / 4)
    seconds = SHORT_SECONDS if words.short else words.minutes * 60
    share = GROUPS_SHARE if words.states and words.groups else float(not words.states)
    try:
        if words.states:
            bench.states(seconds * (1 - share))
        if words.groups:
            bench.groups(seconds * share)
    finally:
        # Also where it was interrupted.
        for line in [*tables.table(bench.tried, bench.grouped), tables.judged_line(bench.tried, bench.grouped)]:
            say(line)
    tallies = [*bench.tried.values(), *bench.grouped.values()]
    is_well = bool(tallies) and not any(it.failures for it in tallies)
    is_well = say_early(bench.recordings) and is_well
    if words.page:
        say("\n".join(tables.standing_lines(bench.grouped)))
    if words.short:
        is_well = run_planted(bench, PLANT_SECONDS) and is_well
    return is_well


def work_folder() -> str:
    """A folder in memory where there is room: what is tried here is no disk."""
    return tempfile.mkdtemp(prefix="crashes-", dir=in_memory())


def keep_failed(folder: str, recordings: List[Recording]) -> None:
    """Leaves the files of failing states where they can be looked at, if there are any, with the recordings."""
    failed = os.path.join(folder, "failed")
    if os.path.isdir(failed) and os.listdir(failed):
        with open(os.path.join(failed, "recordings"), "wb") as file:
            pickle.dump({it.scenario.name: it for it in recordings}, file)
        say(f"the files of failing states are left in {failed}; one is tried again by: ./nozhgiva test crashes -- --recordings {failed}/recordings --again NUMBER")
        for name in os.listdir(folder):
            path = os.path.join(folder, name)
            if os.path.isfile(path):
                os.unlink(path)
            elif path != failed:
                shutil.rmtree(path, ignore_errors=True)
    else:
        shutil.rmtree(folder, ignore_errors=True)


def wanted_by(words: argparse.Namespace) -> List[Scenario]:
    """The scenarios that are run: those that the words name, or the mode's."""
    if words.names:
        return scenarios.chosen(words.names)[0]
    found = AGAIN.fullmatch(words.again or "")
    names = found.groups() if found else SHORT if words.short else PLANTED if words.planted else [it.name for it in scenarios.SCENARIOS]
    return [it for it in scenarios.SCENARIOS if it.name in names]


def end_by_signal(number: int, _: object) -> NoReturn:
    sys.exit(128 + number)


def main() -> int:
    words = parse_words()
    if words.list:
        say("\n".join(tables.scenario_lines()))
        return 0
    program = find.or_end()
    for number in (signal.SIGTERM, signal.SIGHUP):
        signal.signal(number, end_by_signal)
    folder = work_folder()
    recordings: List[Recording] = []
    try:
        why_not = recording.why_not(folder)
        if why_not:
            say(f"left out: {why_not}\nnothing was tried: nothing can be recorded")
            return 2
        recordings = record_all(words, program, folder, wanted_by(words))
        return 0 if run_all(words, Bench(words, program, folder, recordings)) else 1
    finally:
        keep_failed(folder, recordings)


if __name__ == "__main__":
    standard.end(main)
