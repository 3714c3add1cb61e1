"""Figures of the built program on schedules and in soak: it runs by itself, with no group and no disk that counts."""

import argparse
import contextlib
import os
from pathlib import Path
from typing import Callable, Dict, Iterator, List, NamedTuple, Optional, Sequence, Tuple

from . import Figure, Outcome, places, reading, Refused, say, schedules
from .places import Place
from .tables import grouped, table

VALGRIND = ("valgrind", "callgrind_annotate")
CACHES = ("--cache-sim=yes", "--I1=32768,8,64", "--D1=32768,8,64", "--LL=8388608,16,64")
COLUMNS = {
    "limit": ("lines after the first", "status", "what it writes"),
    "caches": ("a line of", "instructions", "I1", "D1", "last level"),
    "digests": ("", "blocks", "needed", "times"),
    "builds": ("processor time", "before", "after", "times"),
    "replay": ("schedule", "replicas", "peak memory, MB", "instructions a line"),
    "soak": ("seed", "peak memory, MB", "instructions an event"),
    "replica": ("step", "instructions", "digests", "the disk's calls", "times these"),
}
MOST_LINES = 1_000_000  # that a schedule has
TIMES = 3  # that a run is timed, of which the best counts
GROWS = 1.2  # times the work a line that a longer run may take
LEAST, MOST_RUNS = 1, 99


class Kind(NamedTuple):
    """What is run: its name, and the command with a number, the replicas of a replay or the seed of a soak."""

    name: str
    command: str
    number: int

    def words(self, lines: int) -> List[str]:
        return ["replay"] if self.command == "replay" else [self.command, str(self.number), str(lines)]

    def given(self, lines: int) -> Optional[str]:
        return schedules.text(lines, self.number) if self.command == "replay" else None


PLAIN_2, PLAIN_6 = Kind("plain replay, 2 replicas", "replay", 2), Kind("plain replay, 6 replicas", "replay", 6)
VIEWS_3 = Kind("replay view after view, 3 replicas", "replay", 3)


def soak(seed: int) -> Kind:
    return Kind(f"`soak` from seed {seed}", "soak", seed)


# schedule and limit: no figures, but what figures rest on


def whole_number(least: int, most: int) -> Callable[[str], int]:
    """Reads a number from `least` to `most`."""
    def read(text: str) -> int:
        if not (text.isascii() and text.isdecimal() and least <= int(text) <= most):
            raise argparse.ArgumentTypeError(f"{text} isn't from {least:,} to {most:,}")
        return int(text)
    return read


def add_schedule(form: argparse.ArgumentParser) -> None:
    form.add_argument("lines", metavar="LINES", type=whole_number(1, 10 ** 9), help="how many lines it has")
    form.add_argument("replicas", metavar="REPLICAS", type=whole_number(1, schedules.MOST_REPLICAS), help="1 to 6; with 3 view after view, else plain")


def measure_schedule(words: argparse.Namespace) -> Outcome:
    for line in schedules.lines(words.lines, words.replicas):
        print(line)
    return Outcome([], [])


def measure_limit(_: argparse.Namespace) -> Outcome:
    """What the program says of as many lines as a schedule may have, and of one more."""
    program = places.program()
    rows, holds = [], True
    for lines, wanted in ((MOST_LINES, (3, f"refused: line {MOST_LINES + 1}")), (MOST_LINES - 1, (0, ""))):
        with Place() as place:
            given = place / "schedule"
            given.write_text("cluster 2\n" + "start 0\n" * lines, encoding="ascii")
            found = status_of(place, [program, "replay"], given)
        rows.append((grouped(lines), found[0], found[1] or "nothing"))
        holds = holds and found == wanted
    return Outcome(table(COLUMNS["limit"], rows), [], holds)


def status_of(place: Place, words: Sequence[str], given: Path) -> Tuple[int, str]:
    """How a command ends, and all that it writes."""
    said = place / "said"
    with open(given, "rb") as stdin, open(said, "wb") as out:
        child = place.start(words, stdin, out, out)
        status = child.wait()
    return status, said.read_text(encoding="ascii", errors="replace").rstrip("\n")


# caches


def add_folder(form: argparse.ArgumentParser) -> None:
    form.add_argument("folder", metavar="FOLDER", nargs="?", type=Path, help="keeps what was made (default: it is thrown away)")


def measure_caches(words: argparse.Namespace) -> Outcome:
    program = places.program()
    few, many = (200, 1200) if words.short else (2000, 12000)
    rows = []
    with Place() as place:
        kept = kept_in(words.folder, place)
        for kind in (PLAIN_2, PLAIN_6, VIEWS_3, soak(0)):
            say(f"{kind.name}: {many:,} lines in the model of the caches")
            found = [missed(place, program, kind, lines, kept) for lines in (few, many)]
            each = [(after - before) / (many - few) for before, after in zip(*found)]
            rows.append((kind.name, grouped(each[0]), grouped(each[1], 1), grouped(each[2], 1), grouped(each[3], 1)))
    return Outcome(table(COLUMNS["caches"], rows), [])


def kept_in(folder: Optional[Path], place: Place) -> Path:
    """The folder where what was made is kept; without one that which goes."""
    if folder is None:
        return place.folder
    try:
        folder.mkdir(parents=True, exist_ok=True)
    except OSError as error:
        raise Refused(f"{folder} can't be made: {error.strerror}") from error
    return folder.resolve()


def missed(place: Place, program: str, kind: Kind, lines: int, folder: Path) -> reading.Misses:
    """The misses of one run; what valgrind wrote stays in the folder."""
    profile = folder / f"{kind.command}-{kind.number}-{lines}"
    words = ["valgrind", "--tool=cachegrind", *CACHES, f"--cachegrind-out-file={profile}", program, *kind.words(lines)]
    place.run(words, kind.given(lines), Path(os.devnull))
    return reading.misses(profile.read_text(encoding="utf-8", errors="replace").splitlines())


# digests

# Needed is each text that is new to a member, once: the body and header of a request, the header of an entry (once for the group), each value of a
# superblock that is read, each block of a checkpoint that changed, and the outputs that `soak` sums up. Where the lines or a format change, these
# numbers are to be found anew.
NEEDED = ((PLAIN_2, 2.6), (VIEWS_3, 7.0), (soak(0), 3.1), (soak(7), 3.0))


def measure_digests(words: argparse.Namespace) -> Outcome:
    program = places.program()
    lines = 1000 if words.short else 10000
    rows = []
    with Place() as place:
        for kind, needed in NEEDED:
            say(f"{kind.name}: the blocks of {lines:,} lines")
            one, every = (digested(place, program, kind, count) for count in (1, lines))
            blocks = (every - one) / (lines - 1)
            rows.append((kind.name, f"{blocks:.2f}", f"{needed:.1f}", f"{blocks / needed:.2f}"))
    return Outcome(table(COLUMNS["digests"], rows), [])


def digested(place: Place, program: str, kind: Kind, lines: int) -> int:
    profile = place.profile([program, *kind.words(lines)], kind.given(lines))
    with open(profile, encoding="utf-8", errors="replace") as file:
        return reading.calls(file)


# builds


def add_builds(form: argparse.ArgumentParser) -> None:
    form.add_argument("before", metavar="BEFORE", help="a program, such as crates/vr_app/out/vr_app of a clone")
    form.add_argument("after", metavar="AFTER", help="another one")
    form.add_argument("runs", metavar="RUNS", nargs="?", type=whole_number(LEAST, MOST_RUNS), default=5,
                      help="how often each runs, 1 to 99 (default: 5); where the machine's pace changes, five don't meet its best")


def measure_builds(words: argparse.Namespace) -> Outcome:
    """The least processor time of each, in turn on one processor; whether they write the same."""
    programs = [executable(name) for name in (words.before, words.after)]
    share = 100 if words.short else 1
    rows = []
    with Place() as place, last_processor():
        for kind, lines in ((PLAIN_2, 200000), (VIEWS_3, 100000), (soak(7), 60000)):
            lines //= share
            name = f"{kind.name}, {lines:,} lines"
            say(name)
            given = place / "input"
            given.write_text(kind.given(lines) or "", encoding="ascii")
            least, is_same = least_of_both(place, [[program, *kind.words(lines)] for program in programs], given, words.runs)
            rows.append((name, f"{least[0]:.0f} ms", f"{least[1]:.0f} ms", f"{least[1] / least[0]:.3f}" if least[0] else "-"))
            if not is_same:
                return Outcome(table(COLUMNS["builds"], rows), [f"{name}: the two don't write the same"], False)
    return Outcome(table(COLUMNS["builds"], rows), [])


def executable(name: str) -> str:
    if not (os.path.isfile(name) and os.access(name, os.X_OK)):
        raise Refused(f"{name} is no program")
    return os.path.realpath(name)


@contextlib.contextmanager
def last_processor() -> Iterator[None]:
    """All that is started meanwhile runs on the last of the processors that this may use."""
    before = os.sched_getaffinity(0)
    os.sched_setaffinity(0, {max(before)})
    try:
        yield
    finally:
        os.sched_setaffinity(0, before)


def least_of_both(place: Place, commands: Sequence[Sequence[str]], given: Path, runs: int) -> Tuple[List[float], bool]:
    """The least milliseconds of each, in turn, and whether all that they write is the same."""
    outputs = [place / "expected", place / "output"]
    least = [float("inf")] * 2
    for _ in range(runs):
        for which, command in enumerate(commands):
            least[which] = min(least[which], place.processor(command, given, outputs[which]))
        if not is_same(*outputs):
            return least, False
    return least, True


def is_same(one: Path, other: Path) -> bool:
    return one.read_bytes() == other.read_bytes()


# replay and soak


class Told(NamedTuple):
    """What was measured of so many lines: the best of some runs, and instructions, where they were counted."""

    lines: int
    used: places.Used
    instructions: Optional[int]

    def __str__(self) -> str:
        counted = "" if self.instructions is None else f", {self.instructions // self.lines:,} instructions each"
        used = self.used
        pace = self.lines * 1_000_000 // max(used.micros, 1)
        return f"{self.lines:,}: {pace:,} a second, {used.kilobytes:,} kB, {used.user:.2f} s of the program, {used.system:.2f} s of the system{counted}"


def best(place: Place, words: Sequence[str], given: Optional[Path], out: Path) -> places.Used:
    return min((place.timed(words, given, out) for _ in range(TIMES)), key=lambda used: used.micros)


def row_of(name: Sequence[object], told: Told) -> Tuple[object, ...]:
    """A row of the page: the shortest run's."""
    assert told.instructions is not None
    return (*name, f"{told.used.kilobytes / 1000:.1f}", grouped(told.instructions // told.lines))


def keeps_pace(told: Dict[int, Told]) -> bool:
    """Whether the work a line doesn't grow with the lines before it."""
    each = [one.instructions / one.lines for one in told.values() if one.instructions is not None]
    return each[-1] <= GROWS * each[0]


def lengths(words: argparse.Namespace, most: int) -> Tuple[int, int, int]:
    """How many lines are run; of the first two the instructions are counted."""
    return (1000, 2000, 4000) if words.short else (10000, 100000, most)


def measure_replay(words: argparse.Namespace) -> Outcome:
    program = places.program()
    rows, holds = [], True
    notes: List[str] = []
    with Place() as place:
        kept = kept_in(words.folder, place)
        for name, replicas in (("plain", 2), ("plain", 6), ("view after view", 3)):
            told = replayed(place, program, replicas, lengths(words, 900000), kept, notes)
            rows.append(row_of((name, replicas), min(told.values())))
            holds = holds and keeps_pace(told)
    return Outcome(table(COLUMNS["replay"], rows), notes, holds)


def replayed(place: Place, program: str, replicas: int, many: Tuple[int, int, int], folder: Path, notes: List[str]) -> Dict[int, Told]:
    """Schedules of so many lines over so many replicas; what is told of them goes to the notes, with the functions that take most."""
    told = {}
    for lines in many:
        say(f"{replicas} replicas, {lines:,} lines")
        given, out = folder / f"{replicas}-{lines}.txt", place / "output"
        given.write_text(schedules.text(lines, replicas), encoding="ascii")
        used = best(place, [program, "replay"], given, out)
        profile = place.profile([program, "replay"], given) if lines != many[-1] else None
        told[lines] = Told(lines, used, profile_sum(profile) if profile else None)
        with open(out, encoding="ascii", errors="replace") as file:
            commits = sum(line.startswith("commit") for line in file)
        notes.append(f"{replicas} replicas, lines {told[lines]}, {commits:,} commits")
        if profile and lines == many[1]:
            notes += [f"    {line}" for line in reading.dearest(place.annotated(profile))]
    return told


def profile_sum(profile: Path) -> int:
    with open(profile, encoding="utf-8", errors="replace") as file:
        return reading.misses(file).instructions


def add_soak(form: argparse.ArgumentParser) -> None:
    form.add_argument("seeds", metavar="SEED", nargs="*", type=whole_number(0, 2 ** 64 - 1), default=[0, 3, 7], help="the seeds (default: 0, 3 and 7, groups of 4, 6 and 5)")


def measure_soak(words: argparse.Namespace) -> Outcome:
    program = places.program()
    rows, holds = [], True
    notes: List[str] = []
    with Place() as place:
        for seed in words.seeds:
            told = soaked(place, program, seed, lengths(words, 999999), notes)
            rows.append(row_of((seed,), min(told.values())))
            holds = holds and keeps_pace(told)
    return Outcome(table(COLUMNS["soak"], rows), notes, holds)


def soaked(place: Place, program: str, seed: int, many: Tuple[int, int, int], notes: List[str]) -> Dict[int, Told]:
    """Soaks of so many events from a seed; what is told of them goes to the notes, with what digests take."""
    told = {}
    for events in many:
        say(f"seed {seed}, {events:,} events")
        command = [program, *soak(seed).words(events)]
        used = best(place, command, None, place / "summary")
        annotated = place.annotated(place.profile(command), "--threshold=100") if events != many[-1] else None
        told[events] = Told(events, used, reading.whole(annotated) if annotated else None)
        digests = f", {reading.in_digests(annotated) // events:,} of them digests" if annotated else ""
        notes.append(f"seed {seed}, events {told[events]}{digests}")
    return told


# replica

HANDLE = "vr_group::host::step_on"  # what hands an event to a member
LIES, DIGESTS = "vr_lie::table::look_in", "sha2::block256::Core256::update"
DISK = ("vr_host_disk::disk::HostDiskSectorDisk::write", "vr_host_disk::disk::HostDiskSectorDisk::sync")


class Inside(NamedTuple):
    """Instructions within a function: all, those of making the disk lie, those of the disk's calls with that, all digests, and those of lying."""

    all: int
    lies: int
    disk: int
    digests: int
    lying_digests: int


class Step(NamedTuple):
    """What these lines add to a schedule, within a function; of the whole run where there is none."""

    name: str
    before: List[str]
    lines: List[str]
    function: Optional[str] = HANDLE


def steps() -> List[Step]:
    """The steps that are counted."""
    four, checkpoint, many = schedules.rounds(4, 2), schedules.rounds(33, 2), schedules.rounds(63, 2)
    asks = "request 0 7 4 put key4 v"
    view_change = [*["tick 1"] * 5, "deliver 253", "deliver 256", "deliver 258"]
    return [
        Step("the first prepare, stored and acknowledged by a backup", ["cluster 3", "request 0 7 0 register"], ["deliver 0"]),
        Step("a request at the primary", four, [asks]),
        Step("its prepare at a backup, which applies the one before too", [*four, asks], ["deliver 16"]),
        Step("the acknowledgement that commits it", [*four, asks, "deliver 16"], ["deliver 18"]),
        Step("a tick at the primary, where the slot that it looks at is empty", four, ["tick 0"]),
        Step("a tick at a backup, where the slot is empty", four, ["tick 1"]),
        Step("a tick at a backup that looks at an entry", [*four, "tick 1"], ["tick 1"]),
        Step("a tick at the primary that looks at the superblock", [*four, *["tick 0"] * 64], ["tick 0"]),
        Step("a tick at the primary that looks at the root of its checkpoint", [*checkpoint, *["tick 0"] * 65], ["tick 0"]),
        Step("a tick at the primary that looks at a block of ten keys", [*checkpoint, *["tick 0"] * 67], ["tick 0"]),
        Step("a view change of two, each with 63 entries in its window", [*many, "stop 0"], view_change),
        # An opening has no function of its own in the built program: this is all that the line adds to the run.
        Step("an opening with 63 entries in its window", [*many, "stop 2"], ["start 2"], None),
    ]


def measure_replica(words: argparse.Namespace) -> Outcome:
    program = places.program()
    rows, disk = [], 0
    with Place() as place:
        for step in steps()[:2] if words.short else steps():
            say(step.name)
            before, after = (inside(place, program, step.function, lines) for lines in (step.before, [*step.before, *step.lines]))
            rows.append((step.name, *added(Inside(*(late - early for early, late in zip(before, after))))))
            disk += after.disk
    if not disk:
        raise Refused(f"no function of the program is named {' or '.join(DISK)}, so the disk's calls can't be counted")
    return Outcome(table(COLUMNS["replica"], rows), [])


def added(more: Inside) -> Tuple[str, str, str, str]:
    """Cells of what was added: without making the disk lie, and beside what the step needs."""
    step, disk, digests = more.all - more.lies, more.disk - more.lies, more.digests - more.lying_digests
    return grouped(step), grouped(digests), grouped(disk), f"{step / (digests + disk):.2f}" if digests + disk else "-"


def inside(place: Place, program: str, function: Optional[str], lines: List[str]) -> Inside:
    given = schedules.joined(iter(lines))
    every, lying = (inclusive(place, program, one, given) for one in (function, LIES))
    disk = sum(reading.within(every, one) for one in DISK)
    return Inside(reading.whole(every), reading.within(every, LIES), disk, reading.within(every, DIGESTS), reading.within(lying, DIGESTS))


def inclusive(place: Place, program: str, function: Optional[str], given: str) -> List[str]:
    """The rows of a replay, counted within a function, by the functions that instructions are in or are called from."""
    only = ("--collect-atstart=no", f"--toggle-collect={function}") if function else ()
    return place.annotated(place.profile([program, "replay"], given, only), "--inclusive=yes", "--threshold=100", "--show-percs=no")


FIGURES: Tuple[Figure, ...] = (
    Figure("schedule", "writes a schedule, such as the other figures replay", 1, (), measure_schedule, add_schedule, has_short=False),
    Figure("limit", "a schedule has at most 1,000,000 lines: the program refuses one more; 1 where it ends otherwise, or writes anything", 5, (), measure_limit, has_short=False),
    Figure("caches", "instructions a line of replay and soak, and misses in a model of the caches, the same everywhere: 32 kB for instructions, 32 kB for data, and 8 MB for both",
           100, VALGRIND, measure_caches, add_folder, ("caches",)),
    Figure("digests", "blocks of 64 bytes that are digested a line, beside those that are needed", 150, VALGRIND, measure_digests, blocks=("digests",)),
    Figure("builds", "two built programs by processor time, in turn on one processor, of which the least counts; 1 where they don't write the same", 60, (), measure_builds, add_builds),
    Figure("replay", "memory, pace and instructions a line of schedules of 10,000 to 900,000 lines, and the functions that take most; 1 where the work a line grows",
           600, (*VALGRIND, places.TIME), measure_replay, add_folder, ("replay",)),
    Figure("soak", "the same of `soak`, with what digests take; 1 where the work an event grows", 600, (*VALGRIND, places.TIME), measure_soak, add_soak, ("soak",)),
    Figure("replica", "instructions of steps of a replica, beside the digests and the calls of the disk that they need", 60, VALGRIND, measure_replica),
)
