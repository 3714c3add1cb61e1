"""Figures of a running group: a member alone beside SQLite, three beside the floor of the rules and etcd, a put at a member, and a migration."""

import argparse
import os
import shutil
import subprocess
import time
from pathlib import Path
from typing import Dict, List, NamedTuple, Optional, Sequence, Tuple

from . import Figure, Outcome, places, reading, Refused, say
from .members import await_that, Etcd, Floor, Members, Pace, Program, puts, side_by_side, told, traced
from .places import Place
from .replays import CACHES, whole_number
from .tables import grouped, table

COLUMNS = {
    "alone": ("", "puts a second", "median, 99 of 100, mean", "syncs a put"),
    "puts": ("a put", "instructions", "I1", "D1", "blocks", "needed", "times"),
    "migrate": ("ms", "`migrate`", "its calls alone", "times"),
    "node": ("clients", "floor", "group", "group's mean to the floor's", "puts a second"),
}
SYNCS = "fsync,fdatasync"


def add_place(form: argparse.ArgumentParser) -> None:
    form.add_argument("folder", metavar="FOLDER", nargs="?", help="on the disk that is to be measured (default: where temporary files are)")


def add_place_and_puts(form: argparse.ArgumentParser) -> None:
    add_place(form)
    form.add_argument("puts", metavar="PUTS", nargs="?", type=whole_number(2, 10 ** 6), default=2000, help="of a client, 2 and more (default: 2000)")


def puts_of(words: argparse.Namespace) -> int:
    return min(int(words.puts), 100) if words.short else int(words.puts)


def machine(place: Place) -> str:
    """What the times were taken on."""
    kind, source = place.run(["df", "--output=fstype,source", place.folder]).out.splitlines()[1].split()
    loads = " ".join(f"{load:.2f}" for load in os.getloadavg())
    return f"machine: {len(os.sched_getaffinity(0))} processors, load {loads}, {kind} on {source}, kernel {os.uname().release}"


# alone

JOURNALS = (("wal", "SQLite, with a write-ahead log"), ("delete", "SQLite, with the journal that it deletes"))
ROUNDS = 5


def measure_alone(words: argparse.Namespace) -> Outcome:
    program, count = places.program(), puts_of(words)
    with Place(words.folder) as place:
        for name, more in (("sqlite.c", ("-lsqlite3",)), ("stamp.c", ())):
            place.compile(name, *more)
        notes = [machine(place)]
        group = Program(place, program, count, size=1, more=["--v2"])
        group.start_all()
        found: Dict[str, List[float]] = {name: [] for name in ("group", *dict(JOURNALS))}
        for turn in range(1 if words.short else ROUNDS):
            say(f"round {turn + 1}: {count:,} puts of each")
            found["group"] += times_of_group(group)
            for journal, _ in JOURNALS:
                found[journal] += times_of_database(place, journal, count)
        say("the syncs, by strace")
        syncs = {"group": syncs_of_group(group), **{journal: syncs_of_database(place, journal, count) for journal, _ in JOURNALS}}
        rows = [paced(name, reading.times_of(found[kind]), syncs[kind] / count) for kind, name in (("group", "a group of one, over UDP"), *JOURNALS)]
    return Outcome(table(COLUMNS["alone"], rows), notes)


def paced(name: str, times: reading.Times, syncs: float) -> Tuple[str, ...]:
    return name, grouped(1e6 / times.mean), told(times), f"{syncs:.2f}"


def times_of_group(group: Program) -> List[float]:
    """The microseconds of its puts, by one client."""
    times = group.place / "times"
    for child in group.client(1, times):
        child.wait()
        group.place.forget(child)
    return reading.times_in(times.read_text(encoding="ascii"))


def database(place: Place, journal: str, count: int) -> List[str]:
    """The command that puts into a new database of SQLite."""
    for old in place.folder.glob("db*"):
        old.unlink()
    return [str(place / "sqlite"), str(place / "db"), str(count), journal]


def times_of_database(place: Place, journal: str, count: int) -> List[float]:
    return reading.times_in(place.run(database(place, journal, count)).out)


def syncs_of_group(group: Program) -> int:
    with traced(group.place, group.children[0].pid, SYNCS) as calls:
        times_of_group(group)
    return syncs_in(calls)


def syncs_of_database(place: Place, journal: str, count: int) -> int:
    calls = place / "calls"
    place.run(["strace", "-c", "-f", "-e", f"trace={SYNCS}", "-o", calls, *database(place, journal, count)])
    return syncs_in(calls)


def syncs_in(calls: Path) -> int:
    return sum(reading.system_calls(calls.read_text(encoding="ascii")).values())


# puts

# Blocks of each text that is new to the member, once, checkpoints and superblocks among them: where a format changes, these are to be found anew.
WATCHED = (("at the primary", 0, 27.2), ("at a backup", 1, 18.8))
BEGINS, PUT_LIMIT, PROFILE_LIMIT = 3.0, 300.0, 60.0  # seconds for valgrind to begin, for the puts, and for it to write what it counted


class Taken(NamedTuple):
    """What a run took of a member: instructions, misses, and blocks that it digested."""

    instructions: int
    i1: int
    d1: int
    blocks: int


def measure_puts(words: argparse.Namespace) -> Outcome:
    program = places.program()
    few, many = (50, 150) if words.short else (200, 1224)
    rows = []
    for name, member, needed in WATCHED:
        early, late = (taken(program, words.folder, member, count) for count in (few, many))
        each = [(after - before) / (many - few) for before, after in zip(early, late)]
        rows.append((name, *(grouped(one) for one in each[:3]), f"{each[3]:.1f}", f"{needed:.1f}", f"{each[3] / needed:.2f}"))
    return Outcome(table(COLUMNS["puts"], rows), [])


def taken(program: str, folder: Optional[str], watched: int, count: int) -> Taken:
    """One group, of which this member runs under valgrind. Of a backup's group the third is down, since it would fall behind the others."""
    say(f"member {watched} under valgrind, {count:,} puts")
    with Place(folder) as place:
        profile = place / "profile"
        under = ["valgrind", "--tool=callgrind", "--compress-strings=no", *CACHES, f"--callgrind-out-file={profile}"]
        group = Program(place, program, count)
        group.keeps = True
        # The one under valgrind has time to begin: where that is the primary, the others would choose another one before it is there. As long each
        # time, so that its ticks until then are as many.
        for member in (0, 1) if watched else (0, 1, 2):
            group.start(member, under if member == watched else ())
            if member == watched:
                time.sleep(BEGINS)
                group.await_one(member)
        group.await_all()
        answers = place.run(group.asking(), puts(place, count, 1), most=PUT_LIMIT).out.splitlines()
        group.end(PROFILE_LIMIT)
        check_answers(answers, count, group.lines(watched).read_text(encoding="ascii", errors="replace"))
        lines = profile.read_text(encoding="utf-8", errors="replace").splitlines()
        missed = reading.misses(lines)
        return Taken(missed.instructions, missed.i1, missed.d1, reading.calls(lines))


def check_answers(answers: Sequence[str], count: int, lines: str) -> None:
    """Each put was answered, by a primary that led all the time."""
    if sum(answer == "ok" for answer in answers) < count:
        raise Refused(f"the group answered {len(answers)} lines, and not all of {count} puts")
    if any(f"view {view}" in lines for view in range(1, 10)):
        raise Refused("the group changed its primary meanwhile, since the one under valgrind was too slow: run it where nothing else goes on")


# migrate

CALLS = 17  # that a migration makes
MOST_TIMES = 5  # that it may take as long as its calls
TURNS_OF_EACH = 9


def measure_migrate(words: argparse.Namespace) -> Outcome:
    program = places.program()
    with Place(words.folder) as place:
        moves, span = place.compile("moves.c"), place / "span.so"
        place.compile("span.c", "-shared", "-fPIC").rename(span)
        full = full_file(place, program)
        commands = {"program": [program, "migrate", "5", "0", "2"], "calls": [str(moves)]}
        whole: Dict[str, List[float]] = {name: [] for name in commands}
        for turn in range(3 if words.short else TURNS_OF_EACH):
            say(f"round {turn + 1}")
            for name, command in commands.items():
                whole[name].append(migrated(place, full, command, span, place / f"{name}.span"))
        spans = {name: spanned((place / f"{name}.span").read_text(encoding="ascii")) for name in commands}
        notes = [machine(place)]
    rows, holds = [], True
    for what, found in (("from the first write to the end of the last sync", spans), ("whole, from the start of the program to its end", whole)):
        ours, floor = (reading.times_of(found[name]).median for name in ("program", "calls"))
        rows.append((what, f"{ours / 1000:.2f}", f"{floor / 1000:.2f}", f"{ours / floor:.2f}"))
        holds = holds and (found is whole or ours <= MOST_TIMES * floor)
    return Outcome(table(COLUMNS["migrate"], rows), notes, holds)


def full_file(place: Place, program: str) -> Path:
    """A member's file with entries in each slot: that of a group of two."""
    group = Program(place, program, 0, size=2)
    group.start_all()
    place.run(group.asking(), "".join(f"put k{turn % 10} {turn:0100d}\n" for turn in range(200)))
    group.end()
    return group.file(0)


def migrated(place: Place, full: Path, command: Sequence[str], span: Path, spans: Path) -> float:
    """The microseconds of a command on a copy of the file, from its start to its end; what span.c tells of it is added to a file."""
    copy = place / "copy"
    shutil.copyfile(full, copy)
    with open(copy, "rb") as file:
        os.fsync(file.fileno())
    before = time.monotonic()
    place.run([*command, copy], env={"SPAN": str(spans), "LD_PRELOAD": str(span)})
    return (time.monotonic() - before) * 1e6


def spanned(text: str) -> List[float]:
    """The microseconds of each run by span.c; Refused where one made other calls."""
    rows = [line.split() for line in text.splitlines()]
    if any(int(calls) != CALLS for _, calls in rows):
        raise Refused(f"a migration made {' or '.join(sorted({calls for _, calls in rows}))} calls, and not {CALLS}")
    return [float(micros) for micros, _ in rows]


# node

CLIENTS = (1, 2, 4, 8)
MOST_OF_FLOOR = 2.0  # times the floor's mean that one client's may be
IDLE = 10.0


def add_node(form: argparse.ArgumentParser) -> None:
    add_place_and_puts(form)
    form.add_argument("--tcp", action="store_true", help="the group over TCP; the floor's messages are datagrams all the same")


class Measured(NamedTuple):
    """A group of one kind: how fast its clients were answered, and the nanoseconds of a processor a put of one client, by member."""

    paces: Dict[int, Pace]
    busy: List[float]

    def share(self) -> str:
        """The microseconds of a put, as the page has them."""
        return ", ".join(f"{one / 1000:.0f}" for one in self.busy)


def measure_node(words: argparse.Namespace) -> Outcome:
    program, count, over = places.program(), puts_of(words), "TCP" if words.tcp else "UDP"
    with Place(words.folder) as place:
        for name in ("floor.c", "stamp.c", "etcd.c"):
            place.compile(name)
        notes = [f"group over {over}; {machine(place)}", *disk_and_trips(place, 100 if words.short else 2000)]
        floor = Floor(place, count)
        under = asked(floor, count)
        floor.end()
        group = Program(place, program, count, scheme="tcp:" if words.tcp else "")
        ours = asked(group, count)
        notes += [line for member in range(group.size) for line in [group.last_word(member)] if line] + etcd_paces(place, count)
        notes += system_calls(group, count)
        idle, paused = idle_share(group, 2.0 if words.short else IDLE), pause(group, count)
    rows = [(clients, told(under.paces[clients].times), told(ours.paces[clients].times), f"{ratio(ours, under, clients):.2f}", grouped(ours.paces[clients].rate)) for clients in CLIENTS]
    lines = [
        *table(COLUMNS["node"], rows), "",
        *table(("of the same run", over), [
            ("a put's µs of a processor: primary, two backups", ours.share()), ("the same in the floor", under.share()),
            ("an idle member's share of a processor", f"{idle:.1%}"), ("ms between two answers when the primary was killed", paused)])]
    return Outcome(lines, notes, ratio(ours, under, 1) <= MOST_OF_FLOOR)


def ratio(ours: Measured, under: Measured, clients: int) -> float:
    return ours.paces[clients].times.mean / under.paces[clients].times.mean


def asked(members: Members, count: int) -> Measured:
    """Members that are started, and clients side by side."""
    members.start_all()
    paces = {}
    busy: List[float] = []
    for clients in CLIENTS:
        say(f"{members.kind}: {count:,} puts of each client, so many clients at once: {clients}")
        before = members.busy()
        paces[clients] = side_by_side(members, clients, count)
        busy = busy or [(after - early) / count for early, after in zip(before, members.busy())]
    return Measured(paces, busy)


def disk_and_trips(place: Place, count: int) -> List[str]:
    """What the disk and the loopback take by themselves."""
    lines = []
    for how, what in (("sync", "512 bytes written and synced"), ("direct", "the same past the page cache, as no member does")):
        ran = place.run([place / "floor", how, place / "sync", str(count)])
        found = reading.times_in(ran.out)
        lines.append(f"{what}: {told(reading.times_of(found))} µs, {ran.err.strip()} µs of a processor" if found else f"{what}: not measured")
    echo = Members(place, 1, 1)
    echo.begin(0, [place / "floor", "echo", echo.port], given=subprocess.PIPE)
    echo.await_all()
    trips = reading.times_in(place.run([place / "floor", "trip", str(echo.port), str(count)]).out)
    echo.end()
    return [*lines, f"round trip of 256 bytes: {told(reading.times_of(trips))} µs"]


def etcd_paces(place: Place, count: int) -> List[str]:
    """The same puts on a group of etcd, where it is installed."""
    if shutil.which("etcd") is None:
        return ["etcd: not measured (it is not installed)"]
    members = Etcd(place, count)
    try:
        return [f"etcd, {clients} clients: {pace}" for clients, pace in asked(members, count).paces.items()]
    except Refused as why:
        return [f"etcd: not measured ({why})"]
    finally:
        members.end()


def system_calls(group: Program, count: int) -> List[str]:
    """Those of a put, at the primary and at a backup."""
    lines = []
    for member in (0, 1):
        with traced(group.place, group.children[member].pid) as calls:
            side_by_side(group, 1, count)
        made = reading.system_calls(calls.read_text(encoding="ascii"))
        lines.append(f"member {member}, system calls a put: " + ", ".join(f"{name} {times / count:.2f}" for name, times in made.items()))
    return lines


def idle_share(group: Program, seconds: float) -> float:
    """The part of a processor that a member takes which nobody asks."""
    say("the idle group")
    before, begun = group.busy(), time.monotonic()
    time.sleep(seconds)
    took = time.monotonic() - begun
    return sum(after - early for early, after in zip(before, group.busy())) / group.size / (took * 1e9)


def pause(group: Program, count: int) -> str:
    """The longest milliseconds between two answers of a client that goes on asking, half of whose lines were answered when the primary was killed. The
    members wait five ticks of 100 ms before they change the view."""
    say("the primary is killed")
    times = group.place / "pause"
    children = group.stamped(puts(group.place, 2 * count, 1), times, "each")
    await_that(lambda: len(answered(times)) >= count or children[0].poll() is not None, f"{count} puts are answered", 60.0)
    before = len(answered(times))
    group.kill(0)
    for child in children:
        child.wait()
        group.place.forget(child)
    found = answered(times)
    if len(found) < 2 * count or before >= 2 * count:
        return f"not measured ({before} answers before it, {len(found)} in all, of {2 * count})"
    return grouped(max(found) / 1000)


def answered(times: Path) -> List[float]:
    """The times in a file that is being written: whole lines alone."""
    return reading.times_in(times.read_text(encoding="ascii").rpartition("\n")[0])


GROUP_NEEDS = ("cc", "strace", "df")
FIGURES: Tuple[Figure, ...] = (
    Figure("node", "three members beside the floor of the rules, and etcd where it is installed: puts a second and their times, system calls, and the pause when the primary is "
           "killed; 1 where one client's mean is above twice the floor's", 180, GROUP_NEEDS, measure_node, add_node, ("node", "node --tcp")),
    Figure("puts", "what a put takes of a member: instructions, misses of the caches, and blocks that it digests", 240, ("valgrind",), measure_puts, add_place, ("puts",)),
    Figure("alone", "a group of one and SQLite, in turn on the same disk: puts a second, the times of one, and its syncs; that needs SQLite's headers too", 120, GROUP_NEEDS,
           measure_alone, add_place_and_puts, ("alone",)),
    Figure("migrate", "a migration of a member's file, in turn with its calls alone; 1 where it takes above five times those from the first write to the last sync", 30,
           ("cc", "df"), measure_migrate, add_place),
)
