"""Tells what the gate costs, by crate, in seconds of a processor, and how long its tasks take on two and on four processors.

  ./nozhgiva gate-cost [--save FILE] rt ci [NAME..]    runs the command at the top of the clone, and looks at its processes five times a second
  ./nozhgiva gate-cost --from FILE                     tells again what such a run saved; `./nozhgiva map --cost FILE` puts it beside the map

Kinds: `proof` of the crate itself, `tests` proved, `seed` its second check, over which `edits` (its mutation tests) are tried, `compile` of a
program or of tests, `run` of either. What a gate keeps from an earlier run costs nothing: for whole figures give `--anew`. What ran between two
looks is unseen; the last lines tell how much that is. Linux alone.

Its status is the command's own, 1 where that was killed; 2 where the words are wrong, or a file can't be read or written.
"""

import argparse
import functools
import heapq
import json
import os
import re
import resource
import subprocess
import sys
import time
from pathlib import Path
from typing import Dict, FrozenSet, Iterator, List, Mapping, NamedTuple, Optional, Set, Tuple

from . import mapping

PAUSE = 0.2
KINDS = ("proof", "tests", "seed", "edits", "compile", "run")
TICK = os.sysconf("SC_CLK_TCK")
Task = Tuple[str, str]  # a crate, and what is done for it: one of KINDS
Cost = Dict[str, Dict[str, float]]  # by crate, by kind: seconds of a processor
# What a task waits for in its own crate; all others wait for the proofs of the libraries.
AFTER = {"edits": ("seed", "proof"), "compile": ("proof",), "run": ("compile", "tests")}


class Refused(Exception):
    """Something that this can't work with; its text says what."""


class Seen(NamedTuple):
    """A process as it was seen last: its words, its folder, and the seconds that it has used."""

    words: str
    folder: str
    seconds: float


class Clock(NamedTuple):
    """How long tasks take, in seconds: all of them, and the longest chain of tasks that wait for each other."""

    whole: float
    chain: float


def task_of(words: str, folder: str) -> Optional[Task]:
    """The crate that a process works for, by its words, and what it does; None where it is rt itself."""
    name = re.search(r"--crate-name (\w+)", words)
    if not name:
        ran = re.search(r"/rt-run-[^ ]*/bin/(\w+?)(?:_tests)?(?:[. ]|$)", words) or re.search(r"(?:/crates/| out/)(\w+)", words)
        return (ran[1], "compile" if "rattle-link" in words else "run") if ran else None
    if "/rt-edit" in words + folder:
        return name[1], "seed" if re.search(r"--incremental \S*/seed( |$)", words) else "edits"
    return name[1], "tests" if " --test " in words else "compile" if "--crate-checked" in words else "proof"


def look(pid: int, seen: Dict[Tuple[int, str], Seen]) -> None:
    """Notes each process at or below this one. A process that ends meanwhile stays as it was seen before."""
    at = Path(f"/proc/{pid}")
    try:
        stat = (at / "stat").read_text().rpartition(")")[2].split()
        key = pid, stat[19]
        words = (at / "cmdline").read_text(errors="replace").replace("\0", " ") or seen[key].words
        seen[key] = Seen(words, os.readlink(at / "cwd"), (int(stat[11]) + int(stat[12])) / TICK)
        for task in (at / "task").iterdir():
            for child in (task / "children").read_text().split():
                look(int(child), seen)
    except (OSError, LookupError):
        pass


def cost_of(seen: Mapping[Tuple[int, str], Seen]) -> Cost:
    """The seconds of all processes that were seen, by crate and kind."""
    cost: Cost = {}
    for one in seen.values():
        task = task_of(one.words, one.folder)
        if task:
            kinds = cost.setdefault(task[0], {})
            kinds[task[1]] = kinds.get(task[1], 0.0) + one.seconds
    return cost


def waits_of(libraries: Mapping[str, Tuple[str, ...]]) -> Dict[Task, Set[Task]]:
    """What each task waits for: those of its own crate, or the proofs of the libraries that are crates."""
    waits = {}
    for name, uses in libraries.items():
        below: Set[Task] = {(it, "proof") for it in uses if it in libraries}
        for kind in KINDS:
            waits[name, kind] = {(name, it) for it in AFTER[kind]} if kind in AFTER else below
    return waits


def clock(lanes: int, seconds: Mapping[Task, float], waits: Mapping[Task, Set[Task]]) -> Clock:
    """How long the tasks take on so many processors, one each; what has the longest chain behind it begins first."""
    waiting: Dict[Task, List[Task]] = {one: [] for one in waits}
    for one, before in waits.items():
        for it in before:
            waiting[it].append(one)

    @functools.lru_cache(maxsize=None)
    def chain(one: Task) -> float:
        return seconds[one] + max((chain(it) for it in waiting[one]), default=0.0)

    left = sorted(waits, key=lambda one: -chain(one))
    running: List[Tuple[float, Task]] = []
    ended: Set[Task] = set()
    now = 0.0
    while left or running:
        for one in ready(left, waits, frozenset(ended))[:lanes - len(running)]:
            left.remove(one)
            heapq.heappush(running, (now + seconds[one], one))
        if not running:
            raise ValueError("crates.txt: crates stand in a circle")
        now, one = heapq.heappop(running)
        ended.add(one)
    return Clock(now, max(map(chain, waits), default=0.0))


def ready(left: List[Task], waits: Mapping[Task, Set[Task]], ended: FrozenSet[Task]) -> List[Task]:
    return [one for one in left if waits[one] <= ended]


def table(cost: Cost) -> Iterator[str]:
    """A line for each crate, the dearest first, and one for the sum."""
    whole = {kind: sum(kinds.get(kind, 0.0) for kinds in cost.values()) for kind in KINDS}
    yield f"{'crate':18}{'sum':>8}" + "".join(f"{kind:>8}" for kind in KINDS)
    for name, kinds in [*sorted(cost.items(), key=lambda it: -sum(it[1].values())), ("all", whole)]:
        yield f"{name:18}{sum(kinds.values()):8.0f}" + "".join(f"{kinds.get(kind, 0.0):8.0f}" for kind in KINDS)


def told(cost: Cost, used: float, libraries: Mapping[str, Tuple[str, ...]]) -> Iterator[str]:
    """The table, the minutes of a processor, and the clock on two and on four."""
    yield from table(cost)
    unseen = used - sum(sum(kinds.values()) for kinds in cost.values())
    yield f"processor minutes: {used / 60:.1f}, of them unseen or of rt itself {unseen / 60:.1f}"
    waits = waits_of(libraries)
    seconds = {one: cost.get(one[0], {}).get(one[1], 0.0) for one in waits}
    for lanes in (2, 4):
        whole, chain = clock(lanes, seconds, waits)
        yield f"on {lanes} processors {whole / 60:.1f} minutes; the longest chain {chain / 60:.1f}"


def make_parser() -> argparse.ArgumentParser:
    what, _, more = (__doc__ or "").partition("\n\n")
    form = argparse.ArgumentParser(
        prog="gate-cost", description=what, epilog=more, formatter_class=argparse.RawDescriptionHelpFormatter,
        usage="nozhgiva gate-cost [--save FILE] COMMAND [WORD..]\n       nozhgiva gate-cost --from FILE")
    form.add_argument("--save", metavar="FILE", type=Path, help="keeps what was seen there")
    form.add_argument("--from", metavar="FILE", type=Path, dest="saved", help="tells what was kept there, and runs nothing")
    form.add_argument("command", metavar="COMMAND", nargs=argparse.REMAINDER, help="what is run and looked at, as `rt ci`")
    return form


def words() -> argparse.Namespace:
    form = make_parser()
    said = form.parse_args()
    if bool(said.saved) == bool(said.command) or (said.saved and said.save):
        form.error("give a command, or --from and a file")
    return said


def watched(command: List[str]) -> Tuple[Cost, float, int]:
    """Runs a command, and gives what its processes cost, the seconds of them all, and its status."""
    seen: Dict[Tuple[int, str], Seen] = {}
    try:
        child = subprocess.Popen(command)
    except OSError as error:
        raise Refused(f"{command[0]} doesn't start: {error.strerror}") from error
    try:
        while os.waitid(os.P_PID, child.pid, os.WEXITED | os.WNOHANG | os.WNOWAIT) is None:
            look(child.pid, seen)
            time.sleep(PAUSE)
    finally:
        child.wait()
    used = resource.getrusage(resource.RUSAGE_CHILDREN)
    return cost_of(seen), used.ru_utime + used.ru_stime, child.returncode


def kept(path: Path) -> Tuple[Cost, float]:
    try:
        cost, used = json.loads(path.read_text(encoding="utf-8"))
        return {name: {kind: float(it) for kind, it in kinds.items()} for name, kinds in cost.items()}, float(used)
    except (OSError, UnicodeDecodeError) as error:
        raise Refused(f"{path} can't be read: {error}") from error
    except (ValueError, TypeError, AttributeError) as error:
        raise Refused(f"{path} is nothing that --save wrote") from error


def keep(path: Path, text: str) -> None:
    """Writes a run's figures; without any it only sees whether they could be written, and leaves what stands there."""
    try:
        with path.open("w" if text else "a", encoding="utf-8") as file:
            file.write(text)
    except OSError as error:
        raise Refused(f"{path} can't be written: {error.strerror}") from error


def main() -> int:
    said = words()
    try:
        libraries = {crate.name: crate.libraries for row in mapping.read() for crate in row.crates}
    except OSError as error:
        raise Refused(f"{error.filename}: {error.strerror}; it wants a clone of the repository") from error
    status = 0
    if said.saved:
        cost, used = kept(said.saved)
    else:
        if said.save:
            keep(said.save, "")
        cost, used, status = watched(said.command)
        if said.save:
            keep(said.save, json.dumps([cost, used]))
    print("\n".join(told(cost, used, libraries)), flush=True)
    return status if status >= 0 else 1


def run() -> None:
    """Runs it to its end."""
    try:
        sys.exit(main())
    except Refused as refused:
        print(f"./nozhgiva gate-cost: {refused}", file=sys.stderr)
        sys.exit(2)
    except KeyboardInterrupt:
        sys.exit(130)
    except BrokenPipeError:
        os.dup2(os.open(os.devnull, os.O_WRONLY), sys.stdout.fileno())
        sys.exit(141)


if __name__ == "__main__":
    run()
