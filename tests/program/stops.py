"""Stops replica 1 at each call of its disk with three codes, also of a migration, and then makes each of its sectors unreadable, over
schedules of the built program, for strict and for careful files.
  ./nozhgiva test stops
The schedule: a group of two, client 7 registers and puts 32 times, each message delivered in turn. Replica 1 makes so many writes and
syncs in it after formatting. With a fuse at call J the delivery that it cuts prints `halt 1`; then replica 1 is started and the message
delivered again. The lines of replica 0, and all `send` lines, are those of the run without a fuse. Then an opening is stopped at each of
its calls: of one that mends a copy of the superblock and writes a header sector whose prepare stands; started once more, the replica
acknowledges the operation. Then a migration of replica 1 is stopped at each of its calls, and done once more: what comes after it, when
replica 0 is migrated too and both are started, is what comes after a migration that wasn't stopped. Up to the sync behind the moved
prepares the file is of version 1 still. After the whole schedule a sector of replica 1 that its file has a use for can't be read, and it is
stopped and started: it comes back in view 0 with commit number 32. At last the only replica of a group of one, on files of version 2, is
stopped at each call of the same client's operations; then it is started, a tick lets it choose its log, and the request is sent again. Each
reply of the run without a fuse comes, and no other one. On careful files a torn prepare isn't denied, so there it may wait at that operation."""

import os
import subprocess
import sys
from concurrent.futures import ThreadPoolExecutor
from typing import Dict, Iterable, List, Sequence, Tuple, TypeVar, Union

from nozhgiva_tools.run.built import or_end as built
from nozhgiva_tools.run.scripts import no_words

# 33 entries of 7 calls, a checkpoint of 25, and a save of the superblock of 84.
CALLS = 33 * 7 + 25 + 84
# A copy of the superblock that is mended, and a header sector with its sync.
OPENING_CALLS = 22 + 2
# Eight sectors for each of 64 slots and a sync; then four copies of 20 sectors, each with a sync.
MOVED_CALLS = 64 * 8 + 1
MIGRATION_CALLS = MOVED_CALLS + 4 * 21
# On files of version 2 an entry has 11 calls.
ALONE_CALLS = 33 * 11 + 25 + 84
# Those that a file of version 1 has a use for.
SECTORS = 1424
GROUPS = ["cluster 2", "cluster 2 careful"]
ALONE = ["cluster 1 v2", "cluster 1 careful v2"]
ONES, TWOS = 6078832729528464400, 12157665459056928800

Stop = Tuple[int, int]  # at which call, and with which code
Fault = Union[None, str, List[str]]  # what was wrong: a word, or the lines that came
One = TypeVar("One")


def schedule() -> List[str]:
    lines = []
    for op in range(33):
        lines.append(f"request 0 7 {op} {'put a b' if op else 'register'}")
        lines += [f"deliver {2 * op}", f"deliver {2 * op + 1}"]
    return lines


def replay(program: str, lines: List[str]) -> List[str]:
    text = "".join(line + "\n" for line in lines)
    run = subprocess.run([program, "replay"], input=text, stdout=subprocess.PIPE, text=True, check=True)
    return run.stdout.splitlines()


def kept(outputs: List[str]) -> List[str]:
    return [line for line in outputs if line.startswith("send ") or line.split()[1:2] == ["0"]]


def fused(program: str, group: str, lines: List[str], base: List[str], starts: Dict[int, int], call: int, code: int) -> Fault:
    fuse = f"fuse 1 {call} {code}"
    outputs = replay(program, [group, fuse] + lines)
    if "halt 1" not in outputs:
        return "halt" if call <= CALLS or outputs != base else None
    at = starts[outputs.index("halt 1")]
    outputs = replay(program, [group, fuse] + lines[:at + 1] + ["start 1", lines[at]] + lines[at + 1:])
    return None if call <= CALLS and outputs.count("halt 1") == 1 and kept(outputs) == kept(base) else "outputs"


def opened(program: str, group: str, call: int, code: int) -> Fault:
    """What an opening writes: a copy of the superblock that is damaged, and the header of an entry that was stored without it."""
    left = [group, "request 0 7 0 register", "fuse 1 6 0", "deliver 0", "damage 1 0", f"fuse 1 {call} {code}", "start 1"]
    stopped = ["send 0 0 1 prepare view 0 op 1 made 0 commit 0", "halt 1", "done"] + ["halt 1"] * (call <= OPENING_CALLS)
    wanted = stopped + ["start 1 view 0 log_view 0 commit 0", "send 1 1 0 prepare_ok view 0 op 1 made 0"]
    outputs = replay(program, left + ["start 1", "deliver 0"])
    return None if outputs == wanted else outputs


def heard(program: str, lines: List[str]) -> List[str]:
    """These lines, and all messages delivered that are sent in them and in what comes of them, each once."""
    delivered = sum(line.startswith("deliver ") for line in lines)
    while True:
        sent = sum(line.startswith("send ") for line in replay(program, lines))
        if sent == delivered:
            return lines
        lines = lines + [f"deliver {number}" for number in range(delivered, sent)]
        delivered = sent


def migrating(program: str, group: str) -> Tuple[List[str], List[str]]:
    """A schedule up to where replica 1 is migrated; and from there on, where both are in version 2 and begin a view."""
    lines = [group]
    for op in range(4):
        lines = heard(program, lines + [f"request 0 7 {op} {'put a b' if op else 'register'}"])
    lines = heard(program, lines + ["tick 0"]) + ["stop 1"]
    rest = ["stop 0", "migrate 0", "start 0", "start 1"]
    whole = lines + ["migrate 1"] + rest
    for _ in range(12):
        whole = heard(program, whole + ["tick 0", "tick 1"])
    whole = heard(program, whole + ["request 1 8 0 register"])
    return lines, whole[len(lines) + 1:]


def moved(program: str, lines: List[str], rest: List[str], call: int, code: int) -> Fault:
    """What a migration that is stopped leaves: of version 1 up to the saving of the value, and then of either version."""
    front = replay(program, lines)
    if call > MIGRATION_CALLS:
        return None if replay(program, lines + [f"fuse 1 {call} {code}", "migrate 1"]) == front + ["migrated 1"] else "halt"
    behind = replay(program, lines + ["migrate 1"] + rest)[len(front) + 1:]
    outputs = replay(program, lines + [f"fuse 1 {call} {code}", "migrate 1", "migrate 1"] + rest)
    again = front + ["halt 1", "migrated 1"] + behind
    done = front + ["halt 1"] + behind
    return None if outputs == again or call > MOVED_CALLS and outputs == done else "outputs"


def unread(program: str, group: str, lines: List[str], base: List[str], sector: int) -> Fault:
    outputs = replay(program, [group] + lines + [f"unread 1 {sector}", "stop 1", "start 1"])
    return None if outputs == base + ["done", "start 1 view 0 log_view 0 commit 32"] else outputs[len(base):]


def replies(outputs: List[str]) -> List[str]:
    """Each once, in the order in which they come first: what is applied again is replied to again."""
    return list(dict.fromkeys(line for line in outputs if line.startswith("reply ")))


def waits(outputs: List[str], base: List[str], at: int) -> bool:
    """It comes back with what it had, waits at that operation and doesn't lead."""
    rest = outputs[2 * at:]
    silent = all(line.startswith(("halt 0", "start 0", "wait 0")) or line.endswith(" redirect 1") for line in rest)
    return outputs[:2 * at] == base[:2 * at] and f"wait 0 view 1 op {at + 1}" in rest and silent


def alone(program: str, group: str, lines: List[str], base: List[str], call: int, code: int) -> Fault:
    fuse = f"fuse 0 {call} {code}"
    outputs = replay(program, [group, fuse] + lines)
    if "halt 0" not in outputs:
        return "halt" if call <= ALONE_CALLS or outputs != base else None
    # Each request before that one is committed and replied to.
    at = outputs.index("halt 0") // 2
    outputs = replay(program, [group, fuse] + lines[:at + 1] + ["start 0", "tick 0", lines[at]] + lines[at + 1:])
    is_well = replies(outputs) == replies(base) or "careful" in group and code == TWOS and waits(outputs, base, at)
    return None if call <= ALONE_CALLS and outputs.count("halt 0") == 1 and is_well else "outputs"


def stops(count: int) -> List[Stop]:
    return [(call, code) for call in range(1, count + 2) for code in (0, ONES, TWOS)]


def tried(what: str, runs: Sequence[One], faults: Iterable[Fault]) -> int:
    """How many of these runs had a fault; each is printed."""
    failed = 0
    for run, fault in zip(runs, faults):
        if fault is not None:
            failed += 1
            print(what, run, ":", fault)
    print(len(runs), "runs:", what)
    return failed


def tried_group(program: str, pool: ThreadPoolExecutor, group: str) -> int:
    lines = schedule()
    base = replay(program, [group] + lines)
    # Which line's outputs begin there; of several the last, since those before it have none.
    starts = {len(replay(program, [group] + lines[:at])): at for at in range(len(lines))}
    calls, openings, sectors = stops(CALLS), stops(OPENING_CALLS), range(SECTORS)
    migrations = stops(MIGRATION_CALLS)
    front, rest = migrating(program, group)
    end = replay(program, front + ["migrate 1"] + rest)[-1]
    if end != "reply 1 client 8 request 0 op 5 session":
        print(f"{group}, after a migration:", end)
        return 1
    return (
        tried(f"{group}, a fuse", calls, pool.map(lambda r: fused(program, group, lines, base, starts, *r), calls))
        + tried(f"{group}, a fuse in an opening", openings, pool.map(lambda r: opened(program, group, *r), openings))
        + tried(f"{group}, a fuse in a migration", migrations, pool.map(lambda r: moved(program, front, rest, *r), migrations))
        + tried(f"{group}, a sector that can't be read", sectors, pool.map(lambda s: unread(program, group, lines, base, s), sectors))
    )


def tried_alone(program: str, pool: ThreadPoolExecutor, group: str) -> int:
    lines = [f"request 0 7 {op} {'put a b' if op else 'register'}" for op in range(33)]
    base, calls = replay(program, [group] + lines), stops(ALONE_CALLS)
    return tried(f"{group}, a fuse", calls, pool.map(lambda r: alone(program, group, lines, base, *r), calls))


def main() -> None:
    no_words()
    with ThreadPoolExecutor(os.cpu_count()) as pool:
        failed = sum(tried_group(built(), pool, group) for group in GROUPS)
        failed += sum(tried_alone(built(), pool, group) for group in ALONE)
    sys.exit(1 if failed else 0)


if __name__ == "__main__":
    main()
