"""Numbers out of what valgrind, callgrind_annotate and strace print, and medians."""

import re
from typing import Callable, Dict, Iterable, Iterator, List, NamedTuple, Sequence, Tuple

from . import Refused

# The function of SHA-256 that digests a block of 64 bytes, by its name in the program.
COMPRESSION = "sha2::block256::compress"


class Misses(NamedTuple):
    """Instructions of a run, and what it missed in the caches of instructions, of data, and in the last one."""

    instructions: int
    i1: int
    d1: int
    last: int


class Times(NamedTuple):
    """Of times: the median, the 99th of 100, the mean, and how many they are."""

    median: float
    tail: float
    mean: float
    taken: int


def times_of(found: Iterable[float]) -> Times:
    """The middle one, the lower of two, and the others."""
    ordered = sorted(found)
    if not ordered:
        raise Refused("no time was taken")
    count = len(ordered)
    return Times(ordered[(count + 1) // 2 - 1], ordered[int(count * 0.99 + 0.5) - 1], sum(ordered) / count, count)


def times_in(text: str) -> List[float]:
    """Times that stand one a line."""
    return [float(line.split()[0]) for line in text.splitlines() if line.strip()]


def once(count: Callable[[int], int], few: int, many: int) -> int:
    """What one more takes, where so many take what is counted of them: the start doesn't count."""
    return (count(many) - count(few)) // (many - few)


def collected(said: str) -> int:
    """The instructions that callgrind says at its end."""
    found = re.search(r"Collected : (\d+)", said)
    if not found:
        raise Refused("valgrind doesn't say how many instructions it counted")
    return int(found[1])


def allocations(said: str) -> int:
    """How often memory was asked for, as memcheck says at its end."""
    found = re.search(r"total heap usage: ([\d,]+) allocs", said)
    if not found:
        raise Refused("valgrind doesn't say how often memory was asked for")
    return number(found[1])


def number(text: str) -> int:
    """A number with commas between its thousands."""
    return int(text.replace(",", ""))


def misses(lines: Iterable[str]) -> Misses:
    """The sums of a profile of cachegrind or callgrind."""
    events: List[str] = []
    sums: Dict[str, int] = {}
    for line in lines:
        kind, _, rest = line.partition(":")
        if kind == "events":
            events = rest.split()
        elif kind in ("summary", "totals"):
            sums = dict(zip(events, map(int, rest.split())))
    if "Ir" not in sums:
        raise Refused("valgrind's profile has no sums")
    last = ("ILmr", "DLmr", "DLmw")
    return Misses(sums["Ir"], sums.get("I1mr", 0), sums.get("D1mr", 0) + sums.get("D1mw", 0), sum(sums.get(event, 0) for event in last))


def calls(lines: Iterable[str], function: str = COMPRESSION) -> int:
    """How often a function was called, one whose name begins so, as a profile of callgrind with whole names tells."""
    count, is_there, is_it = 0, False, False
    for line in lines:
        if line.startswith("cfn="):
            is_it = line.startswith(f"cfn={function}")
            is_there = is_there or is_it
        elif line.startswith("calls=") and is_it:
            count += int(line.partition("=")[2].split()[0])
    if not is_there:
        raise Refused(f"no function that the program calls has a name that begins with {function}, so its digests can't be counted")
    return count


def annotated(lines: Iterable[str]) -> Iterator[Tuple[int, str]]:
    """The rows of callgrind_annotate: instructions, and what stands after them."""
    for line in lines:
        found = re.match(r" *([\d,]+) (?:\([^)]*\))? *(.*)", line)
        if found:
            yield number(found[1]), found[2]


def whole(lines: Sequence[str]) -> int:
    """The instructions of the whole run by callgrind_annotate."""
    return sum(count for count, text in annotated(lines) if "PROGRAM TOTALS" in text)


def in_digests(lines: Sequence[str]) -> int:
    """Those in functions of SHA-256."""
    return sum(count for count, text in annotated(lines) if re.search(r"sha2|sha256|compress", text))


def within(lines: Sequence[str], function: str) -> int:
    """Those within a function of this name, by an inclusive table."""
    return sum(count for count, text in annotated(lines) if f":{function} " in f"{text} ")


def dearest(lines: Sequence[str], most: int = 10) -> List[str]:
    """The rows of the functions that take most, each with its share, the dearest first."""
    begun = next((place for place, line in enumerate(lines) if "PROGRAM TOTALS" in line), len(lines))
    return [line.strip() for line in lines[begun + 1:] if "%" in line][:most]


def system_calls(text: str) -> Dict[str, int]:
    """How often each was made, by the table of strace -c."""
    rows = (line.split() for line in text.splitlines() if re.match(r" *\d", line))
    return {row[-1]: int(row[3]) for row in rows if len(row) > 4 and row[-1] != "total"}
