"""The language of schedules, as docs/SCHEDULE.md has it, to say why a line is refused. The program decides; this only explains."""

import re
from typing import Callable, Dict, List, NamedTuple, Optional, Tuple

from nozhgiva_tools.told import store

MOST_LINES = 1000000
MOST_KEY = 64
# By the version of a group's files: the longest line, the longest value, and how many sectors may be named.
MOST_LINE, MOST_VALUE, SECTORS = {1: 1135, 2: 3111}, {1: 1024, 2: 3000}, {1: 1424, 2: 3984}
NUMBER = re.compile(r"0|[1-9][0-9]*")
FORMS: Dict[str, Tuple[str, ...]] = {
    "deliver": ("X",), "tick": ("R",), "stop": ("R",), "start": ("R",), "migrate": ("R",), "fuse": ("R", "J", "CODE"), "damage": ("R", "S"), "stale": ("R", "S"),
    "unread": ("R", "S"), "misdirect": ("R", "S", "T"),
}
# The least value of a word and the first beyond it; a replica's and a sector's go by the group.
BOUNDS = {"X": (0, 1 << 64), "J": (1, 1000001), "CODE": (0, 1 << 64), "C": (1, 1 << 64), "Q": (0, 1 << 32)}


class Group(NamedTuple):
    """What the first line made."""

    members: int
    version: int


def first_refused(lines: List[bytes]) -> Optional[Tuple[int, str]]:
    """The number of the first line that is refused, and why; `lines` is a text, split at LF."""
    if lines and not lines[-1]:
        lines = lines[:-1]
    if not lines:
        return 1, "the schedule is empty: its first line is `cluster N`"
    group: Optional[Group] = None
    for number, line in enumerate(lines, 1):
        why = "a schedule has at most 1,000,000 lines" if number > MOST_LINES else why_refused(line, group)
        if why:
            return number, why
        group = group or group_of(line.decode().split(" "))
    return None


def why_refused(line: bytes, group: Optional[Group]) -> Optional[str]:
    """Why a line is refused in a group, or as the first one where there is none yet."""
    most = MOST_LINE[group.version if group else 2]
    if len(line) > most:
        return f"it has {len(line)} bytes, and a line has at most {most} here"
    why = why_bytes(line)
    if why:
        return why
    words = line.decode("ascii").split(" ")
    if group is None:
        return why_first(words)
    if words[0] == "cluster":
        return "`cluster` stands in the first line alone"
    if words[0] == "request":
        return why_request(words, group)
    if words[0] not in FORMS:
        return f"no line begins with `{words[0]}`: there are request, {', '.join(FORMS)}"
    return why_words(words, FORMS[words[0]], group)


def why_bytes(line: bytes) -> Optional[str]:
    """What a line may not have anywhere."""
    rows: Tuple[Tuple[Callable[[bytes], bool], str], ...] = (
        (lambda it: it.endswith(b"\r"), "it ends with a carriage return: lines end with LF alone"),
        (lambda it: not it, "it is empty: the language has no empty lines (`nozhgiva run` takes them out)"),
        (lambda it: it.startswith(b"#"), "it is a comment: the language has none (`nozhgiva run` takes them out)"),
        (lambda it: it.startswith(b" "), "it is indented, as outputs are: the language has no such line (`nozhgiva run` takes them out)"),
        (lambda it: it.endswith(b" "), "it ends with a space"),
        (lambda it: b"  " in it, "two spaces stand in a row: words stand exactly one apart"),
        (lambda it: b"\t" in it, "it has a tab: words stand exactly one space apart"),
        (lambda it: any(not 32 <= byte < 127 for byte in it), "it has a byte that isn't printable ASCII"),
    )
    return next((why for holds, why in rows if holds(line)), None)


def group_of(words: List[str]) -> Optional[Group]:
    """The group that a first line makes, if it makes one."""
    if len(words) < 2 or words[0] != "cluster" or words[2:] not in ([], ["careful"], ["v2"], ["careful", "v2"]):
        return None
    version = 2 if words[-1] == "v2" else 1
    if not re.fullmatch("[1-6]", words[1]) or int(words[1]) < 3 - version:
        return None
    return Group(int(words[1]), version)


def why_first(words: List[str]) -> Optional[str]:
    if words[0] != "cluster":
        return "the first line is `cluster N`, which makes N replicas"
    if group_of(words):
        return None
    return "a group is `cluster N`, `cluster N careful`, `cluster N v2` or `cluster N careful v2`, N from 2 to 6, with v2 from 1 to 6"


def why_request(words: List[str], group: Group) -> Optional[str]:
    why = why_words(words[:4], ("R", "C", "Q"), group)
    if why:
        return why
    name = words[4] if len(words) > 4 else ""
    if name not in store.FORMS:
        return "behind `request R C Q` stands register, put KEY VALUE, get KEY or del KEY"
    if (words[3] == "0") != (name == "register"):
        return "number 0 stands with register, and with nothing else"
    return why_words(words[4:], store.FORMS[name], group)


def why_words(words: List[str], names: Tuple[str, ...], group: Group) -> Optional[str]:
    """Whether the words behind the first one are as many as their names, and each within its bounds."""
    form = " ".join((words[0], *names))
    if words[0] == "request":
        form += " OP"
    if len(words) != len(names) + 1:
        return f"its form is `{form}`"
    for name, word in zip(names, words[1:]):
        why = why_word(name, word, group)
        if why:
            return f"{why} (`{form}`)"
    if words[0] == "misdirect" and words[2] == words[3]:
        return "a write goes astray to another sector than its own"
    return None


def why_word(name: str, word: str, group: Group) -> Optional[str]:
    if name in ("KEY", "VALUE"):
        most = MOST_KEY if name == "KEY" else MOST_VALUE[group.version]
        return f"a {name.lower()} has 1 to {most} bytes, and this one {len(word)}" if len(word) > most else None
    if not NUMBER.fullmatch(word):
        return f"{name} is a number without sign and without leading zeros, and not `{word}`"
    least, beyond = (0, group.members) if name == "R" else (0, SECTORS[group.version]) if name in ("S", "T") else BOUNDS[name]
    if least <= int(word) < beyond:
        return None
    what = {"R": "the group has no such replica: ", "S": "no such sector is used: ", "T": "no such sector is used: "}.get(name, "")
    return f"{what}{name} is from {least} to {beyond - 1}, and not {word}"
