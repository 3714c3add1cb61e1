"""The list tools/nozhgiva_tools/house/commanding/commands.txt: which commands aren't run and why, and what the others need to run here."""

import re
from pathlib import Path
from typing import Callable, Dict, FrozenSet, List, Match, NamedTuple, Optional, Sequence, Tuple

from .finding import Command, may_run

TABLE = Path(__file__).parent / "commands.txt"

REASONS = frozenset((
    "needs the prover", "needs root", "needs another machine", "needs images from the network", "needs a debugger", "takes longer than a minute",
    "tells the words of a command"))
BY_CHECK = re.compile(r"run by the check (\S+)")
SERVES, WORDS, BEFORE, SHOWS, ALSO = WAYS = "serves", "words", "before", "shows", "also"


class Entry(NamedTuple):
    page: str
    text: str  # a pattern of commands, in which * stands for any text; else what its section says
    line: int

    def matches(self, command: Command) -> bool:
        pattern = ".*".join(map(re.escape, self.text.split("*")))
        return self.page == command.page and re.fullmatch(pattern, command.text, re.S) is not None


class Listing(NamedTuple):
    left: Dict[str, List[Entry]]  # by their reason
    ways: Dict[str, List[Entry]]  # by one of WAYS
    faults: List[str]

    def reason(self, command: Command) -> Optional[str]:
        return next((reason for reason, entries in self.left.items() if any(one.matches(command) for one in entries)), None)

    def neither(self, commands: Sequence[Command]) -> List[str]:
        """A sentence for each command that is neither run nor listed."""
        told = [one for one in commands if self.reason(one) is None and not may_run(one.text)]
        return [f"{one.page}:{one.line}: neither run nor in commands.txt: {one.text}" for one in told]

    def serves(self, command: Command) -> bool:
        return any(one.matches(command) for one in self.ways[SERVES])

    def of_page(self, way: str, page: str) -> List[str]:
        return [one.text for one in self.ways[way] if one.page == page]

    def words(self, page: str) -> Dict[str, List[str]]:
        """What stands here for the words in capitals of a page: one after the other where there are several."""
        pairs = (text.partition(" = ") for text in self.of_page(WORDS, page))
        return {name: values.split(", ") for name, _, values in pairs}

    def shows(self, page: str) -> Dict[str, str]:
        """The first lines of the blocks that show what commands of a page write."""
        pairs = (text.rpartition(" => ") for text in self.of_page(SHOWS, page))
        return {command: first for command, _, first in pairs}

    def idle(self, commands: Sequence[Command], pages: FrozenSet[str]) -> List[str]:
        """A sentence for each entry that no page has."""
        patterns = [one for entries in (*self.left.values(), self.ways[SERVES], self.ways[ALSO]) for one in entries]
        told = [one for one in patterns if not any(map(one.matches, commands))]
        told += [one for way in (WORDS, BEFORE, SHOWS) for one in self.ways[way] if one.page not in pages]
        texts = {(one.page, one.text) for one in commands}
        told += [one for one in self.ways[SHOWS] if one.page in pages and (one.page, one.text.rpartition(" => ")[0]) not in texts]
        for one in self.ways[WORDS]:
            name = word(one.text.partition(" = ")[0])
            if one.page in pages and not any(of.page == one.page and name.search(of.text) for of in commands):
                told.append(one)
        return [f"commands.txt:{one.line}: an idle entry: no page has it: {one.page}: {one.text}" for one in told]


def word(name: str) -> "re.Pattern[str]":
    """A word in capitals as it stands in commands, and not the variable of this name."""
    return re.compile(rf"(?<![\w$]){re.escape(name)}(?!\w)")


def literally(value: str) -> "Callable[[Match[str]], str]":
    """What puts a value in the place of what was found, as it stands."""
    return lambda _: value


def with_words(text: str, words: Dict[str, List[str]]) -> List[str]:
    """A command with what stands for its words: as many commands as these have values."""
    used = [name for name in words if word(name).search(text)]
    made = []
    for at in range(max((len(words[name]) for name in used), default=1)):
        one = text
        for name in used:
            value = words[name][min(at, len(words[name]) - 1)]
            one = word(name).sub(literally(value), one)
        made.append(one)
    return made


def section_fault(name: str, checks: FrozenSet[str]) -> Optional[str]:
    by = BY_CHECK.fullmatch(name)
    if by:
        return None if by[1] in checks else f"no check {by[1]} in tests/checks.txt"
    return None if name in REASONS or name in WAYS else f"no reason and no way: {name}"


def read(path: Path, checks: FrozenSet[str]) -> Listing:
    left: Dict[str, List[Entry]] = {}
    ways: Dict[str, List[Entry]] = {way: [] for way in WAYS}
    faults: List[str] = []
    section = ""
    for number, line in enumerate(path.read_text(encoding="utf-8").splitlines(), 1):
        head = re.fullmatch(r"\[(.*)\]", line)
        parts: Tuple[str, str, str] = line.partition(": ")
        if not line or line.startswith("#"):
            continue
        if head:
            section = head[1]
            fault = section_fault(section, checks)
            faults += [f"commands.txt:{number}: {fault}"] if fault else []
        elif not section or not parts[2]:
            faults.append(f"commands.txt:{number}: neither a section nor an entry: {line}")
        else:
            (ways[section] if section in ways else left.setdefault(section, [])).append(Entry(parts[0], parts[2], number))
    return Listing(left, ways, faults)
