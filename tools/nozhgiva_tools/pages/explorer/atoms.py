"""What members put out, in its least pieces: lines that are surely of one event, and the messages in them."""

from typing import Dict, List

from nozhgiva_tools.told.lines import owner_of
from nozhgiva_tools.told.memberlines import Line

REPLICATION = {1: 1, 2: 2, 3: 2, 4: 2, 5: 3, 6: 3}
VIEW_CHANGE = {1: 1, 2: 2, 3: 2, 4: 3, 5: 3, 6: 4}
TO_ALL = ("prepare", "beat", "start_view_change")
LOGS = ("start_view", "sync_view")
ANSWERS = ("redirect", "busy", "answer")
NOT_SENT = -1
"""The number of a message that isn't sent yet, or isn't shown."""


NUMBERS = ("view", "op", "commit", "head", "checkpoint")


def numbers_of(words: List[str]) -> Dict[str, int]:
    """The numbers of what a line says, by the words that they first stand behind: what a client put stands last, and may be such words."""
    found: Dict[str, int] = {}
    for name, text in zip(words[1:], words[2:]):
        if name in NUMBERS and text.isdigit():
            found.setdefault(name, int(text))
    return found


class Said:
    """What a line says. By its kind it has some numbers; who asks it for another is wrong, and gets a KeyError."""

    def __init__(self, words: List[str]) -> None:
        self.numbers = numbers_of(words)

    @property
    def view(self) -> int:
        return self.numbers["view"]

    @property
    def op(self) -> int:
        return self.numbers["op"]

    @property
    def commit(self) -> int:
        return self.numbers["commit"]

    @property
    def head(self) -> int:
        return self.numbers["head"]


class Message(Said):
    """What a `send` line says. `came` is whether something answered it."""

    def __init__(self, words: List[str], atom: "Atom") -> None:
        super().__init__(words[4:])
        self.sender, self.to, self.words, self.atom = int(words[2]), int(words[3]), words[4:], atom
        self.kind = self.words[0]
        if self.kind.endswith("_block"):
            self.numbers["block"] = int(self.words[1])
        self.number = NOT_SENT
        self.came = False

    @property
    def is_sent(self) -> bool:
        """Whether it has its number, in the run that is put together."""
        return self.number != NOT_SENT

    def told(self) -> Dict[str, int]:
        """Its numbers by the names that told.json has for them."""
        names = {"v": "view", "k": "block" if "block" in self.numbers else "op", "c": "commit", "p": "checkpoint"}
        told = {letter: self.numbers[name] for letter, name in names.items() if name in self.numbers}
        if "k" in told:
            told["h"] = told["k"]
        return told


class Atom(Said):
    """Lines that are surely of one event. Its place is its number at its member; `clock` has of each member how many atoms surely came before."""

    def __init__(self, line: Line, kind: str) -> None:
        self.words = line.text.split(" ")
        super().__init__(self.words[4:] if self.words[0] == "send" else self.words)
        self.lines, self.kind = [line], kind
        self.messages: List[Message] = []
        self.replies = False
        self.member = self.place = self.life = 0
        self.to_all = kind in TO_ALL  # whether it is one message to each of the others
        self.missing = False  # whether lines before it are missing
        self.clock: List[int] = []
        self.add_message(self.words)

    def add_message(self, words: List[str]) -> None:
        if words[0] == "send":
            self.messages.append(Message(words, self))

    def add(self, line: Line) -> None:
        self.lines.append(line)
        words = line.text.split(" ")
        self.replies = self.replies or words[0] == "reply"
        self.add_message(words)

    def letters(self) -> str:
        """Those of a statement or a choice."""
        return self.words[-1]

    def to(self) -> int:
        return int(self.words[3])


def kind_of(words: List[str]) -> str:
    """The kind of a line, as in told.json, but for a reply that stands under a commit line."""
    if words[0] == "send":
        return "beat" if words[4] == "commit" else words[4]
    if words[0] == "reply":
        return words[6] if words[6] in ANSWERS else "answer"
    return "apply" if words[0] == "commit" else words[0]


def goes_on(atom: Atom, words: List[str]) -> bool:
    """Whether a line is surely of the lines before it: the reply of what was applied, or one message that goes to all."""
    last = atom.lines[-1].text.split(" ")
    if words[0] == "reply":
        return last[0] == "commit" and words[6] not in ANSWERS and (last[7], last[9]) == (words[3], words[5])
    return atom.to_all and words[0] == last[0] == "send" and words[4:] == last[4:] and int(words[3]) > int(last[3])


def atoms_of(lines: List[Line]) -> List[Atom]:
    """The atoms of a member's lines. A new life begins with a start; where numbers of messages are left out, lines are missing."""
    atoms: List[Atom] = []
    life, number = 0, 0
    for line in lines:
        words = line.text.split(" ")
        if words[0] == "start":
            life, number = life + 1, 0
        if atoms and goes_on(atoms[-1], words):
            atoms[-1].add(line)
        else:
            atoms.append(Atom(line, kind_of(words)))
            atoms[-1].life, atoms[-1].place, atoms[-1].member = life, len(atoms) - 1, owner_of(words)
            atoms[-1].to_all |= atoms[-1].kind == "start_view" and len(atoms) > 1 and atoms[-2].kind == "choose"
        if words[0] == "send":
            atoms[-1].missing |= int(words[1]) != number
            number = int(words[1]) + 1
    return atoms
