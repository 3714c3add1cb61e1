"""The lines that a member writes (docs/SCHEDULE.md, "Lines of the output"): the one reader of them. `parse` gives what an operator's scripts look at, the other
functions what trials and pages ask of a line; `memberlines` reads whole files of lines."""

from typing import Callable, Dict, get_args, Iterable, List, Literal, NamedTuple, Optional, Sequence, Tuple, Union

LONGEST = 4096  # bytes; the longest line that a member writes has some 1,300

MessageKind = Literal["prepare_ok", "start_view_change", "do_view_change", "start_view", "sync_view"]
GivenKind = Literal["give_prepare", "give_block"]
QuestionKind = Literal["get_prepare", "get_block", "get_view", "get_sync"]
RefusalKind = Literal["busy", "redirect", "old", "gap", "evicted"]
ChoiceKind = Literal["choose", "wait"]


class Beat(NamedTuple):
    """What a member that leads sends with each tick: its view, its head and its commit number."""

    view: int
    op: int
    commit: int
    kind: Literal["beat"] = "beat"


class Prepare(NamedTuple):
    """An entry that is sent."""

    view: int
    op: int
    commit: int
    kind: Literal["prepare"] = "prepare"


class Message(NamedTuple):
    """Another message that is sent, of which the view alone is looked at."""

    kind: MessageKind
    view: int


class Given(NamedTuple):
    """An entry or a block that was asked for, and is sent."""

    kind: GivenKind


class Question(NamedTuple):
    """A question to the others: what it asks for, in its own words, and what these tell of a view or an operation."""

    kind: QuestionKind
    asked: Tuple[str, ...]
    view: Optional[int] = None
    op: Optional[int] = None


class Request(NamedTuple):
    """Of an operation: whose request it is, with the request's number; and what it does: `register`, or `put`, `get`, `del` with the key."""

    client: int
    number: int
    what: str
    key: Optional[str] = None


class Applied(NamedTuple):
    """An operation that is applied; nothing is known of its request where the line was cut."""

    view: int
    op: int
    request: Optional[Request] = None
    kind: Literal["applied"] = "applied"


class Reply(NamedTuple):
    """A reply to a client: `reply` where it has an outcome, else why it has none."""

    kind: Union[RefusalKind, Literal["reply"]]
    client: int


class Start(NamedTuple):
    """A start: the view and the commit number as saved."""

    view: int
    commit: int
    kind: Literal["start"] = "start"


class Choice(NamedTuple):
    """A log that is chosen, or a choice that waits for an operation."""

    kind: ChoiceKind
    view: int
    op: Optional[int] = None


class Halt(NamedTuple):
    """The member stops for good."""

    kind: Literal["halt"] = "halt"


class Unknown(NamedTuple):
    """No line of a member, or a part of one."""

    kind: Literal["unknown"] = "unknown"


Line = Union[Beat, Prepare, Message, Given, Question, Applied, Reply, Start, Choice, Halt, Unknown]
"""One line: what it is, and the numbers that the policy looks at."""


class Execution(NamedTuple):
    """What `commit R op K view W client C request Q OP` says: that a member applied an operation."""

    op: int
    view: int  # in which its entry was made
    client: int
    request: int
    words: Tuple[str, ...]  # the operation: `register`, or `put`, `get`, `del` with the key, and of a put the value


class Sent(NamedTuple):
    """What `send M A B ..` says: message M goes from A to B."""

    number: int
    sender: int
    receiver: int


class Answered(NamedTuple):
    """What `reply R client C request Q ..` says, with the words behind it: `op K` and an outcome, `redirect V`, or a word alone."""

    client: int
    request: int
    words: Tuple[str, ...]


Words = List[str]  # of a line
UNKNOWN = Unknown()
# The words of lines, and the kinds that they stand for.
MESSAGES: Dict[str, MessageKind] = {kind: kind for kind in get_args(MessageKind)}
GIVEN: Dict[str, GivenKind] = {kind: kind for kind in get_args(GivenKind)}
QUESTIONS: Dict[str, QuestionKind] = {kind: kind for kind in get_args(QuestionKind)}
REFUSALS: Dict[str, RefusalKind] = {kind: kind for kind in get_args(RefusalKind)}
CHOICES: Dict[str, ChoiceKind] = {kind: kind for kind in get_args(ChoiceKind)}


def parse(text: bytes) -> Line:
    """The line that a text without its LF is; `UNKNOWN` where it is none, as where it was cut in two."""
    words = text.decode("ascii", "replace").split(" ")
    reader = READERS.get(words[0])
    try:
        return UNKNOWN if reader is None else reader(words)
    except (IndexError, ValueError):
        return UNKNOWN


def owner_of(words: Sequence[str]) -> int:
    """Whose line it is, by its words: the member that put it out."""
    return int(words[2 if words[0] == "send" else 1])


def message_of(words: Sequence[str]) -> Optional[Sent]:
    """The message that a line tells of, by its words; None for a line of another kind."""
    return Sent(int(words[1]), int(words[2]), int(words[3])) if words[0] == "send" else None


def applied_of(words: Sequence[str]) -> Optional[Execution]:
    """The operation that a whole line tells as applied, by its words; None for a line of another kind."""
    return Execution(int(words[3]), int(words[5]), int(words[7]), int(words[9]), tuple(words[10:])) if words[0] == "commit" else None


def reply_of(words: Sequence[str]) -> Optional[Answered]:
    """The reply that a line tells of, by its words; None for a line of another kind."""
    return Answered(int(words[3]), int(words[5]), tuple(words[6:])) if words[0] == "reply" else None


def last_applied(texts: Iterable[bytes]) -> int:
    """The last operation that lines tell as applied; 0 where there is none."""
    lines = (parse(text.rstrip(b"\n")) for text in texts if text.startswith(b"commit "))
    return max((line.op for line in lines if isinstance(line, Applied)), default=0)


def value(words: Sequence[str], name: str) -> int:
    """The number behind a word; ValueError where there is none."""
    return int(words[words.index(name) + 1])


def value_if_any(words: Words, name: str) -> Optional[int]:
    """The number behind a word; None where the word isn't there."""
    return value(words, name) if name in words else None


def read_send(words: Words) -> Line:
    """`send M A B KIND ..`."""
    kind = words[4]
    if kind in QUESTIONS:
        return read_question(QUESTIONS[kind], words)
    if kind == "commit":
        return Beat(value(words, "view"), value(words, "op"), value(words[5:], "commit"))
    if kind == "prepare":
        return Prepare(value(words, "view"), value(words, "op"), value(words, "commit"))
    if kind in MESSAGES:
        return Message(MESSAGES[kind], value(words, "view"))
    return Given(GIVEN[kind]) if kind in GIVEN else UNKNOWN


def read_question(kind: QuestionKind, words: Words) -> Line:
    """`send M A B KIND ..`, with at least one number in its rest."""
    if not any(word.isdigit() for word in words[5:]):
        return UNKNOWN
    return Question(kind, tuple(words[4:]), value_if_any(words, "view"), value_if_any(words, "op"))


def read_commit(words: Words) -> Line:
    """`commit R op K view W client C request Q OP`."""
    return Applied(value(words, "view"), value(words, "op"), request_of(words))


def request_of(words: Words) -> Optional[Request]:
    """The request of an operation that is applied; None where the line was cut before its end."""
    if len(words) <= 10 or words[6] != "client" or words[8] != "request":
        return None
    return Request(int(words[7]), int(words[9]), words[10], words[11] if len(words) > 11 else None)


def read_reply(words: Words) -> Line:
    """`reply R client C request Q ..`: kind `busy`, `redirect`, `old`, `gap`, `evicted`, or `reply` where it has an outcome."""
    value(words, "request")
    return Reply(REFUSALS.get(words[6], "reply"), value(words, "client"))


def read_start(words: Words) -> Line:
    """`start R view V log_view L commit C`."""
    return Start(value(words, "view"), value(words, "commit"))


def read_choice(words: Words) -> Line:
    """`choose R view V ..`, `wait R view V op K`."""
    return Choice(CHOICES[words[0]], value(words, "view"), value_if_any(words, "op"))


READERS: Dict[str, Callable[[Words], Line]] = {
    "send": read_send,
    "commit": read_commit,
    "reply": read_reply,
    "start": read_start,
    "choose": read_choice,
    "wait": read_choice,
    "halt": lambda words: Halt(),
}


VALUES = {b"commit": (10, b"put", 12), b"reply": (8, b"value", 9)}  # of lines that have one: which word says so, and which one it is


def without_value(text: bytes) -> bytes:
    """A line with `*` in the place of the value that is put or read; also where it was cut in that value."""
    words = text.split(b" ")
    at, says, place = VALUES.get(words[0], (0, b"", len(words)))
    if len(words) <= place or words[at] != says:
        return text
    return b" ".join(words[:place] + [b"*"])


def spelling(no_values: bool) -> Callable[[bytes], bytes]:
    """What gives the text that is written of a line."""
    if no_values:
        return without_value
    return bytes


class Splitter:
    """Cuts what is read, in pieces of any length, into lines. A line longer than LONGEST is given up to its end, and counted."""

    def __init__(self) -> None:
        self.rest = b""
        self.too_long = 0

    def take(self, piece: bytes) -> Iterable[bytes]:
        """The lines that end in this piece, without their LF."""
        lines = (self.rest + piece).split(b"\n")
        self.rest = lines.pop()
        if len(self.rest) > LONGEST:
            self.rest = self.rest[:LONGEST + 1]
        for line in lines:
            if len(line) > LONGEST:
                self.too_long += 1
            else:
                yield line

    def end(self) -> bytes:
        """What stands of a line that was never ended."""
        rest, self.rest = self.rest, b""
        return rest
