"""Figures of single crates: instructions of what their functions do, in a small program that stands on them, beside those of what they need."""

import argparse
from pathlib import Path
from typing import Callable, List, NamedTuple, Sequence, Tuple

from nozhgiva_tools.places import TOP

from . import Figure, models, Outcome, places, reading, say
from .models import add_commit, counted, Model, said
from .places import Place
from .tables import grouped, table

NEEDS = ("rt", "tar", "valgrind")
COLUMNS = {
    "codec": ("message", "bytes", "encode, digests alone", "times", "decode, digests alone", "times"),
    "mail": ("message", "a receive", "of another group", "of another version"),
    "stream": ("message", "pieces of", "instructions a byte", "digests alone", "times"),
    "superblock": ("over a disk in memory", "no headers", "64 headers"),
}
COUNTED = ("", "instructions")  # of the others


class Message(NamedTuple):
    """A message that is measured: the word for it, what it is, and its bytes."""

    word: str
    name: str
    size: int


MESSAGES = (Message("prepare", "prepare, value of 1,024 bytes", 1348), Message("start_view", "start_view, 64 headers", 8320))


class Run(NamedTuple):
    """A built program in its place, whose last word but for others is how often it does what is counted."""

    place: Place
    program: Path

    def once(self, words: Sequence[object], few: int, many: int, last: Sequence[object] = ()) -> int:
        """The instructions of doing it once."""
        return reading.once(lambda times: counted(self.place, self.program, *words, times, *last), few, many)


# apply

APPLY = Model("apply", ("vr_base", "vr_header", "vr_state"))
APPLIES, ENCODINGS = 1_000_000, 10


def measure_apply(words: argparse.Namespace) -> Outcome:
    many = APPLIES // 1000 if words.short else APPLIES
    with Place() as place:
        ours, plain = models.built(place, APPLY, words.commit), place / "plain"
        place.run(["rustc", "-O", "-o", plain, TOP / "bench" / "apply" / "plain.rs"])
        say(f"{many:,} applies, and {ENCODINGS} encodings of a full state")
        rows: List[Tuple[str, str]] = []
        for name, program in (("an apply: check, the machine's, the sessions'", ours), ("the same in plain Rust, with std's BTreeMap", plain)):
            rows.append((name, grouped(Run(place, program).once((), 0, many))))
        rows.append(("an encoding of a full state", grouped(Run(place, ours).once((0,), 0, ENCODINGS))))
        asked = reading.once(lambda times: allocated(place, [ours, "0", str(times)]), 0, ENCODINGS)
        size = int(said(place, ours, 0, 1).split()[1])
    return Outcome(table(COUNTED, rows), [f"an encoding of a full state asks {asked} times for memory, and has {size:,} bytes"])


def allocated(place: Place, words: Sequence[places.Word]) -> int:
    """How often a run asked for memory."""
    return reading.allocations(place.run(["valgrind", "--tool=memcheck", *words]).err)


# choice

CHOICE = Model("choice", ("vr_base", "vr_header", "vr_msg", "vr_choose"))


def measure_choice(words: argparse.Namespace) -> Outcome:
    with Place() as place:
        program = models.built(place, CHOICE, words.commit)
        chosen = reading.once(lambda times: counted(place, program, *"ab"[:times]), 1, 2)
    what = "a choice of a log: six replicas, statements of four, 64 open operations, the last statement the only one of the greatest log view"
    return Outcome(table(COUNTED, [(what, grouped(chosen))]), [])


# codec, mail and stream, on the same messages

CODEC = Model("codec", ("vr_base", "vr_header", "vr_msg", "vr_codec"))
MAIL = Model("mail", ("vr_base", "vr_edge", "vr_header", "vr_msg", "vr_codec", "vr_mail"), ("codec/src/messages.rt.txt",))
STREAM = Model("stream", ("vr_base", "vr_edge", "vr_header", "vr_msg", "vr_codec", "vr_stream"), ("codec/src/messages.rt.txt",))
TIMES = 100
GROUP_MOST, STREAM_MOST = 1.1, 1.3  # times that a message of another group may cost one of another version, and a stream its digests
COPIES, STREAMS, PIECES = 32, 10, (4096, 1448)


def measure_codec(words: argparse.Namespace) -> Outcome:
    rows = []
    with Place() as place:
        run = Run(place, models.built(place, CODEC, words.commit))
        for message in MESSAGES:
            pairs = [[run.once((kind, message.word), 0, TIMES) for kind in pair] for pair in (("encode", "write"), ("decode", "read"))]
            cells = [cell for whole, alone in pairs for cell in (f"{whole:,}, {alone:,}", f"{whole / alone:.2f}")]
            rows.append((message.name, grouped(message.size), *cells))
    return Outcome(table(COLUMNS["codec"], rows), [])


def measure_mail(words: argparse.Namespace) -> Outcome:
    rows, wrong, holds = [], [], True
    with Place() as place:
        run = Run(place, models.built(place, MAIL, words.commit))
        for message in MESSAGES:
            for kind, wanted in (("taken", TIMES), ("group", 0), ("version", 0)):
                given = said(place, run.program, message.word, kind, TIMES)
                if given != str(wanted):
                    wrong.append(f"{message.word}, {kind}: {given} messages were taken of {TIMES}")
            taken, group, version = (run.once((message.word, kind), 0, TIMES) for kind in ("taken", "group", "version"))
            rows.append((message.name, grouped(taken), grouped(group), grouped(version)))
            holds = holds and group <= GROUP_MOST * version
    return Outcome(table(COLUMNS["mail"], rows), wrong, holds and not wrong)


def measure_stream(words: argparse.Namespace) -> Outcome:
    rows, notes, holds = [], [], True
    with Place() as place:
        run = Run(place, models.built(place, STREAM, words.commit))
        for message in MESSAGES:
            size = COPIES * message.size
            alone = run.once((message.word, 0), 0, STREAMS)
            taken = [run.once((message.word, piece), 0, STREAMS) for piece in PIECES]
            rows += [streamed(message, piece, whole, alone, size) for piece, whole in zip(PIECES, taken)]
            given = int(said(place, run.program, message.word, PIECES[0], STREAMS))
            asked = [allocated(place, [run.program, message.word, str(PIECES[0]), str(times)]) for times in (0, STREAMS)]
            notes.append(f"{message.word}: {given} messages came of {COPIES * STREAMS}; memory asked for {asked[0]} times without the stream, {asked[1]} times with it")
            holds = holds and taken[0] <= STREAM_MOST * alone and given == COPIES * STREAMS and asked[0] == asked[1]
    return Outcome(table(COLUMNS["stream"], rows), notes, holds)


def streamed(message: Message, piece: int, whole: int, alone: int, size: int) -> Tuple[str, ...]:
    return message.name, grouped(piece), f"{whole / size:.1f}", f"{alone / size:.1f}", f"{whole / alone:.2f}"


# storage and superblock

STORAGE = Model("storage", ("vr_base", "vr_header", "vr_disk", "vr_mem", "vr_super", "vr_rings", "vr_lie", "vr_state", "vr_ckpt"))
SUPERBLOCK = Model("superblock", ("vr_base", "vr_disk", "vr_mem", "vr_header", "vr_super"))
FEW, MANY = 10, 110
STORED = (
    ("header", "digest of a header"), ("memory", "slot write, on a disk in memory"), ("calls", "its calls of that disk alone"), ("lying", "slot write, on a disk that lies"),
    ("again", "digests of the header, and of the entry that the slot then reads as"), ("checkpoint", "checkpoint of a full state with one changed payload"),
    ("root", "digests of the payload, of the root and of their headers"), ("block", "fault of a block"), ("slot", "fault of a slot"),
    ("superblock", "fault of the superblock"), ("copy", "digest of a copy of the superblock"))
SAVED = (
    ("digest", "one SHA-256 of the bytes of a copy"), ("make", "making a value"), ("next", "making one after another with the same headers"),
    ("half", "making one after another with other headers"), ("write", "writing it"), ("open", "opening it"), ("look", "seeing whether it opens"))


def measure_storage(words: argparse.Namespace) -> Outcome:
    with Place() as place:
        run = Run(place, models.built(place, STORAGE, words.commit, "header", "1"))
        rows = [(name, grouped(run.once((word,), FEW, MANY))) for word, name in STORED]
    return Outcome(table(COUNTED, rows), [])


def measure_superblock(words: argparse.Namespace) -> Outcome:
    with Place() as place:
        run = Run(place, models.built(place, SUPERBLOCK, words.commit, "digest", "1"))
        rows = [(name, *(grouped(run.once((word,), FEW, MANY, last)) for last in ((), ("headers",)))) for word, name in SAVED]
    return Outcome(table(COLUMNS["superblock"], rows), [])


def figure(name: str, what: str, measure: Callable[[argparse.Namespace], Outcome], blocks: Tuple[str, ...] = ()) -> Figure:
    return Figure(name, what, SECONDS, NEEDS, measure, add_commit, blocks, has_short=False)


SECONDS = 600  # where the crates are proved from nothing
FIGURES: Tuple[Figure, ...] = (
    figure("apply", "instructions of an apply and of an encoding of a state, and of an apply in plain Rust", measure_apply)._replace(needs=(*NEEDS, "rustc"), has_short=True),
    figure("choice", "instructions of a choice of a log", measure_choice),
    figure("codec", "instructions of writing and reading a message, beside those of its digests alone", measure_codec, ("codec",)),
    figure("mail", "instructions of a receive; 1 where a message of another group costs above 1.1 times one of another version, or one is taken that isn't its receiver's", measure_mail, ("mail",)),
    figure("storage", "instructions of a slot write, of a checkpoint and of a fault, beside the digests that they need", measure_storage),
    figure("stream", "instructions of taking messages out of a stream; 1 where those are above 1.3 times its digests, a message is lost, or memory is asked for", measure_stream),
    figure("superblock", "instructions of making, writing and opening a superblock, with no headers and with 64", measure_superblock),
)
