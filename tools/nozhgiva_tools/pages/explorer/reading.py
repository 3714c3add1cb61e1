"""Runs as steps: each with its line, what was put out, which messages came, and the comment above it."""

import re
import subprocess
from typing import List, Sequence, Tuple, TypedDict

from nozhgiva_tools.places import NOZHGIVA
from nozhgiva_tools.run import program, replays
from nozhgiva_tools.told.memberlines import BadRun

GROUP = re.compile(r"cluster ([1-6])( .*)?")
AT = re.compile(r"# at ([1-9][0-9]*)")
"""A comment that says at which of an example's lines its page opens."""
MOST_OF_A_WORD = 72


class LineOfRun(TypedDict):
    line: str
    note: str
    outputs: List[str]
    came: List[int]


class ShownStep(LineOfRun, total=False):
    """A step, ready for the page: its line, the comment above it, what was put out, and the numbers of the messages that came. Of members that run
    also the rules that fit, whether it may be of one event with the step before, whether it says again what was said, and when it was."""

    rules: List[str]
    unsure: bool
    again: bool
    time: str
    words: List[str]


class AnyRun(TypedDict):
    about: str
    size: int
    at: int
    steps: List[ShownStep]


class ShownRun(AnyRun, total=False):
    """A run, ready for the page: what it is about, how many replicas it has, at which step it opens, and its steps. Of members that run also that it is
    of such, and which of them don't run at first."""

    members: bool
    absent: List[int]


def opens_at(text: str, count: int) -> int:
    """The number of the line that an example is about; 0 where it doesn't say."""
    found = next((int(match[1]) for match in map(AT.fullmatch, text.split("\n")) if match), 0)
    if found > count:
        raise BadRun(f"`# at {found}`: it has {count} lines")
    return found


def step_of(line: str, note: str = "") -> ShownStep:
    return {"line": line, "note": note, "outputs": [], "came": []}


def read_example(text: str) -> Tuple[str, List[ShownStep]]:
    """The comment at the head of an example, and its steps, each with the comment above it and the outputs under it."""
    about = ""
    notes: List[str] = []
    steps: List[ShownStep] = []
    for line in text.split("\n"):
        if AT.fullmatch(line):
            continue
        if line.startswith("#"):
            notes.append(line.lstrip("# "))
        elif line.startswith("  ") and steps:
            steps[-1]["outputs"].append(line.strip())
        elif line.strip():
            note = " ".join(notes)
            if not steps:
                about, note = note, ""
            steps.append(step_of(line, note))
            notes = []
    return about, steps


def find_program() -> str:
    """The program, which is none that is older than a source; nothing where there is none."""
    try:
        return program.find().path
    except program.Missing:
        return ""


def ask_program(path: str, steps: Sequence[ShownStep]) -> None:
    """Puts under each step what the program writes."""
    replay = replays.Replay(path)
    try:
        for step in steps:
            step["outputs"] = replay.play(step["line"])
    except replays.Ended as ended:
        raise BadRun(f"at `{step['line']}` the program ends: {ended.said}") from None
    finally:
        replay.end()


def ask_unproved(path: str) -> List[ShownStep]:
    """The same by `nozhgiva run`, which compiles the program where there is none."""
    made = subprocess.run([NOZHGIVA, "run", path], stdout=subprocess.PIPE, text=True, check=False)  # what it says, as of a build, is told as it comes
    if made.returncode:
        raise BadRun(f"`nozhgiva run` ends with status {made.returncode}")
    return read_example(made.stdout)[1]


def number_arrivals(steps: Sequence[ShownStep]) -> None:
    """Notes in each step which message it delivers."""
    sent = 0
    for step in steps:
        words = step["line"].split()
        if words[0] == "deliver" and sent:
            step["came"] = [int(words[1]) % sent]
        sent += sum(output.startswith("send ") for output in step["outputs"])


def shorten(line: str) -> str:
    """A long value is cut, with its length behind it."""
    return " ".join(word if len(word) <= MOST_OF_A_WORD else f"{word[:MOST_OF_A_WORD]}…({len(word)})" for word in line.split(" "))


def read_run(path: str) -> ShownRun:
    """The run of an example or a plain schedule, ready for the page."""
    with open(path, encoding="ascii") as file:
        text = file.read()
    about, steps = read_example(text)
    group = GROUP.fullmatch(steps[0]["line"]) if steps else None
    if group is None:
        raise BadRun("the first line of a schedule is `cluster N`")
    if not any(step["outputs"] for step in steps):
        found = find_program()
        if found:
            ask_program(found, steps)
        else:
            for step, made in zip(steps, ask_unproved(path)):
                step["outputs"] = made["outputs"]
    number_arrivals(steps)
    for step in steps:
        step["line"] = shorten(step["line"])
        step["outputs"] = [shorten(output) for output in step["outputs"]]
    return {"about": about, "size": int(group[1]), "at": opens_at(text, len(steps)), "steps": steps}
