"""What other scripts of this repository try already: called from here, a row each."""

from __future__ import annotations

import os
import shutil
import subprocess
from functools import partial
from typing import Iterator, List, NamedTuple, Tuple

from nozhgiva_tools.command import checking
from nozhgiva_tools.places import TOP

from .table import LeftOut, Outcome, Scenario

HANGS = 900.0  # seconds
LONGEST = 160  # letters of what a script says last


class Script(NamedTuple):
    """A check by its name, with words in the place of its own where it has any; what it tries and promises, and what it needs."""

    words: str
    tries: str
    promised: str
    seconds: float
    needs: Tuple[str, ...] = ()
    known: int = 0  # the code by which it tells that what happened isn't good, and is known
    times: int = 1  # that it is tried at most, where it measures what a busy machine makes longer: each has to fail


SCRIPTS = (
    Script("closed-streams", "standard streams are closed", "no line in a file, its code", 10),
    Script("not-a-file", "FILE is a folder, a pipe, a socket, a device, a link to one", "7, not a byte written", 10),
    Script("full-disk", "the disk is full; --fresh is killed", "7, and whole with room", 10, ("root",)),
    Script("second-process", "a second process has the file", "7, the file as it was", 20),
    Script("no-memory", "each request of memory refused", "11", 60, ("cc",)),
    Script("crash", "members killed in the midst of writes", "nothing is lost", 30),
    Script("endless", "a stream of another group's messages that never runs dry", "answers, none 2 s late", 30),
    Script("silent", "200 silent connections from the members' machine", "answers, none 4 s late", 60),
    Script("outage 5 20", "all are cut off from each other, over UDP", "an answer 2 s after it", 60, ("root", "ip", "unshare"), times=3),
    Script("env SCHEME=tcp: outage 5 20", "all are cut off from each other, over TCP", "an answer 2 s after it", 90, ("root", "ip", "unshare"), times=3),
    Script("state", "both backups killed in turn under a load, then the primary lost with its file", "3: versions 1 and 2 lose the state then", 170, known=3),
    Script("state --v2 --rate 77", "the same in version 2", "3: versions 1 and 2 lose the state then", 170, known=3),
    Script("mishaps --minutes 2", "kills, pauses and cuts under keepers", "one register for each key", 150),
    Script("deaf", "a primary that hears nobody, under keepers", "one register for each key", 90, ("root", "ip")),
)


def lacking(needs: Tuple[str, ...]) -> str:
    """What a script needs and there isn't."""
    return ", ".join("not run as root" if need == "root" else f"no {need}" for need in needs if (os.geteuid() != 0 if need == "root" else not shutil.which(need)))


def call(script: Script, _: int, number: int) -> Outcome:
    if missing := lacking(script.needs):
        raise LeftOut(missing)
    outcome = run(script.words, script.known)
    for _ in range(script.times - 1):
        if outcome.code != 1:
            break
        outcome = run(script.words, script.known)
    return outcome


def ready(words: str) -> List[str]:
    """A check of the table as it is run, with its own words where none stand here."""
    front, _, rest = words.rpartition(": ")
    name, *more = rest.split()
    if "/" in name:
        return words.split()
    check = next(one for one in checking.read_table() if one.name == name)
    return [*f"{front}:".split()] * bool(front) + checking.words_to_run((checking.with_words(check, more) if more else check).command)


def run(words: str, known: int) -> Outcome:
    try:
        ran = subprocess.run(ready(words), cwd=TOP, stdin=subprocess.DEVNULL, stdout=subprocess.PIPE, stderr=subprocess.STDOUT, text=True, timeout=HANGS, check=False)
    except subprocess.TimeoutExpired:
        return Outcome("hangs", wrong=f"no end in {HANGS:g} s")
    said = (ran.stdout.strip().splitlines() or [""])[-1].strip()[:LONGEST]
    return Outcome(said, ran.returncode, "" if ran.returncode in (0, known) else f"{words} ends with {ran.returncode}: {said}")


def scenarios() -> Iterator[Scenario]:
    for script in SCRIPTS:
        yield Scenario(f"elsewhere: {script.tries} ({script.words})", script.promised, lambda: [0], partial(call, script), alone=True, short=False, seconds=script.seconds)
