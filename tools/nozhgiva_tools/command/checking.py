"""The checks outside the proofs: the table of them, and a run of some of them, each within its time."""

import collections
import importlib.util
import os
import re
import shutil
import signal
import subprocess
import sys
import time
from pathlib import Path
from typing import Callable, Dict, FrozenSet, List, NamedTuple, Optional, Sequence, Tuple

from nozhgiva_tools.places import CHECKS, NOZHGIVA, words_of_module
from nozhgiva_tools.run import program

QUICK, TIME, SLOW, NAMED = "quick", "time", "slow", "named"
MARKS = frozenset((QUICK, TIME, SLOW, NAMED))
PYTEST = "pytest"
NONE_TRIED, NONE = "nothing was tried", 2
JUDGED = "judged: "  # a line of a check that begins so is told beside its result
"""What is said, at a line's beginning, and the exit code, where a check could try nothing."""
# A check that takes S seconds of a processor has this many on the clock: a machine may be busy and slow.
LEAST, TIMES = 60, 10
LEFT_OUT = re.compile(r""".*skipped (?P<quote>['"])(?P<skipped>.*)(?P=quote)|\s*left out: (?P<told>.*)""")
LINES_OF_A_FAILURE = 60
LONG = 5  # seconds; of what takes longer it is said that it began


class Check(NamedTuple):
    name: str
    seconds: int
    needs: Tuple[str, ...]
    marks: FrozenSet[str]
    command: Tuple[str, ...]


def words_of(text: str) -> Tuple[str, ...]:
    return () if text == "-" else tuple(text.split(","))


def read_table(path: Path = CHECKS) -> List[Check]:
    checks = []
    for line in path.read_text(encoding="utf-8").splitlines():
        if line and not line.startswith("#"):
            name, seconds, needs, marks, *command = line.split()
            found = frozenset(words_of(marks))
            if not found <= MARKS or {QUICK, SLOW} <= found or not command:
                raise ValueError(f"{path}: {line}")
            checks.append(Check(name, int(seconds), words_of(needs), found, tuple(command)))
    return checks


def find_program() -> Optional[str]:
    """The program that the checks use; None where there is none."""
    try:
        return program.find().path
    except program.Missing:
        return None


def kind_of_program() -> str:
    """Which one that is, for who reads what passed: proved, compiled, or the one that is given."""
    try:
        kind = program.find().kind
    except program.Missing:
        return "missing"
    return "compiled, not proved" if kind == program.COMPILED else kind


def pytest_words() -> Optional[List[str]]:
    """The words that run pytest: of this Python, or Debian's; None where there is none."""
    if importlib.util.find_spec(PYTEST):
        return [sys.executable, "-B", "-m", PYTEST]
    found = shutil.which("pytest-3") or shutil.which(PYTEST)
    return [found] if found else None


def pytest_python() -> Optional[str]:
    """The Python that runs pytest: this one, or the one that Debian's script names."""
    words = pytest_words()
    if words is None or words[0] == sys.executable:
        return words[0] if words else None
    first = Path(words[0]).read_text(encoding="utf-8", errors="replace").split("\n", 1)[0]
    return first[2:].strip() if first.startswith("#!") else None


def has_pytest_module(name: str) -> bool:
    """Whether tests can import a module."""
    python = pytest_python()
    return python is not None and subprocess.run([python, "-c", f"import {name}"], stdin=subprocess.DEVNULL, stderr=subprocess.DEVNULL, check=False).returncode == 0


def words_to_run(words: Sequence[str]) -> List[str]:
    """The words of a command of the table as they are run from the top: `nozhgiva`, pytest, and modules of tests/ and bench/ are named by one word."""
    first, *rest = words
    if first == "env":
        return [first, rest[0], *words_to_run(rest[1:])]
    if first == "nozhgiva":
        return [str(NOZHGIVA), *rest]
    if first == PYTEST:
        return [*(pytest_words() or [PYTEST]), *rest]
    if first.endswith(".py"):
        return [sys.executable, "-B", first, *rest]
    return words_of_module(first, *rest) if "." in first and "/" not in first else list(words)


def with_words(check: Check, words: Sequence[str]) -> Check:
    """A check with other words than its own; those of pytest come behind its own."""
    kept = len(check.command) if PYTEST in check.command else next(at for at, word in enumerate(check.command) if word != "env" and "=" not in word) + 1
    kept += check.command[kept - 1] == "nozhgiva"
    return check._replace(command=(*check.command[:kept], *words))


def is_there(need: str) -> bool:
    """Whether this machine has what a word of the table names."""
    if need == PYTEST:
        return pytest_words() is not None
    if need == "root":
        return os.geteuid() == 0
    if need.startswith("pytest:"):
        return has_pytest_module(need[len("pytest:"):])
    if need.startswith("python:"):
        return importlib.util.find_spec(need[len("python:"):]) is not None
    if need.startswith("/"):
        return os.path.exists(need)
    return any(map(shutil.which, need.split("/")))


def lacks(check: Check, program: Optional[str]) -> Optional[str]:
    """What a check needs and there isn't."""
    for need in check.needs:
        if not (program is not None if need == "program" else is_there(need)):
            return f"no {need}" if need != "root" else "not root"
    return None


def parts_left_out(text: str) -> List[str]:
    """Why a check left out parts of itself, by its output, and how many for each reason."""
    found = (LEFT_OUT.match(line) for line in text.splitlines())
    counts = collections.Counter(one["skipped"] or one["told"] for one in found if one)
    return [f"{count} of its tests: {why}" if count > 1 else why for why, count in sorted(counts.items())]


def judged(text: str) -> List[str]:
    """How much a check tried, where it says so in a line."""
    return [line[len(JUDGED):] for line in text.splitlines() if line.startswith(JUDGED)]


class Run:
    """A run of checks: what passed, what failed, what was left out and why, and how many checks that were."""

    def __init__(self, top: Path, folder: str, until: float, say: Callable[[str], None]) -> None:
        self.top, self.folder, self.until, self.say = top, folder, until, say
        self.passed, self.failed, self.without, self.in_part = 0, 0, 0, 0
        self.left_out: List[str] = []
        self.program = find_program()
        self.env = {**os.environ, "PYTHONDONTWRITEBYTECODE": "1", "TMPDIR": folder, **({"NOZHGIVA_PROGRAM": self.program} if self.program else {})}

    def all_of(self, checks: List[Check]) -> None:
        before = self.status()
        self.say(f"checks: the program is {kind_of_program()}{f': {self.program}' if self.program else ''}")
        for check in checks:
            why = lacks(check, self.program) or ("no time" if self.left() <= 0 else None)
            if why:
                self.leave_out(check, why)
            else:
                self.one(check)
        if self.status() != before:
            self.failed += 1
            self.say(f"clone: FAILED: something is left in it, or changed: {self.status()}")

    def left(self) -> float:
        return self.until - time.monotonic()

    def status(self) -> str:
        """What isn't committed in the clone, since a check may leave nothing there."""
        if shutil.which("git") is None:
            return ""
        return subprocess.run(["git", "status", "--porcelain"], cwd=self.top, stdout=subprocess.PIPE, stderr=subprocess.DEVNULL, text=True, check=False).stdout

    def leave_out(self, check: Check, why: str) -> None:
        self.without += 1
        self.left_out.append(f"{check.name}: {why}")
        self.say(f"{check.name}: left out: {why}")

    def one(self, check: Check) -> None:
        """Runs a check, and once more where it rests on time and failed."""
        for is_last in (True,) if "time" not in check.marks else (False, True):
            begun = time.monotonic()
            if check.seconds > LONG:
                self.say(f"{check.name}: begins, some {check.seconds} s")
            status, text = self.ask(check)
            took = f"{time.monotonic() - begun:.0f} s"
            if status == 0:
                self.passed += 1
                parts = parts_left_out(text)
                self.in_part += bool(parts)
                self.left_out += [f"{check.name}: {why}" for why in parts]
                self.say(": ".join([f"{check.name}: passed in {took}", *judged(text)]))
                return
            if status == NONE and any(line.startswith(NONE_TRIED) for line in text.splitlines()):
                self.leave_out(check, "; ".join(parts_left_out(text)) or "none of its tests was tried")
                return
            if status is None and self.left() <= 0:
                self.leave_out(check, f"no time (it was cut after {took})")
                return
            self.tell(check, status, text, took, is_last)
        self.failed += 1

    def tell(self, check: Check, status: Optional[int], text: str, took: str, is_last: bool) -> None:
        how = "it hung" if status is None else f"status {status}"
        print(*text.splitlines()[-LINES_OF_A_FAILURE:], sep="\n")
        self.say(f"{check.name}: {'FAILED' if is_last else 'failed, and is tried once more'}: {how}, after {took}")

    def ask(self, check: Check) -> Tuple[Optional[int], str]:
        """Runs its command once: its status and what it said."""
        return call(words_to_run(check.command), max(1.0, min(self.left(), LEAST + TIMES * check.seconds)), os.path.join(self.folder, f"{check.name}.said"), self.env, self.top)


def call(command: Sequence[str], seconds: float, path: str, env: Dict[str, str], where: Optional[Path] = None) -> Tuple[Optional[int], str]:
    """Runs a command, which writes to a file at `path`: its status and what it said. None where it took too long, and all that it started is ended then."""
    with open(path, "w+", encoding="utf-8", errors="replace") as said:
        child = subprocess.Popen(command, cwd=where, env=env, stdin=subprocess.DEVNULL, stdout=said, stderr=said, start_new_session=True, preexec_fn=heed_signals)
        try:
            status: Optional[int] = child.wait(seconds)
        except subprocess.TimeoutExpired:
            status = None
        finally:
            end_all(child)
        said.seek(0)
        return status, said.read()


def heed_signals() -> None:
    """What was started in the background, or by nohup, ignores some signals, and so would all that it starts; checks send them."""
    for number in (signal.SIGINT, signal.SIGQUIT, signal.SIGHUP):
        signal.signal(number, signal.SIG_DFL)


def end_all(child: "subprocess.Popen[bytes]") -> None:
    """Ends a command's whole group: first by SIGTERM, so that it can end what it started, then by SIGKILL."""
    for number in (signal.SIGTERM, signal.SIGKILL):
        try:
            os.killpg(child.pid, number)
            child.wait(5)
        except (ProcessLookupError, subprocess.TimeoutExpired):
            pass
