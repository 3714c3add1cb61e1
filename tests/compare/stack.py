"""How much of its stack a process comes to use: what lies below its frames is painted while it is stopped, and later the lowest change is looked for."""

from __future__ import annotations

import array
import contextlib
import fcntl
import os
import signal
import subprocess
import tempfile
import termios
from typing import Callable, Dict, Iterator, List, Optional, Tuple

from nozhgiva_tools.run.group import SIZE

from .cases import CLUSTER, example_paths, schedule_of
from .members import await_that, Members

TAKEN = 56 * 4096
"""The bytes that the program takes at its start (`take_stack` of `vr_real`), and within which a run has to stay."""
PAINT = b"\xa5"
RED_ZONE = 256  # bytes below its stack pointer that a function may use
PUTS = 70


class Painted:
    """A process whose stack is painted below its frames."""

    def __init__(self, pid: int) -> None:
        self.pid = pid
        with stopped(pid), open(f"/proc/{pid}/mem", "r+b", buffering=0) as memory:
            self.low = stack_end(pid)
            memory.seek(self.low)
            memory.write(PAINT * (stack_pointer(pid) - RED_ZONE - self.low))

    def used(self) -> int:
        """From where the system put words and environment down to the lowest byte that was changed."""
        with stopped(self.pid), open(f"/proc/{self.pid}/mem", "rb", buffering=0) as memory:
            top = int(status_fields(self.pid)[25])
            if stack_end(self.pid) < self.low:
                return top - stack_end(self.pid)
            memory.seek(self.low)
            data = memory.read(top - self.low)
        return len(data.lstrip(PAINT))


def status_fields(pid: int) -> List[str]:
    """The fields of /proc/PID/stat from the state on."""
    with open(f"/proc/{pid}/stat", encoding="ascii", errors="replace") as file:
        return file.read().rpartition(")")[2].split()


def stack_end(pid: int) -> int:
    """The lowest address that the process's stack has grown to."""
    with open(f"/proc/{pid}/maps", encoding="utf-8") as maps:
        return next(int(line.partition("-")[0], 16) for line in maps if line.rstrip().endswith("[stack]"))


def stack_pointer(pid: int) -> int:
    with open(f"/proc/{pid}/syscall", encoding="ascii") as file:
        return int(file.read().split()[-2], 16)


@contextlib.contextmanager
def stopped(pid: int) -> Iterator[None]:
    os.kill(pid, signal.SIGSTOP)
    try:
        await_that(lambda: status_fields(pid)[0] == "T", f"process {pid} doesn't stop")
        yield
    finally:
        os.kill(pid, signal.SIGCONT)


class Driven:
    """A program that is given its standard input piece by piece."""

    def __init__(self, program: str, words: List[str], output: int) -> None:
        self.child = subprocess.Popen([program, *words], stdin=subprocess.PIPE, stdout=output, stderr=subprocess.DEVNULL)
        self.calls = f"/proc/{self.child.pid}/syscall"

    def has_read(self) -> bool:
        """Whether it has read all, and waits for more, or has ended."""
        left = array.array("i", [0])
        assert self.child.stdin is not None
        fcntl.ioctl(self.child.stdin.fileno(), termios.FIONREAD, left)
        with open(self.calls, encoding="ascii") as file:
            waits = file.read().split()[:2] == ["0", "0x0"]
        return waits and not left[0] or self.child.poll() is not None

    def used(self, data: bytes) -> Optional[int]:
        """The stack that it took to read all this; None where it ended meanwhile."""
        assert self.child.stdin is not None
        await_that(self.has_read, "a program doesn't come to read")
        painted = Painted(self.child.pid)
        with contextlib.suppress(BrokenPipeError):
            self.child.stdin.write(data)
            self.child.stdin.flush()
        await_that(self.has_read, "a program doesn't read what it is given")
        return painted.used() if self.child.poll() is None else None

    def end(self) -> None:
        self.child.kill()
        self.child.wait()
        assert self.child.stdin is not None
        with contextlib.suppress(BrokenPipeError):
            self.child.stdin.close()


def driven(program: str, words: List[str], data: bytes) -> Optional[int]:
    with tempfile.TemporaryFile() as output:
        child = Driven(program, words, output.fileno())
        try:
            return child.used(data)
        finally:
            child.end()


def replays(program: str) -> Iterator[Tuple[str, int]]:
    for path in example_paths():
        used = driven(program, ["replay"], schedule_of(path))
        if used is not None:
            yield f"replay {path.name}", used


def group(program: str) -> Iterator[Tuple[str, int]]:
    """A client and the members that it asks."""
    with Members(program) as members:
        for r in range(SIZE):
            members.begin(r, "--fresh")
        painted = [Painted(child.pid) for child in members.members.values()]
        lines = "".join(f"put k{at % 10} {'v' * 1000}\n" for at in range(PUTS))
        used = driven(program, ["client", CLUSTER, "7", "1000000", *members.addresses], lines.encode())
        if used is not None:
            yield "client", used
        for r, one in enumerate(painted):
            yield f"member {r}", one.used()


MEASURED: Dict[str, Callable[[str], Iterator[Tuple[str, int]]]] = {"replay": replays, "group": group}
