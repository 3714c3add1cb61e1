"""Processes that are started with pipes: their ends, what a keeper has of its member's process, and whether that goes on. A member takes a turn at least each ten
milliseconds, and the system counts how often it gave the processor away."""

import subprocess
from typing import AnyStr, IO, Optional

HANGS = 1.0  # second without a turn, after which a member hangs: it was stopped, or waits for a disk


def pipe(end: Optional[IO[AnyStr]]) -> IO[AnyStr]:
    """The end of a pipe to a process, which the type of a process leaves open; ValueError where it was started without one."""
    if end is None:
        raise ValueError("the process was started without this pipe")
    return end


class Pulse:
    """What the system counted of one process. Times are seconds of the keeper's clock."""

    def __init__(self, process: int, now: float) -> None:
        self.process, self.last = process, now
        self.count = self.read()

    def read(self) -> Optional[int]:
        """How often it gave the processor away or it was taken from it; None where the system doesn't tell."""
        try:
            with open(f"/proc/{self.process}/status", "rb", buffering=0) as file:
                return sum(int(rest.split(None, 1)[0]) for rest in file.read().split(b"ctxt_switches:")[1:])
        except (OSError, ValueError, IndexError):
            return None

    def silent(self, now: float) -> float:
        """Seconds since it was last seen to go on; 0 where nobody can tell."""
        count = self.read()
        if count is None or count != self.count:
            self.count, self.last = count, now
        return now - self.last


class Child:
    """A member's process: the pipes that it writes to, since when it runs, and whether it takes turns. Times are seconds of the keeper's clock."""

    def __init__(self, process: "subprocess.Popen[bytes]", now: float) -> None:
        self.process, self.since, self.pulse = process, now, Pulse(process.pid, now)
        self.output: IO[bytes] = pipe(process.stdout)
        self.errors: IO[bytes] = pipe(process.stderr)
