"""The library that has system calls of one process fail (shim.c), compiled here, and what it is told."""

from __future__ import annotations

import os
import shutil
import struct
import subprocess
from pathlib import Path
from typing import Dict, NamedTuple, Optional

SOURCE = Path(__file__).resolve().parent / "shim.c"
KINDS = ("open", "stat", "lock", "write", "sync", "length", "read", "say", "socket", "bind", "connect", "accept", "watch", "poll", "send", "receive", "clock")
"""The kinds of calls, in the order of the counts: those of a file, `say` (a write to standard output), those of sockets, and looks at the clock."""
COUNTS = struct.Struct(f"={len(KINDS) + 1}q")
ALWAYS = 1 << 40


class Fault(NamedTuple):
    """The call of a kind that is disturbed, by its number from 1, and so many from there on; and what it does then."""

    call: str
    way: str
    at: int
    times: int = 1


class Counts(NamedTuple):
    """How many calls of each kind there were, and how many were disturbed."""

    of: Dict[str, int]
    disturbed: int


class Shim:
    """The compiled library."""

    def __init__(self, folder: str) -> None:
        self.library = os.path.join(folder, "shim.so")
        subprocess.run([str(compiler()), "-shared", "-fPIC", "-O1", "-o", self.library, str(SOURCE), "-ldl"], check=True)

    def environment(self, counts: str, **more: object) -> Dict[str, str]:
        """The environment of a process under it, which keeps its counts in a file that is made here."""
        with open(counts, "wb") as file:
            file.write(bytes(COUNTS.size))
        return {**os.environ, "LD_PRELOAD": self.library, "FAULT_COUNTS": counts, **{name: str(value) for name, value in more.items()}}

    def failing(self, counts: str, fault: Fault, **more: object) -> Dict[str, str]:
        return self.environment(counts, FAULT_CALL=fault.call, FAULT_WAY=fault.way, FAULT_AT=fault.at, FAULT_TIMES=fault.times, **more)


def compiler() -> Optional[str]:
    return shutil.which("cc") or shutil.which("gcc") or shutil.which("clang")


def read_counts(path: str) -> Counts:
    with open(path, "rb") as file:
        *of, disturbed = COUNTS.unpack(file.read())
    return Counts(dict(zip(KINDS, of)), disturbed)
