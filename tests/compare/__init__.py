"""Two programs at the same work: what each gives, and where that differs."""

from __future__ import annotations

import os
import subprocess
from typing import Callable, Dict, Iterator, NamedTuple, Optional, Sequence

HANGS = 120.0  # seconds
SHOWN = 80  # bytes of each, from the line on in which they differ

Given = Dict[str, bytes]
"""What a run gave, by name: its status, its output, a file that it wrote."""


class Case(NamedTuple):
    """A piece of work. It is done by a program, with an empty folder."""

    name: str
    work: Callable[[str, str], Given]


def ran(program: str, words: Sequence[str], given: bytes = b"", folder: Optional[str] = None) -> Given:
    """What a program gives for words and standard input."""
    try:
        done = subprocess.run([program, *words], input=given, stdout=subprocess.PIPE, stderr=subprocess.PIPE, cwd=folder, timeout=HANGS, check=False)
    except subprocess.TimeoutExpired:
        return {"status": b"it hangs"}
    return {"status": str(done.returncode).encode(), "output": done.stdout, "errors": done.stderr}


def differences(proved: Given, compiled: Given) -> Iterator[str]:
    """A sentence for each part in which two runs differ."""
    for name in {**proved, **compiled}:
        first, second = proved.get(name, b""), compiled.get(name, b"")
        if first != second:
            at = len(os.path.commonprefix([first, second]))
            line = first.rfind(b"\n", 0, at) + 1
            yield f"{name}, byte {at}: proved {shown(first, line, at)}, compiled {shown(second, line, at)}"


def shown(data: bytes, line: int, at: int) -> str:
    """Some bytes from the beginning of a line, or from where it differs, if that is too far off."""
    start = line if at - line < SHOWN else at
    return repr(data[start:start + SHOWN])[1:]
