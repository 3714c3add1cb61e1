"""A command that may take long: it is said when it begins, each ten seconds, and how long it took."""

import subprocess
import time
from typing import Callable, IO, List, Mapping, Optional

EVERY = 10.0  # seconds from one line to the next


def run(say: Callable[[str], None], name: str, words: List[str], said: IO[bytes], where: Optional[str] = None, env: Optional[Mapping[str, str]] = None) -> int:
    """Runs a command to its end, and gives its status. What it says itself goes to a file."""
    say(name)
    begun = time.monotonic()
    child = subprocess.Popen(words, cwd=where, env=env, stdin=subprocess.DEVNULL, stdout=said, stderr=said)
    try:
        while True:
            try:
                status = child.wait(EVERY)
                break
            except subprocess.TimeoutExpired:
                say(f"{name}: {time.monotonic() - begun:.0f} s")
    finally:
        if child.poll() is None:
            child.terminate()
            child.wait()
    say(f"{name}: done in {time.monotonic() - begun:.0f} s")
    return status


def last_lines(said: IO[bytes], most: int = 20) -> str:
    said.seek(0)
    return "\n".join(said.read().decode(errors="replace").splitlines()[-most:])
