"""Runs the program under strace, and reads from what that wrote the calls that matter to its file, in order: what was made, written, given a
length and synced, and what left the process, as lines and as messages."""

import os
import re
import signal
import subprocess
import time
from typing import Dict, Iterator, List, NamedTuple, Optional, Sequence, Tuple

SECTOR = 512
CALLS = "openat,close,pwrite64,ftruncate,fsync,fdatasync,sendto,write"
# More than the longest message has.
LONGEST = 65536
DONE = re.compile(r"(\d+\.\d+) (\w+)\((.*)\) += (-?\d+|\?).*?(?: <(\d+\.\d+)>)?$")
CUT = re.compile(r"(\d+\.\d+) (\w+)\((.*) <unfinished \.\.\.>$")
TEXT = re.compile(r'(\w+), "((?:\\x[0-9a-f]{2})*)"(.*)$')
PORT = re.compile(r"htons\((\d+)\)")
ZEROS = bytes(SECTOR)


class Call(NamedTuple):
    """A call of the program, or what was done to its file between two runs.

    `kind` is make (the file was opened, and made where it wasn't there), write (a sector's bytes at sector `at`), length (`at` bytes), sync,
    folder (its folder was synced), line (lines were written to standard output), send (a message, to port `at`); or what was done between two runs:
    damage (a sector was spoiled) and cut (to `at` bytes).
    Times are seconds of the clock; of a call that the process's end cut, both are those of its beginning."""

    kind: str
    begun: float
    ended: float
    at: int = 0
    data: bytes = b""


class Reader:
    """Reads the lines of strace on one process, which has one data file."""

    def __init__(self, path: str) -> None:
        self.path, self.folder = path, os.path.dirname(path)
        self.roles: Dict[str, str] = {"1": "lines"}

    def read(self, lines: Sequence[str]) -> Iterator[Call]:
        for line in lines:
            found = DONE.match(line)
            if found and found[4] not in ("?", "-1"):
                begun = float(found[1])
                yield from self.calls(found[2], found[3], found[4], begun, begun + float(found[5] or 0))
                continue
            found = CUT.match(line) or found
            if found and found[2] in ("pwrite64", "ftruncate"):
                # The process ended in it, or it failed: it may have been carried out.
                yield from self.calls(found[2], found[3], "0", float(found[1]), float(found[1]))

    def calls(self, name: str, words: str, answer: str, begun: float, ended: float) -> Iterator[Call]:
        first = words.split(",", 1)[0]
        role = self.roles.get(first)
        if name == "openat":
            yield from self.opened(words, answer, begun, ended)
        elif name == "close":
            self.roles.pop(first, None)
        elif name == "pwrite64" and role == "file":
            data, rest = unquoted(words)
            yield from sectors(data, int(rest.rsplit(",", 1)[1]), begun, ended)
        elif name == "ftruncate" and role == "file":
            yield Call("length", begun, ended, int(words.rsplit(",", 1)[1]))
        elif name in ("fsync", "fdatasync") and role in ("file", "folder"):
            yield Call("sync" if role == "file" else "folder", begun, ended)
        elif name == "sendto":
            data, rest = unquoted(words)
            port = PORT.search(rest)
            yield Call("send", begun, ended, int(port[1]) if port else 0, data)
        elif name == "write" and role == "lines":
            yield Call("line", begun, ended, 0, unquoted(words)[0])

    def opened(self, words: str, answer: str, begun: float, ended: float) -> Iterator[Call]:
        path = os.fsdecode(unquoted(words)[0])
        if path == self.path:
            self.roles[answer] = "file"
            yield Call("make", begun, ended)
        elif path == self.folder:
            self.roles[answer] = "folder"


def unquoted(words: str) -> Tuple[bytes, str]:
    """The bytes that a call was given, and the words after them."""
    found = TEXT.match(words)
    if found is None:
        raise ValueError(f"a call of another form: {words[:200]}")
    return bytes.fromhex(found[2].replace("\\x", "")), found[3]


def sectors(data: bytes, place: int, begun: float, ended: float) -> Iterator[Call]:
    if place % SECTOR or len(data) % SECTOR:
        raise ValueError(f"a write that isn't of whole sectors: {len(data)} bytes at {place}")
    for at in range(0, len(data), SECTOR):
        piece = data[at:at + SECTOR]
        yield Call("write", begun, ended, (place + at) // SECTOR, ZEROS if piece == ZEROS else piece)


class Traced:
    """A process of the program that runs under strace, on the file with this path."""

    def __init__(self, words: Sequence[str], path: str, trace: str) -> None:
        self.path, self.trace = path, trace
        tracing = ["strace", "-ttt", "-T", "-xx", "-s", str(LONGEST), "-e", "signal=none", "-e", f"trace={CALLS}", "-o", trace]
        self.tracer = subprocess.Popen([*tracing, *words], stdin=subprocess.DEVNULL, stdout=subprocess.DEVNULL, stderr=subprocess.DEVNULL)

    def wait(self) -> int:
        """Waits until it has ended by itself; its code."""
        return self.tracer.wait()

    def kill(self) -> None:
        """Ends it in whatever it does."""
        end = time.monotonic() + 10
        while self.tracer.poll() is None and time.monotonic() < end:
            for child in self.children():
                try:
                    os.kill(child, signal.SIGKILL)
                except ProcessLookupError:
                    pass
            try:
                self.tracer.wait(0.05)
            except subprocess.TimeoutExpired:
                pass
        self.tracer.kill()
        self.tracer.wait()

    def children(self) -> List[int]:
        try:
            with open(f"/proc/{self.tracer.pid}/task/{self.tracer.pid}/children") as file:
                return [int(word) for word in file.read().split()]
        except OSError:
            return []

    def calls(self) -> List[Call]:
        with open(self.trace) as file:
            return list(Reader(self.path).read(file.read().splitlines()))


def why_not(folder: str) -> Optional[str]:
    """Why nothing can be recorded here; None where it can."""
    try:
        ran = subprocess.run(["strace", "-o", os.path.join(folder, "trace"), "true"], stdout=subprocess.DEVNULL, stderr=subprocess.PIPE, text=True, check=False)
    except FileNotFoundError:
        return "there is no strace"
    return None if ran.returncode == 0 else f"strace can't follow a process here: {ran.stderr.strip().splitlines()[-1:]}"
