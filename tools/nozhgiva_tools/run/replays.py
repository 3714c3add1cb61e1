"""The program's `replay`, line by line: what each line of a schedule gives, of one process."""

import array
import fcntl
import os
import subprocess
import termios
import time
from typing import List


class Ended(Exception):
    """The program ended at a line: its status, what it said on standard error, and what it had put out."""

    def __init__(self, status: int, said: str, outputs: List[str]) -> None:
        super().__init__(status, said)
        self.status, self.said, self.outputs = status, said, outputs


class Replay:
    """A `replay` that runs. /proc tells when it waits for the next line."""

    def __init__(self, program: str) -> None:
        self.child = subprocess.Popen([program, "replay"], stdin=subprocess.PIPE, stdout=subprocess.PIPE, stderr=subprocess.PIPE, bufsize=0)
        assert self.child.stdin is not None and self.child.stdout is not None and self.child.stderr is not None
        self.given, self.put_out, self.errors = self.child.stdin, self.child.stdout, self.child.stderr
        os.set_blocking(self.put_out.fileno(), False)
        self.call = f"/proc/{self.child.pid}/syscall"

    def waits(self) -> bool:
        """Whether all that it was given is read, and it waits in a read of its input."""
        left = array.array("i", [0])
        fcntl.ioctl(self.given.fileno(), termios.FIONREAD, left)
        if left[0]:
            return False
        with open(self.call, encoding="ascii") as call:
            return call.read().split()[:2] == ["0", "0x0"]

    def taken(self) -> bytes:
        try:
            return os.read(self.put_out.fileno(), 1 << 20)
        except BlockingIOError:
            return b""

    def rest(self) -> bytes:
        text = b""
        while more := self.taken():
            text += more
        return text

    def play(self, line: str) -> List[str]:
        """The outputs of a line; Ended where the program ended at it."""
        text = b""
        try:
            self.given.write(line.encode("latin-1") + b"\n")
        except BrokenPipeError:
            self.child.wait()
        while self.child.poll() is None and not self.waits():
            text += self.taken()
            time.sleep(0)
        text += self.rest()
        outputs = text.decode("ascii").splitlines()
        if self.child.poll() is not None:
            raise Ended(self.child.returncode, self.errors.read().decode(errors="replace").strip(), outputs)
        return outputs

    def end(self) -> "tuple[int, str]":
        """Ends its input, and gives its status and what it said."""
        if not self.given.closed:
            self.given.close()
        status = self.child.wait()
        said = "" if self.errors.closed else self.errors.read().decode(errors="replace").strip()
        self.put_out.close()
        self.errors.close()
        return status, said
