"""One member that is started on a file by itself, in a group whose other members are played: it is told that the view has changed, so it states its log."""

import errno
import os
import select
import signal
import socket
import time
from typing import Dict, List, NamedTuple, Optional, Sequence, Tuple, Union

from nozhgiva_tools.run.group import node_words, NUMBER
from nozhgiva_tools.told.ends import Code

from .disk import Bytes
from .reading import datafile
from .statements import DO_VIEW_CHANGE, start_view_change, Statement, statement_of

TURNS = "1000000"
# A member that said nothing for so many seconds is judged to be silent; after fewer it is told again.
PATIENCE, AGAIN = 300.0, 1.0
POLL = 30  # milliseconds
# The code of a member whose port is in use, how often it is started then, and after how many seconds.
LINK_FAULT, TRIES, PAUSE = int(Code.LINK_FAULT), 40, 0.25
HOST = "127.0.0.1"
NO_ENVIRONMENT: Dict[str, str] = {}


class Seen(NamedTuple):
    """What a member did: its code where it ended by itself (a negative one where a signal ended it), its lines, and its statement."""

    code: Optional[int]
    lines: List[str]
    statement: Optional[Statement]

    def line(self, front: str) -> Optional[List[str]]:
        """The words of its first line that begins so."""
        return next((line.split() for line in self.lines if line.startswith(front)), None)


class Desk:
    """Where members are started one after the other: a file, and the ports of one group."""

    def __init__(self, program: str, folder: str, port: int) -> None:
        self.program, self.path, self.port = program, os.path.join(folder, f"file-{port}"), port
        self.starts = 0

    def put(self, image: Optional[Bytes]) -> None:
        """Makes the file, or for None sees that there is none."""
        if image is None:
            if os.path.exists(self.path):
                os.unlink(self.path)
            return
        with open(self.path, "r+b" if os.path.exists(self.path) else "wb") as file:
            file.write(image)
            file.truncate()

    def addresses(self, size: int) -> List[str]:
        return [f"{HOST}:{self.port + member}" for member in range(size)]

    def run(self, words: Sequence[str]) -> int:
        """Runs a command of the program to its end; its code."""
        self.starts += 1
        process = spawn(words)
        end = time.monotonic() + PATIENCE
        while True:
            ended, status = os.waitpid(process, os.WNOHANG)
            if ended:
                return os.waitstatus_to_exitcode(status)
            if time.monotonic() > end:
                os.kill(process, signal.SIGKILL)
            time.sleep(0.001)

    def make(self, member: int, size: int, *more: str) -> int:
        """Makes the member's file and ends; the code. A port that is in use is no matter of the file, which is made before."""
        code = self.run(node_words(self.program, NUMBER, member, self.path, 1, self.addresses(size), "--fresh", *more))
        return 0 if code == LINK_FAULT else code

    def start(self, member: int, size: int, version: int, view: int) -> Seen:
        """Starts the member on the file, and tells it that the others are in a view above this one; where it is alone, waits until it leads.
        It is killed as soon as it has said what is asked."""
        for _ in range(TRIES):
            self.starts += 1
            try:
                with Conversation(self, member, size, version, view) as conversation:
                    seen = conversation.run()
                if seen.code != LINK_FAULT:
                    return seen
            except OSError as error:
                if error.errno != errno.EADDRINUSE:
                    raise
            # Another program took a port by chance, as a client does: it is let go after a while.
            time.sleep(PAUSE)
        raise OSError(f"port {self.port} and those after it were in use all the time")


class Conversation:
    """One member, and the primary of the next view, which this program plays."""

    def __init__(self, desk: Desk, member: int, size: int, version: int, view: int) -> None:
        self.member, self.size, self.version = member, size, version
        self.view = view + 1
        while size > 1 and self.view % size != (member + 1) % size:
            self.view += 1
        self.target = (HOST, desk.port + member)
        self.socket = bound(desk.port + self.view % size if size > 1 else None)
        self.text = b""
        self.statement: Optional[Statement] = None
        self.is_quiet = self.is_told = False
        self.reader, writer = os.pipe()
        self.process = spawn(node_words(desk.program, NUMBER, member, desk.path, TURNS, desk.addresses(size)), writer)
        os.close(writer)
        self.code: Optional[int] = None

    def __enter__(self) -> "Conversation":
        return self

    def __exit__(self, *_: object) -> None:
        if self.code is None:
            os.kill(self.process, signal.SIGKILL)
            os.waitpid(self.process, 0)
        os.close(self.reader)
        self.socket.close()

    def run(self) -> Seen:
        waiting = select.poll()
        waiting.register(self.reader, select.POLLIN)
        waiting.register(self.socket, select.POLLIN)
        end, again = time.monotonic() + PATIENCE, 0.0
        while not self.is_over() and time.monotonic() < end:
            if b"start " in self.text and time.monotonic() >= again and self.size > 1:
                self.tell()
                again = time.monotonic() + AGAIN
            came = waiting.poll(POLL)
            self.is_quiet = not came
            for ready, _ in came:
                if ready == self.socket.fileno():
                    self.hear(self.socket.recv(65536))
                elif not self.read():
                    self.code = os.waitstatus_to_exitcode(os.waitpid(self.process, 0)[1])
        return Seen(self.code, self.text.decode("ascii", "replace").splitlines(), self.statement)

    def is_over(self) -> bool:
        if self.code is not None or self.statement is not None:
            return True
        return self.size == 1 and self.is_quiet and (b"\nchoose " in self.text or b"\nwait " in self.text)

    def read(self) -> bool:
        piece = os.read(self.reader, 65536)
        self.text += piece
        return bool(piece)

    def tell(self) -> None:
        """Tells it that each of the others has entered the view; told again it is a later one, since the member may have gone on by itself."""
        self.view += self.size if self.is_told else 0
        self.is_told = True
        for sender in range(self.size):
            if sender != self.member:
                self.socket.sendto(start_view_change(NUMBER, self.version, sender, self.view), self.target)

    def hear(self, data: bytes) -> None:
        header = datafile.header_of(data)
        if header is not None and header.command == DO_VIEW_CHANGE and header.view % self.size == self.view % self.size and header.replica == self.member:
            self.statement = statement_of(data)


def bound(port: Optional[int]) -> socket.socket:
    """A socket, at this port where one is given."""
    made = socket.socket(socket.AF_INET, socket.SOCK_DGRAM)
    try:
        if port is not None:
            made.bind((HOST, port))
    except OSError:
        made.close()
        raise
    return made


def spawn(words: Sequence[str], output: Optional[int] = None) -> int:
    """Starts a program with no input, no environment and its errors dropped; its number. A run starts single members by the hundred thousand, each of which
    lives for some milliseconds: so none of them is a `Group`, and each is spawned without a copy of this process."""
    null = os.devnull
    actions: List[Tuple[Union[int, str], ...]] = [(os.POSIX_SPAWN_OPEN, 0, null, os.O_RDONLY, 0), (os.POSIX_SPAWN_OPEN, 2, null, os.O_WRONLY, 0)]
    if output is None:
        actions.append((os.POSIX_SPAWN_OPEN, 1, null, os.O_WRONLY, 0))
    else:
        actions.append((os.POSIX_SPAWN_DUP2, output, 1))
    return os.posix_spawn(words[0], list(words), NO_ENVIRONMENT, file_actions=actions)
