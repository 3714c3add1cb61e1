"""A group of members on this machine, and clients that ask it: the one way in which the tools, tests and figures start members.

Each member has its file, its lines and what it says on standard error in one new folder. `keepers.Kept` has the members under keepers, `cluster` one whose
members end with whoever started them. Apart stand, each for its own reason: the tests of the clients in Python and Go, and what makes their vectors, since those
packages need nothing of this repository; the members that bench measures beside those of other programs, which are started and ended alike; and single members
that a test starts by words of its own, since the words are what it tries. They take the words from here where they are Python of this repository."""

import os
import shutil
import subprocess
import tempfile
import threading
import time
from typing import Any, Dict, List, Optional, Sequence, Tuple, TypeVar

from nozhgiva_tools.told import lines as told_lines

from . import built
from .nets import Net

NUMBER = 5  # of a group that nobody else on this machine can take for its own, since its ports are free ones
SIZE = 3
TURNS, CLIENT_TURNS = "1000000000", "1000000"
GIVEN_TIME = 300.0  # seconds that a client has
LAST_WORD = 5.0  # seconds from TERM to KILL
CHECKPOINT = 32  # operations from one checkpoint to the next

Own = TypeVar("Own", bound="Group")


class Failed(Exception):
    """Something isn't as it should be; the text says what."""


def node_words(program: str, number: int, member: int, file: object, turns: object, addresses: Sequence[str], *more: str) -> List[str]:
    """The words that run a member; `more` stand behind them, as --fresh."""
    return [program, "node", str(number), str(member), str(file), str(turns), *addresses, *more]


def client_words(program: str, number: int, client: int, turns: object, addresses: Sequence[str], *more: str) -> List[str]:
    """The words that run a client."""
    return [program, "client", str(number), str(client), str(turns), *addresses, *more]


def migrate_words(program: str, number: int, member: int, size: int, file: object) -> List[str]:
    """The words that make a member's file one of version 2."""
    return [program, "migrate", str(number), str(member), str(size), str(file)]


class Group:
    """Members of a group, as many as the net has hosts: three on loopback without one. `SCHEME` in the environment says the scheme where none is given;
    without a program the script ends with 2."""

    keeps_lines = True
    last_word = LAST_WORD

    def __init__(self, net: Optional[Net] = None, scheme: Optional[str] = None, *, version: int = 1, number: int = NUMBER, program: str = "", folder: str = "") -> None:
        self.net = Net(SIZE) if net is None else net
        self.number, self.version = number, version
        self.program = program or built.or_end()
        self.folder = folder or os.path.realpath(tempfile.mkdtemp(prefix="nozhgiva-"))
        self.addresses = [(os.environ.get("SCHEME", "") if scheme is None else scheme) + host for host in self.net.hosts]
        self.size = len(self.addresses)
        self.ports = [int(address.rpartition(":")[2]) for address in self.addresses]
        self.members: Dict[int, "subprocess.Popen[bytes]"] = {}  # those that were started and not ended

    def __enter__(self: Own) -> Own:
        return self

    def __exit__(self, *_: object) -> None:
        self.close()

    # Files and words.

    def path(self, name: object) -> str:
        return os.path.join(self.folder, str(name))

    def file(self, member: int) -> str:
        return self.path(member)

    def of_version(self) -> List[str]:
        return ["--v2"] if self.version == 2 else []

    def words(self, member: int, *more: str, turns: object = TURNS) -> List[str]:
        """The words of a member; where its file is made they say the version too."""
        made = self.of_version() if "--fresh" in more else []
        return [*self.net.inside(member), *node_words(self.program, self.number, member, self.file(member), turns, self.addresses, *more, *made)]

    def asking(self, client: int, turns: object = CLIENT_TURNS) -> List[str]:
        """The words of a client."""
        return [*self.net.inside(None), *client_words(self.program, self.number, client, turns, self.addresses, *self.of_version())]

    # Members.

    def start(self, member: int, *more: str, **how: Any) -> None:
        """Starts a member; what it puts out and says comes behind what an earlier one did. `how` may have more of what `Popen` takes, as an environment."""
        lines = self.path(f"{member}.text") if self.keeps_lines else os.devnull
        with open(lines, "ab") as out, open(self.path(f"{member}.err"), "ab") as err:
            self.members[member] = self.spawn(member, self.words(member, *more), **{"stdin": subprocess.DEVNULL, "stdout": out, "stderr": err, **how})

    def spawn(self, member: int, words: Sequence[str], **how: Any) -> "subprocess.Popen[bytes]":
        """Starts a member's process."""
        return subprocess.Popen(words, **how)

    def start_all(self, *more: str) -> None:
        """Starts all members, each on a file that is made."""
        for member in range(self.size):
            self.start(member, "--fresh", *more)

    def kill(self, member: int) -> None:
        """Ends a member, if it runs, by a signal that it can't hear."""
        child = self.members.pop(member, None)
        if child is not None:
            child.kill()
            child.wait()

    def stop(self, member: int) -> None:
        """Ends a member, if it runs: by TERM, and where it doesn't heed that by KILL."""
        child = self.members.pop(member, None)
        if child is None:
            return
        child.terminate()
        try:
            child.wait(self.last_word)
        except subprocess.TimeoutExpired:
            child.kill()
            child.wait()

    def signal(self, member: int, number: int) -> bool:
        """Sends a member a signal; whether there was one to send it to."""
        child = self.members.get(member)
        if child is not None:
            child.send_signal(number)
        return child is not None

    def close(self) -> None:
        """Ends all members, and removes the folder."""
        for member in list(self.members):
            self.kill(member)
        shutil.rmtree(self.folder)

    # What they tell.

    def told(self, member: int) -> List[str]:
        """The lines that a member has put out."""
        with open(self.path(f"{member}.text"), encoding="ascii", errors="replace") as file:
            return file.read().splitlines()

    def errors(self, member: int) -> List[str]:
        """What a member said on standard error."""
        try:
            with open(self.path(f"{member}.err"), encoding="utf-8", errors="replace") as file:
                return file.read().strip().splitlines()
        except FileNotFoundError:
            return []

    def last_words(self) -> str:
        """What each member said last on standard error, behind a text that says what failed."""
        said = [(member, self.errors(member)) for member in range(self.size)]
        return "".join(f"; member {member}: {lines[-1]}" for member, lines in said if lines)

    def await_line(self, member: int, front: str, most: float = 30.0) -> None:
        """Waits until a member has put out a line that begins so."""
        end = time.monotonic() + most
        while not any(line.startswith(front) for line in self.told(member)):
            if time.monotonic() > end:
                raise Failed(f"member {member} doesn't come to: {front}{self.last_words()}")
            time.sleep(0.1)

    def applied(self, member: int) -> int:
        """The last operation that a member has told as applied."""
        with open(self.path(f"{member}.text"), "rb") as text:
            return told_lines.last_applied(text)

    def catch_up(self, member: int, most: float = 60.0) -> None:
        """Waits until a member has applied what another one has, but for a checkpoint's worth at most."""
        end = time.monotonic() + most
        while self.applied(member) + CHECKPOINT < max(self.applied(other) for other in range(self.size)):
            if time.monotonic() > end:
                raise Failed(f"member {member} doesn't catch up in {most:g} s{self.last_words()}")
            time.sleep(0.2)

    def replies(self, member: int) -> int:
        """How many replies a member has told."""
        with open(self.path(f"{member}.text"), "rb") as text:
            return sum(line.startswith(b"reply ") for line in text)

    def primary(self) -> int:
        """The member that replied most in a while."""
        before = [self.replies(member) for member in range(self.size)]
        time.sleep(1)
        return max(range(self.size), key=lambda member: self.replies(member) - before[member])

    # Clients.

    def ask(self, client: int, lines: Sequence[str], most: float = GIVEN_TIME) -> List[str]:
        """Asks the lines as a client, and gives what it hears."""
        given = "".join(f"{line}\n" for line in lines)
        try:
            ran = subprocess.run(self.asking(client), input=given, stdout=subprocess.PIPE, stderr=subprocess.PIPE, text=True, timeout=most, check=False)
        except subprocess.TimeoutExpired as error:
            raise Failed(f"the group doesn't answer in {most:.0f} s{self.last_words()}") from error
        if ran.returncode:
            raise Failed(f"client {client} ends with status {ran.returncode}: {ran.stderr.strip()}{self.last_words()}")
        return ran.stdout.splitlines()


class Puts:
    """Puts one after the other, by a client that is asked anew where it ends, with the times of the answers."""

    def __init__(self, group: Group, number: int = 1) -> None:
        self.group, self.number = group, number
        self.times: List[float] = []
        self.open, self.going = threading.Event(), True
        self.open.set()
        self.client: "Optional[subprocess.Popen[str]]" = None
        self.thread = threading.Thread(target=self.run, daemon=True)
        self.thread.start()

    def run(self) -> None:
        while self.going:
            client = subprocess.Popen(self.group.asking(self.number), stdin=subprocess.PIPE, stdout=subprocess.PIPE, stderr=subprocess.DEVNULL, text=True, bufsize=1)
            self.client = client
            self.number += 1
            assert client.stdout is not None
            if client.stdout.readline() == "session\n":
                self.put_all(client)
            client.kill()
            client.wait()

    def put_all(self, client: "subprocess.Popen[str]") -> None:
        assert client.stdin is not None and client.stdout is not None
        while self.going:
            self.open.wait()
            try:
                client.stdin.write(f"put key{len(self.times) % 100} value\n")
            except OSError:
                return
            if client.stdout.readline() != "ok\n":
                return
            self.times.append(time.monotonic())

    def after(self, since: float, most: float) -> Optional[float]:
        """How many seconds after a time the first answer came, None where none did in so many."""
        while True:
            later = [at for at in self.times[-2000:] if at >= since]
            if later:
                return later[0] - since
            if time.monotonic() > since + most:
                return None
            time.sleep(0.005)

    def phase(self, seconds: float) -> Tuple[int, float]:
        """Lets so many seconds go by. How many answers came, and the longest time without one."""
        begun = time.monotonic()
        time.sleep(seconds)
        ended = time.monotonic()
        times = [begun, *(at for at in self.times if begun <= at <= ended), ended]
        return len(times) - 2, max(b - a for a, b in zip(times, times[1:]))

    def await_answers(self, count: int, most: float = 60.0) -> None:
        """Waits until so many more answers came."""
        wanted, end = len(self.times) + count, time.monotonic() + most
        while len(self.times) < wanted:
            if time.monotonic() > end:
                raise Failed(f"no {count} answers in {most:g} s{self.group.last_words()}")
            time.sleep(0.01)

    def close(self) -> None:
        self.going = False
        self.open.set()
        if self.client:
            self.client.kill()
        self.thread.join(5)


def send(pid: int, number: int) -> None:
    """Sends a process a signal; nothing where it is gone."""
    try:
        os.kill(pid, number)
    except ProcessLookupError:
        pass
