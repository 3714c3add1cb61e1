"""Runs one member: starts it, reads its lines, starts it again when it ended or stands still, and tells its health."""

import errno
import fcntl
import os
import select
import selectors
import shutil
import signal
import socket
import subprocess
import time
from collections import Counter
from typing import Callable, Dict, IO, List, NamedTuple, Optional

from nozhgiva_tools.told import datafile
from nozhgiva_tools.told.lines import parse, Reply, Splitter

from . import doors, endings, metrics, noting, vitals as health
from .knowing import Demand, Heard, PROBE, Tally
from .log import private, Thinner, Writer
from .looking import Looker
from .policy import Policy
from .processes import Child
from .renewal import Asking, GETS, Renewal
from .vitals import Life

PIECE = 1 << 16  # bytes that are read at once
PIECES = 16  # that are read before anything else is looked at
PIPE = 1 << 20  # bytes that the system keeps of a member's lines while nobody reads them
F_SETPIPE_SZ = 1031  # Linux
SHORT = 10.0  # seconds; after a shorter life the pause before the next start is doubled
MOST_PAUSE = 60.0  # seconds
MINUTE = 60.0
BEAT = 0.25  # seconds from one look at whether the member goes on to the next
FIRST_LOOK = 1.0  # seconds from a start to the first look at the data file
POST = 10.0  # seconds from one writing of the metrics' file to the next
FRESH = 2.0  # seconds; where its health is asked, and the last look at the file is older, it is looked at again
NOTED = 2.0  # seconds after which what was seen of the data file is noted, if no sync has failed since
LAST_LOOK = 2.0  # seconds for which the last look at the file is waited for
SOON = 5.0  # seconds from look to look while the file can't tell of some slots, or blocks are missing; else a minute
KILLED = 5.0  # seconds after which a member that doesn't end is killed
HELD = 20  # exit code: another keeper, or a member that it left, has the file
TURNS = str(2 ** 64 - 1)


class Unfit(Exception):
    """FILE is none that a member can be started on; the code is the one that its keeper ends with."""

    def __init__(self, code: int, text: str) -> None:
        super().__init__(text)
        self.code = code


def check_file(path: str) -> None:
    """A member is never made by its keeper: a volume that isn't mounted, or a mistyped path, must not become a new member."""
    if not os.path.lexists(path):
        folder = os.path.dirname(os.path.abspath(path))
        where = f"the folder {folder} is there" if os.path.isdir(folder) else f"the folder {folder} isn't there either"
        raise Unfit(endings.LOST, f"there is no file {path} ({where}): look whether its volume is mounted and its path is right; a member is made once, by hand, by operate/make-member")
    if not os.path.isfile(path):
        raise Unfit(endings.DISK_FAULT, f"{path} is no plain file")
    if os.path.getsize(path) == 0:
        raise Unfit(endings.LOST, f"the file {path} is empty: no member was made in it")


def check_age(path: str, note: Optional[noting.Note]) -> None:
    """A file that was put back from a copy isn't started: it would forget what its member acknowledged since."""
    try:
        older = noting.is_older(datafile.Report(path), note) if note is not None else None
    except OSError:
        return  # The member will say what is wrong with it.
    if older is not None:
        raise Unfit(endings.OLDER, f"the file {path} is older than when it was seen last: {older}. It was put back from a copy, or its disk lost what it had confirmed, and started "
                    f"it would forget what it acknowledged since. Put the right file in its place; else this member is lost, and the group goes on with those that are left. "
                    f"Who knows better removes {path}.keep")


class Held(Exception):
    """Another process keeps this file."""


class Lock:
    """One keeper for a data file. The member has the lock too, so that a keeper that was killed leaves it to its member until that has ended. Its first line
    tells who has it, the others are notes of the data file, and of the last operation that the member applied."""

    def __init__(self, path: str, wait: float) -> None:
        self.file = os.fdopen(private(path, os.O_RDWR | os.O_CREAT | os.O_CLOEXEC), "r+b", buffering=0)
        end = time.monotonic() + wait
        while not self.take():
            if time.monotonic() > end:
                raise Held(self.lines()[0] or "unknown")
            time.sleep(0.1)
        _, note, said = self.lines()
        self.note, self.said = noting.read(note), noting.read_said(said)
        self.tell(f"keeper {os.getpid()}")

    def lines(self) -> List[str]:
        """The first three lines; empty texts where there are none."""
        return (os.pread(self.file.fileno(), 600, 0).decode("ascii", "replace").split("\n") + ["", "", ""])[:3]

    def take(self) -> bool:
        try:
            fcntl.flock(self.file, fcntl.LOCK_EX | fcntl.LOCK_NB)
        except OSError as error:
            if error.errno in (errno.EAGAIN, errno.EACCES):
                return False
            raise
        return True

    def tell(self, text: str) -> None:
        """Writes who has it, before the notes."""
        self.who = text
        whole = f"{text}\n{self.note or ''}\n{self.said or ''}\n".encode()
        try:
            os.pwrite(self.file.fileno(), whole, 0)
            self.file.truncate(len(whole))
        except OSError:
            pass  # It is only said to whoever comes second, and looked at where there is something.

    def keep(self, note: noting.Note, said: Optional[noting.Said]) -> None:
        """Notes something of the data file, and of what its member applied."""
        before = self.note, self.said
        self.note, self.said = note if note.follows(self.note) else self.note, said or self.said
        if (self.note, self.said) != before:
            self.tell(self.who)


TIE = ["setpriv", "--pdeathsig", "KILL"]  # a program that is started so ends with whoever started it


def tie() -> List[str]:
    """The words that tie a member to its keeper; none where the system can't."""
    try:
        return TIE if subprocess.run(TIE + ["true"], stderr=subprocess.DEVNULL).returncode == 0 else []
    except OSError:
        return []


class Words(NamedTuple):
    """The words of a member, behind those that tie it to its keeper. It is never made anew here."""

    tie: List[str]
    program: str
    cluster: int
    replica: int
    file: str
    addresses: List[str]

    def command(self) -> List[str]:
        """The whole command; OSError where there is no such program."""
        if shutil.which(self.program) is None:
            raise FileNotFoundError(f"there is no program {self.program}")
        return self.tie + [self.program, "node", str(self.cluster), str(self.replica), self.file, TURNS] + self.addresses


class Pauses(NamedTuple):
    """Seconds: from an end of the member to its next start, at least; from one get to the next where slots are written anew, 0 for never."""

    start: float
    renew: float


class Keeper:
    """The loop around one member. It never waits for anything but what the selector tells, so its member's lines are always read."""

    def __init__(self, words: Words, policy: Policy, writer: Writer, thinner: Thinner, lock: Lock, pauses: Pauses) -> None:
        self.words, self.policy, self.writer, self.thinner, self.lock = words, policy, writer, thinner, lock
        self.pause, self.pauses = pauses.start, pauses
        self.clock: Callable[[], float] = time.monotonic
        self.selector = selectors.DefaultSelector()
        self.child: Optional[Child] = None
        self.splitter = Splitter()
        self.start_at: Optional[float] = self.clock()
        self.kill_at: Optional[float] = None
        self.minute = self.clock() + MINUTE
        self.restarts = self.ends = self.lines = 0
        self.codes: "Counter[int]" = Counter()  # how often the member ended with which code
        self.counts, self.demand = metrics.Counts(), Demand()
        self.program = ""  # the name of its bytes, once it was started
        self.poster: Optional[metrics.Poster] = None
        self.post_at: Optional[float] = None
        self.passing = 0  # starts in a row that ended with 7 before the file was opened
        self.opened = False  # whether this life of the member has opened its file
        self.note: Optional[noting.Note] = None  # what is to be noted of the file, at `note_at`
        self.note_at = self.clock()
        self.heard, self.is_corrupt = Heard(), False  # what the member said, and whether it ever contradicted that
        if lock.said is not None and lock.said[:2] == (words.replica, words.cluster):
            self.heard.names[lock.said.op] = lock.said.name
        self.had_open = False  # whether it was seen to have the file open that is at its path
        self.no_file = False  # whether nothing at that path can be read as its file
        self.looker = Looker(words.file)
        self.look_at: Optional[float] = None
        self.report: Optional[datafile.Report] = None
        self.look_began: Optional[float] = None  # of the look under way, or the last one
        self.looked: Optional[float] = None  # when the look began that `report` is of
        self.tally = Tally()
        self.beat_at = self.clock()
        self.renewal: Optional[Renewal] = None
        self.renewed = self.waiting = False  # whether this life of the member had its slots written anew; whether that waits for room
        self.doors: List[doors.Door] = []
        self.closed: Dict[str, doors.Answer] = {}  # ports that couldn't be had
        self.wanted: Optional[str] = None  # why the member is being ended by its keeper
        self.leaving = False
        self.code: Optional[int] = None  # with what the keeper ends

    # What is said.

    def say(self, text: str) -> None:
        self.writer.put(f"keep: {text}".encode("ascii", "replace"), said=True)

    def health(self) -> str:
        return health.line(self.policy, self.clock(), self.life())

    def life(self) -> Life:
        since, silent = (self.child.since, self.child.pulse.silent(self.clock())) if self.child is not None else (None, 0.0)
        return Life(self.words.replica, since, self.restarts, self.ends, self.lines, self.writer.dropped, silent, self.report, self.tally, self.demand, self.looked, self.no_file, self.is_corrupt)

    def say_health(self) -> None:
        self.say(f"{self.health()} left_out={self.thinner.left_out}")

    # The loop.

    def run(self) -> int:
        """Keeps the member until a signal ends this, or the member ends in a way that somebody has to look at. It gives the exit code."""
        self.take_signals()
        self.selector.register(self.looker.told, selectors.EVENT_READ, self.hear_look)
        while self.code is None:
            for key, _ in self.selector.select(self.next_time()):
                key.data()
            self.look_at_clock()
        if self.renewal is not None:
            self.renewal.end()
        if self.leaving:
            self.look_last()
        return self.code

    def look_last(self) -> None:
        """Notes what the file is like once its member was ended, unless the disk takes long."""
        self.look()
        if select.select([self.looker.told], [], [], LAST_LOOK)[0]:
            self.note = None
            self.hear_look()
            self.keep_note()

    def take_signals(self) -> None:
        """Signals come as bytes of a pipe, so that they are taken between two reads."""
        got, give = os.pipe()
        os.set_blocking(got, False)
        os.set_blocking(give, False)
        signal.set_wakeup_fd(give, warn_on_full_buffer=False)
        for number in (signal.SIGTERM, signal.SIGINT, signal.SIGHUP, signal.SIGUSR1, signal.SIGCHLD):
            signal.signal(number, lambda *_: None)
        self.selector.register(got, selectors.EVENT_READ, lambda: self.hear_signals(os.read(got, 100)))

    def hear_signals(self, numbers: bytes) -> None:
        if signal.SIGTERM in numbers or signal.SIGINT in numbers:
            self.leave()
        elif signal.SIGHUP in numbers:
            self.writer.reopen()
            self.say("the log is opened anew")
        if signal.SIGUSR1 in numbers:
            self.say_health()

    def add_door(self, listener: socket.socket, answer: doors.Answer) -> None:
        """Where it is asked, besides."""
        self.doors.append(doors.Door(self.selector, self.clock, listener, answer))

    def add_port(self, address: str, answer: doors.Answer) -> None:
        """A port on which it is asked. One that can't be had holds no member up: it is tried again each minute."""
        try:
            self.add_door(doors.listen_at(address), answer)
            if self.closed.pop(address, None) is not None:
                self.say(f"it can be asked at {address} now")
        except OSError as error:
            if address not in self.closed:
                self.say(f"nobody can ask at {address}: {error.strerror or error}; it is tried again each minute")
            self.closed[address] = answer

    def next_time(self) -> float:
        """Seconds until the clock is to be looked at."""
        times = [self.minute, self.beat_at] + [at for door in self.doors for at in door.next_time()]
        renewal = self.renewal.due if self.renewal is not None else None
        times += [at for at in (self.post_at, self.start_at, self.kill_at, self.look_at, renewal) if at is not None]
        return max(0.0, min(times) - self.clock())

    def look_at_clock(self) -> None:
        now = self.clock()
        if self.child is not None and self.child.process.poll() is not None:
            self.take_end(self.child)
        if self.start_at is not None and now >= self.start_at:
            self.start()
        if self.kill_at is not None and now >= self.kill_at and self.child is not None:
            self.kill_at = None
            self.child.process.kill()
        if self.renewal is not None:
            self.renewal.look_at_clock(now)
        for door in self.doors:
            door.look_at_clock(now)
        self.look_at_rest(now)

    def look_at_rest(self, now: float) -> None:
        """What is due now and then: looks at the file and at the process, and what is told."""
        if self.look_at is not None and now >= self.look_at:
            self.look_at = None
            self.look()
        if now >= self.beat_at:
            self.beat_at = now + BEAT
            if self.child is not None:
                self.child.pulse.silent(now)
            if self.note is not None and now >= self.note_at:
                self.keep_note()
        if self.poster is not None and self.post_at is not None and now >= self.post_at:
            self.post_at = now + POST
            self.poster.post(self.metrics())
        if now >= self.minute:
            self.minute = now + MINUTE
            self.say_health()
            for address, answer in list(self.closed.items()):
                self.add_port(address, answer)

    # The member's life.

    def start(self) -> None:
        """Starts the member, or tries again after a pause where the system has no process for it, or the program is just being replaced."""
        self.start_at = None
        try:
            check_file(self.words.file)
            check_age(self.words.file, self.lock.note)
        except Unfit as why:
            self.say(f"member {self.words.replica} isn't started: {why}")
            self.code = why.code
            return
        try:
            process = subprocess.Popen(self.words.command(), stdin=subprocess.DEVNULL, stdout=subprocess.PIPE, stderr=subprocess.PIPE, pass_fds=[self.lock.file.fileno()])
        except OSError as error:
            self.say(f"the member couldn't be started: {error}")
            self.start_later()
            return
        child = self.child = Child(process, self.clock())
        self.program = metrics.name_of(self.words.program)
        self.look_at, self.renewed, self.waiting, self.opened, self.had_open = child.since + FIRST_LOOK, False, False, False, False
        self.policy.begin(child.since)
        self.splitter = Splitter()
        self.lock.tell(f"keeper {os.getpid()}, member {process.pid}")
        self.widen(child.output)
        self.selector.register(child.output, selectors.EVENT_READ, lambda: self.read_lines(child))
        self.selector.register(child.errors, selectors.EVENT_READ, lambda: self.read_errors(child))
        for stream in (child.output, child.errors):
            os.set_blocking(stream.fileno(), False)
        self.say(f"member {self.words.replica} started, process {process.pid}")

    @staticmethod
    def widen(stream: IO[bytes]) -> None:
        try:
            fcntl.fcntl(stream, F_SETPIPE_SZ, PIPE)
        except OSError:
            pass  # The system's own size does too.

    def start_later(self, grows: bool = True) -> None:
        self.start_at = self.clock() + self.pause
        if grows:
            self.pause = min(2 * self.pause, MOST_PAUSE)

    def restart(self, why: str) -> None:
        """Ends the member, and starts it again as soon as it has ended."""
        if self.child is None or self.wanted is not None:
            return
        self.wanted = why
        self.say(f"member {self.words.replica} is stopped and started: {why}")
        self.end_member(self.child)

    def end_member(self, child: Child) -> None:
        child.process.terminate()
        self.kill_at = self.clock() + KILLED

    def leave(self) -> None:
        """Ends the member, and then the keeper."""
        self.leaving = True
        self.start_at = None
        if self.child is None:
            self.code = 0
        else:
            self.end_member(self.child)

    def take_end(self, child: Child) -> None:
        """The member has ended: its last lines, and what comes now."""
        self.take_rest(child)
        self.read_errors(child)
        code = child.process.returncode
        lived = self.clock() - child.since
        for stream in (child.output, child.errors):
            self.forget(stream)
        self.child = self.kill_at = self.look_at = None
        self.end_renewal()
        wanted, self.wanted = self.wanted, None
        if code == endings.DISK_FAULT:
            self.note = None  # A sync may have failed: what was read may never get to the disk.
        if self.leaving:
            self.code = 0
        elif wanted is not None:
            self.start_at = self.clock()
        else:
            self.ends += 1
            self.codes[code] += 1
            self.go_on_after(code, lived)

    def go_on_after(self, code: int, lived: float) -> None:
        """A start, later, or the keeper's end. A fault of the disk is passing where the file was never opened, as while a copy of it is read."""
        if lived >= SHORT or self.opened:
            self.passing = 0
        if lived >= SHORT:
            self.pause = self.pauses.start
        if code == endings.DISK_FAULT and not self.opened and self.passing < endings.PASSING:
            self.passing += 1
            self.say(f"member {self.words.replica} ended with 7 before its file was open, and is started again ({self.passing} of {endings.PASSING} times): another process may have it")
            self.start_later()
            return
        self.say(f"member {self.words.replica} {endings.sentence(code)}")
        if not endings.is_again(code):
            self.code = code
            return
        self.start_later(grows=code != endings.LINK_FAULT)

    def forget(self, stream: IO[bytes]) -> None:
        if not stream.closed:
            self.selector.unregister(stream)
            stream.close()

    # What the member writes.

    def read(self, stream: IO[bytes]) -> Optional[bytes]:
        """What there is, None where there is nothing now; where the stream has ended it is closed."""
        if stream.closed:
            return None
        try:
            piece = os.read(stream.fileno(), PIECE)
        except BlockingIOError:
            return None
        if not piece:
            self.forget(stream)
        return piece

    def read_lines(self, child: Child) -> None:
        """Takes what the member has written so far, at most PIECES pieces of it. One that closes its output and doesn't end is ended."""
        piece: Optional[bytes] = None
        for _ in range(PIECES):
            piece = self.read(child.output)
            if not piece:
                break
            for text in self.splitter.take(piece):
                self.hear(text)
        if piece == b"" and self.kill_at is None and child.process.poll() is None:
            self.kill_at = self.clock() + KILLED

    def take_rest(self, child: Child) -> None:
        """Takes all that an ended member has left, a line that it didn't end among it."""
        while not child.output.closed:
            before = self.lines
            self.read_lines(child)
            if self.lines == before:
                break
        rest = self.splitter.end()
        if rest:
            self.writer.put(rest)

    def hear(self, text: bytes) -> None:
        now, line = self.clock(), parse(text)
        self.lines += 1
        if isinstance(line, Reply) and line.client == PROBE:
            return
        self.demand.hear(now, line)
        if line.kind == "start":
            self.opened = True
        elif line.kind == "applied":
            self.tally.hear(now, line)
        elif line.kind == "get_block" and self.look_at is not None:
            self.look_at = min(self.look_at, now + SOON)
        if self.thinner.keeps(now, text, line):
            self.writer.put(text)
        contradiction = self.heard.hear(text, line)
        if contradiction is not None:
            self.tell_corrupt(contradiction)
        reason = self.policy.hear(now, line)
        self.counts.hear(line, self.policy.seen.view)
        if reason is not None and self.wanted is None and not self.leaving:
            self.restarts += 1
            self.restart(reason)

    def tell_corrupt(self, why: str) -> None:
        """Says once that the member's state isn't what it was. Nothing here can mend that."""
        if not self.is_corrupt:
            self.say(f"member {self.words.replica} is corrupt: {why}: what a client was told was forgotten, as where a file was put back from a copy, or a disk lied")
        self.is_corrupt = True

    def read_errors(self, child: Child) -> None:
        piece = self.read(child.errors)
        for text in (piece or b"").split(b"\n"):
            if text:
                self.say(f"member {self.words.replica} says: {text.decode('ascii', 'replace')}")

    # The data file.

    def look(self) -> None:
        """Has the file looked at, unless that is under way: what it finds then is taken for as old as its beginning."""
        if self.look_began == self.looked:
            self.look_began = self.clock()
            self.looker.ask(self.child.process.pid if self.child is not None else 0)

    def look_again(self) -> None:
        """Somebody asks what the file holds: it is looked at again where the last look is old."""
        if self.looked is not None and self.clock() - self.looked > FRESH:
            self.look()

    def hear_look(self) -> None:
        """The data file was looked at: what of it is damaged, and what of it a further start couldn't tell of."""
        found, self.looked = self.looker.take(), self.look_began
        self.had_open = self.had_open or found.is_open is True
        is_other = self.had_open and found.is_open is False
        self.report = None if is_other else found.report
        if self.note is None and not is_other:
            self.note, self.note_at = found.note, self.clock() + NOTED
        self.tell_no_file("is another one than its member has open" if is_other else "can't be read as a member's")
        self.tally.begin(self.report)
        if self.child is None or self.look_at is not None:
            return
        unsure, value = health.unsure(self.report), self.report.value if self.report is not None else None
        self.look_at = self.clock() + (SOON if unsure or not health.has_state(self.policy, self.life()) else MINUTE)
        if unsure and value is not None and not self.renewed and self.opened and self.renewal is None and self.pauses.renew > 0:
            self.renew(unsure, value.version)

    def keep_note(self) -> None:
        last = self.heard.last
        if self.note is not None:
            self.lock.keep(self.note, noting.Said(self.words.replica, self.words.cluster, last, self.heard.names[last]) if last in self.heard.names else None)
        self.note = None

    def tell_no_file(self, why: str) -> None:
        """Says it once where nothing at the path can be read as the member's file any more, or can again."""
        before, self.no_file = self.no_file, self.report is None or self.report.value is None
        if self.no_file and not before and self.child is not None:
            self.say(f"the file {self.words.file} {why}: what its member has is lost once it ends, so don't stop it; look whether the file was removed, moved or replaced")
        elif before and not self.no_file:
            self.say(f"the file {self.words.file} can be read again")

    def renew(self, unsure: int, version: int) -> None:
        """Has the group write all slots anew, unless another session would end one that may be at work."""
        held, most = self.tally.sessions, self.tally.most
        if held is None or held >= most - 1:
            if not self.waiting and held is not None:
                self.say(f"the file can't tell of {unsure} of its slots; further operations of the group write them anew, and none are asked: {held} of {most} sessions are in use")
            self.waiting = held is not None
            return
        self.renewed = True
        self.say(f"the file can't tell of {unsure} of its slots: the group is asked {GETS} gets, {self.pauses.renew:g} s apart, which have all slots written anew")
        asking = Asking(self.words.program, self.words.cluster, self.words.addresses)
        self.renewal = Renewal(asking, version, self.pauses.renew, self.clock(), self.hear_client, self.forget_client)

    def hear_client(self, output: IO[bytes]) -> None:
        self.selector.register(output, selectors.EVENT_READ, self.read_client)

    def forget_client(self, output: IO[bytes]) -> None:
        self.selector.unregister(output)

    def read_client(self) -> None:
        if self.renewal is None:
            return
        self.renewal.read(self.clock())
        if self.renewal.is_done:
            self.renewal = None
            self.look_at = self.clock() + FIRST_LOOK
            self.say(f"{GETS} gets were answered: all slots are written anew")

    def end_renewal(self) -> None:
        if self.renewal is not None:
            self.renewal.end()
            self.renewal = None

    # Who asks.

    def reply(self, asked: bytes) -> Optional[bytes]:
        """The answer to a question on its socket: to `health` the line of health, to `restart` `restarting` or `down`."""
        question = doors.line_asked(asked)
        if question is None:
            return None
        answer = self.answer(question)
        self.look_again()
        return (answer + "\n").encode()

    def tell_health(self, asked: bytes) -> Optional[bytes]:
        """The line of health, to whoever comes to its port, whatever was sent."""
        answer = self.health()
        self.look_again()
        return (answer + "\n").encode()

    def metrics(self) -> bytes:
        """What Prometheus reads."""
        return metrics.text(metrics.Told(self.words.cluster, self.policy, self.life(), self.counts, self.codes, self.thinner.left_out, self.program, self.clock()))

    def tell_metrics(self, asked: bytes) -> Optional[bytes]:
        """To GET /metrics, the metrics."""
        question = doors.http_asked(asked)
        if question is None:
            return None
        method, path = question
        if method not in ("GET", "HEAD"):
            return doors.http_answer("405 Method Not Allowed" if method else "400 Bad Request", b"GET /metrics\n")
        if path != "/metrics":
            return doors.http_answer("404 Not Found", b"GET /metrics\n")
        return doors.http_answer("200 OK", self.metrics(), metrics.KIND, is_head=method == "HEAD")

    def post_metrics(self, path: str) -> None:
        """Has them written to a file from now on."""
        self.poster, self.post_at = metrics.Poster(path), self.clock()

    def answer(self, question: str) -> str:
        if question == "health":
            return self.health()
        if question != "restart":
            return "no question: health, restart"
        if self.child is None:
            return "down"
        self.restart("it was asked to")
        return "restarting"
