"""A folder for one measurement, and the processes that it starts. Both are gone at its end, also where that comes by Ctrl-C."""

import os
import resource
import shutil
import signal
import subprocess
import tempfile
import time
from pathlib import Path
from typing import Dict, IO, List, Mapping, NamedTuple, Optional, Sequence, Union

from nozhgiva_tools.places import TOP
from nozhgiva_tools.run import program as find

from . import reading, Refused

Word = Union[str, Path]
LAST_WORD = 5.0  # seconds from TERM to KILL
TIME = "/usr/bin/time"


class Ran(NamedTuple):
    """What a command wrote to standard output and standard error."""

    out: str
    err: str


class Used(NamedTuple):
    """What a run took: microseconds on the clock, kilobytes at most, and seconds of a processor, the program's and the system's."""

    micros: int
    kilobytes: int
    user: float
    system: float


class Place:
    """A new folder, in one that is given or where temporary files are, and what was started."""

    def __init__(self, parent: Optional[str] = None) -> None:
        try:
            self.folder = Path(os.path.realpath(tempfile.mkdtemp(prefix="figures-", dir=parent)))
        except OSError as error:
            raise Refused(f"no folder can be made in {parent or tempfile.gettempdir()}: {error.strerror}") from error
        self.children: List["subprocess.Popen[bytes]"] = []

    def __enter__(self) -> "Place":
        return self

    def __exit__(self, *_: object) -> None:
        self.end(self.children)
        shutil.rmtree(self.folder, ignore_errors=True)

    def __truediv__(self, name: str) -> Path:
        return self.folder / name

    def start(self, words: Sequence[Word], given: Union[int, IO[bytes]] = subprocess.DEVNULL, out: Union[int, IO[bytes]] = subprocess.DEVNULL,
              err: Union[int, IO[bytes]] = subprocess.DEVNULL, env: Optional[Mapping[str, str]] = None, folder: Optional[Path] = None) -> "subprocess.Popen[bytes]":
        """Starts a command in a session of its own, which ends with this place."""
        try:
            child = subprocess.Popen(
                [str(word) for word in words], stdin=given, stdout=out, stderr=err, env={**os.environ, **(env or {})}, cwd=folder, start_new_session=True)
        except OSError as error:
            raise Refused(f"{words[0]} doesn't start: {error.strerror}") from error
        self.children.append(child)
        return child

    def end(self, children: Sequence["subprocess.Popen[bytes]"], most: float = LAST_WORD) -> None:
        """Ends these with all that they started: by TERM, and who doesn't heed that in so many seconds by KILL."""
        for child in children:
            send(child, signal.SIGTERM)
        for child in list(children):
            try:
                child.wait(most)
            except subprocess.TimeoutExpired:
                send(child, signal.SIGKILL)
                child.wait()
            self.forget(child)

    def forget(self, child: "subprocess.Popen[bytes]") -> None:
        """One that has ended."""
        for stream in (child.stdin, child.stdout, child.stderr):
            if stream is not None:
                stream.close()
        self.children.remove(child)

    def run(self, words: Sequence[Word], given: Union[None, str, Path] = None, out: Optional[Path] = None, env: Optional[Mapping[str, str]] = None,
            folder: Optional[Path] = None, most: Optional[float] = None) -> Ran:
        """Runs a command to its end, on a text or a file. What it writes goes to the file that is named, or is answered. It is refused where it doesn't end with 0."""
        out_path, err_path = out or self / "out", self / "err"
        with open(self.text(given), "rb") as stdin, open(out_path, "wb") as stdout, open(err_path, "wb") as stderr:
            child = self.start(words, stdin, stdout, stderr, env, folder)
            try:
                status = child.wait(most)
            except subprocess.TimeoutExpired as error:
                raise Refused(f"{command(words)} doesn't end in {most:.0f} s") from error
            self.forget(child)
        said = err_path.read_text(encoding="utf-8", errors="replace")
        if status:
            raise Refused(f"{command(words)} ends with status {status}: {(said.strip().splitlines() or ['it says nothing'])[-1]}")
        return Ran("" if out else out_path.read_text(encoding="utf-8", errors="replace"), said)

    def text(self, given: Union[None, str, Path]) -> Path:
        """A file with this text; that which is one already."""
        if given is None:
            return Path(os.devnull)
        if isinstance(given, Path):
            return given
        path = self / "given"
        path.write_text(given, encoding="ascii")
        return path

    def compile(self, name: str, *more: str) -> Path:
        """A program of bench/node, compiled; `more` are further words for the compiler."""
        made = self / name.partition(".")[0]
        self.run(["cc", "-O2", "-o", made, TOP / "bench" / "node" / name, *more])
        return made

    def timed(self, words: Sequence[Word], given: Union[None, str, Path], out: Path) -> Used:
        """Runs a command to its end, and gives what that took. A small program starts it, since what Python had counts as its memory else."""
        before = time.monotonic_ns()
        self.run([TIME, "-f", "%M %U %S", "-o", self / "usage", *words], given, out)
        micros = (time.monotonic_ns() - before) // 1000
        kilobytes, user, system = (self / "usage").read_text(encoding="ascii").split()
        return Used(micros, int(kilobytes), float(user), float(system))

    def processor(self, words: Sequence[Word], given: Union[None, str, Path], out: Path) -> float:
        """The milliseconds of a processor that a command takes to its end, the system's among them."""
        before = resource.getrusage(resource.RUSAGE_CHILDREN)
        self.run(words, given, out)
        after = resource.getrusage(resource.RUSAGE_CHILDREN)
        return 1000 * (after.ru_utime + after.ru_stime - before.ru_utime - before.ru_stime)

    def instructions(self, words: Sequence[Word], given: Union[None, str, Path] = None) -> int:
        """The instructions of a whole run, under valgrind."""
        words = ["valgrind", "--tool=callgrind", "--callgrind-out-file=/dev/null", *words]
        return reading.collected(self.run(words, given, Path(os.devnull)).err)

    def profile(self, words: Sequence[Word], given: Union[None, str, Path] = None, more: Sequence[str] = ()) -> Path:
        """What callgrind wrote of a whole run."""
        made = self / "profile"
        made.unlink(missing_ok=True)
        self.run(["valgrind", "--tool=callgrind", "--compress-strings=no", f"--callgrind-out-file={made}", *more, *words], given, Path(os.devnull))
        return made

    def annotated(self, profile: Path, *more: str) -> List[str]:
        """The lines in which callgrind_annotate tells a profile."""
        return self.run(["callgrind_annotate", *more, profile]).out.splitlines()


def send(child: "subprocess.Popen[bytes]", number: int) -> None:
    """Sends a signal to a child and all that it started; nothing where they are gone."""
    try:
        os.killpg(child.pid, number)
    except ProcessLookupError:
        pass


def command(words: Sequence[Word]) -> str:
    """A command as it is told: the name of its program without the folders, and its words."""
    return " ".join([Path(words[0]).name, *map(str, words[1:])])


def program() -> str:
    """The built program, as ./nozhgiva program finds it. Without one that has said why, and what to do."""
    return find.or_end()


def missing(needs: Sequence[str]) -> Dict[str, str]:
    """The tools that aren't there, each with Debian's package that has it."""
    packages = {"callgrind_annotate": "valgrind", TIME: "time", "cc": "gcc", "rustc": "rustc", "rt": "a Rattle kit, which isn't Debian's"}
    return {tool: packages.get(tool, tool) for tool in needs if shutil.which(tool) is None}
