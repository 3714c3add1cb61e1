"""Runs the proved program and the one that is compiled without proofs on the same, and compares what they give, byte for byte.

  ./nozhgiva test compare                       both as they are built: crates/vr_app/out/vr_app and out/vr_app, each newer than every source; a minute
  ./nozhgiva test compare PROVED COMPILED       two programs, by their paths
  ./nozhgiva test compare -- --only soaks          a part alone; may be given more than once
  ./nozhgiva test compare -- --soaks 1000          so many soaks (200)

The parts:
  examples   each schedule of examples/ and examples/standstills
  soaks      `soak SEED 1000` for each SEED from 0 on
  hostile    the schedules of tests/rows/schedules, examples that were spoiled, odd bytes, words that are no command, damaged data files
  group      lines, files and answers of three members whose clocks stand still, one of which is started again; a member that is sent each message of
             tests/rows/messages; `trial` over UDP and TCP
  stack      how much of its stack each program uses in replays, as a client and as a member: no more than it takes at its start

Exit codes, output, errors and files are compared. The clocks need a C compiler, and stacks a system that shows a process's memory: without it these are
left out with a word. Ends with 0 where all is alike, with 1 where something differs, of which the first 20 are told; with 2 where the words are wrong, or
one of the programs isn't there."""

import argparse
import os
import signal
import sys
import tempfile
from typing import Dict, Iterator, List, NamedTuple, NoReturn

from nozhgiva_tools.command.checking import NONE_TRIED
from nozhgiva_tools.run import program as find
from tests.faults.shim import compiler, Shim

from . import Case, cases, differences, members, stack

PARTS = ("examples", "soaks", "hostile", "group", "stack")
SOAKS = 200
TOLD = 20
MAKES = {"proved": "rt ci", "compiled": "./nozhgiva build"}


class Programs(NamedTuple):
    proved: str
    compiled: str


def parse_words() -> argparse.Namespace:
    form = argparse.ArgumentParser(prog="compare", description=__doc__, formatter_class=argparse.RawDescriptionHelpFormatter)
    form.add_argument("programs", nargs="*", metavar="PROGRAM", help="the proved one and the compiled one (default: as they are built)")
    form.add_argument("--only", action="append", choices=PARTS, metavar="PART", help=", ".join(PARTS))
    form.add_argument("--soaks", type=int, default=SOAKS, metavar="N", help=f"how many soaks, 1 to 100,000 (default: {SOAKS})")
    words = form.parse_args()
    if len(words.programs) not in (0, 2):
        form.error("give two programs, or none")
    if not 1 <= words.soaks <= 100_000:
        form.error("--soaks goes from 1 to 100,000")
    for path in words.programs:
        if not os.path.isfile(path) or not os.access(path, os.X_OK):
            form.error(f"no program {path}")
    return words


def built(kind: str) -> str:
    """The program of a kind that is built and newer than every source. Without one this is left out."""
    try:
        return find.built(kind).path
    except find.Missing:
        pass
    print(f"left out: no {kind} program that is newer than every source: `{MAKES[kind]}` makes it")
    print(f"{NONE_TRIED}: a proved program and a compiled one are needed")
    sys.exit(2)


class Comparison:
    """Compares two programs, and tells where they differ."""

    def __init__(self, programs: Programs, folder: str) -> None:
        self.programs, self.folder, self.differs = programs, folder, 0

    def all_of(self, part: str, count: int) -> None:
        before, tried = self.differs, 0
        for case in self.cases(part, count):
            tried += 1
            self.one(case)
        print(f"{part}: {tried} runs, {self.differs - before} of them differ", flush=True)

    def cases(self, part: str, count: int) -> Iterator[Case]:
        if part == "examples":
            return cases.examples()
        if part == "soaks":
            return cases.soaks(count)
        if part == "hostile":
            return cases.hostile(members.prepare(self.programs.proved, self.folder))
        return members.cases(self.shim())

    def shim(self) -> "Shim | None":
        """What holds the clocks of members."""
        if compiler() is not None:
            return Shim(self.folder)
        print("left out: members whose clocks stand still: no C compiler")
        return None

    def one(self, case: Case) -> None:
        given = []
        for program in self.programs:
            with tempfile.TemporaryDirectory(dir=self.folder) as folder:
                given.append(case.work(program, folder))
        self.tell(case.name, list(differences(*given)))

    def tell(self, name: str, found: List[str]) -> None:
        self.differs += bool(found)
        if self.differs <= TOLD:
            for sentence in found:
                print(f"{name}: {sentence}", flush=True)

    def stacks(self) -> None:
        """How much of its stack each program uses, at most, and what goes beyond."""
        for kind, measure in stack.MEASURED.items():
            most: Dict[str, int] = {}
            for which, program in zip(Programs._fields, self.programs):
                for name, used in measure(program):
                    most[which] = max(used, most.get(which, 0))
                    self.tell(f"stack, {name}", [f"{which} uses {used:,} bytes of {stack.TAKEN:,}"] if used > stack.TAKEN else [])
            print(f"stack, {kind}: {', '.join(f'{which} {used:,}' for which, used in most.items())} bytes at most, of {stack.TAKEN:,}", flush=True)


def compare(words: argparse.Namespace, programs: Programs) -> int:
    with tempfile.TemporaryDirectory() as folder:
        comparison = Comparison(programs, folder)
        for part in words.only or PARTS:
            try:
                if part != "stack":
                    comparison.all_of(part, words.soaks)
                elif sys.platform == "linux":
                    comparison.stacks()
                else:
                    print("left out: stacks: no /proc/PID/mem")
            except members.Stuck as stuck:
                comparison.tell(part, [str(stuck)])
    print(f"{comparison.differs} differ" if comparison.differs else "alike")
    return 1 if comparison.differs else 0


def interrupt(number: int, frame: object) -> NoReturn:
    sys.exit(128 + number)


def main() -> int:
    words = parse_words()
    programs = Programs(*(os.path.realpath(path) for path in words.programs)) if words.programs else Programs(*(built(kind) for kind in Programs._fields))
    # tools/nozhgiva_tools/run/group.py asks for a program, and each case names its own.
    os.environ["NOZHGIVA_PROGRAM"] = programs.proved
    print("".join(f"{which}: {program}\n" for which, program in zip(Programs._fields, programs)), end="", flush=True)
    return compare(words, programs)


if __name__ == "__main__":
    for ending in (signal.SIGINT, signal.SIGTERM, signal.SIGHUP):
        signal.signal(ending, interrupt)
    try:
        sys.exit(main())
    except BrokenPipeError:  # nobody reads on; by a signal it would end too where a program doesn't read what it is given
        os.dup2(os.open(os.devnull, os.O_WRONLY), 1)
        sys.exit(128 + signal.SIGPIPE)
