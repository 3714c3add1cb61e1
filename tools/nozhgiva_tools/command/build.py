"""Compiles the program without proving anything, optimised, as out/vr_app at the top of the repository.

  ./nozhgiva build [--module FILE]     with --module what the compiler was given, LLVM bitcode, is left as FILE too, beside out/nozhgiva.bc

It says on standard error what it does, at least each ten seconds. What is built has checks that the proved program lacks, where they can't fail: it
ends by SIGILL at an index out of bounds, an overflow, a division by zero, a shift too far, a failed unwrap, unreachable! or prove!, and at a value that
its type doesn't have. Nothing checks the contracts: `rt ci` proves them.
Ends with 0, with 1 where the sources are refused, and with 2 where the words are wrong or the toolchain is missing."""

import argparse
import os
import shutil
import signal
import subprocess
import sys
import tempfile
import time
from pathlib import Path
from typing import IO, NoReturn

from nozhgiva_tools.places import TOP

from . import kit, phases, sources

CRATE = TOP / "crates" / "vr_app"
PROGRAM = TOP / "out" / "vr_app"
MODULE = TOP / "out" / "nozhgiva.bc"


class Failed(Exception):
    """A phase didn't do what it should; the text says which, and what was said."""


def say(text: str) -> None:
    print(f"build: {text}", file=sys.stderr, flush=True)


def end_by_signal(number: int, _: object) -> NoReturn:
    sys.exit(128 + number)


def translate(toolchain: Path, work: Path, said: IO[bytes]) -> Path:
    """Has the toolchain translate the sources, and gives the folder with the module and the compiler's words."""
    caught = work / "caught"
    rt = kit.stand_in(toolchain, work / "kit", caught)
    words = [sys.executable, str(rt), "try", "--steps", "1", "--", "replay"]
    phases.run(say, "reading and translating the sources", words, said, str(CRATE), {**os.environ, "TMPDIR": str(work)})
    if not (caught / "module.bc").exists():
        raise Failed(f"the sources aren't translated:\n{phases.last_lines(said)}")
    return caught


def try_it(program: Path) -> None:
    """Plays the schedule that the repository has beside the program's sources."""
    words = (CRATE / "args").read_text(encoding="ascii").split()
    with open(CRATE / "stdin", "rb") as given:
        ran = subprocess.run([str(program), *words], stdin=given, stdout=subprocess.PIPE, stderr=subprocess.DEVNULL, timeout=120, check=False)
    if ran.returncode != int((CRATE / "status").read_text(encoding="ascii")) or ran.stdout != (CRATE / "stdout").read_bytes():
        raise Failed("what was built doesn't write crates/vr_app/stdout for crates/vr_app/stdin")


def build(toolchain: Path, work: Path, module: str) -> None:
    begun, made_of = time.time(), sources.digest(TOP)
    with open(work / "said", "w+b") as said:
        caught = translate(toolchain, work, said)
        is_sure = sources.digest(TOP) == made_of
        made, program = work / "vr_app.o", work / "vr_app"
        for name, words in (("compiling, optimised", kit.compile_words(toolchain, caught, made)), ("linking", kit.link_words(toolchain, made, program))):
            said.truncate(0)
            if phases.run(say, name, words, said, str(caught)) != 0:
                raise Failed(f"{name} failed:\n{phases.last_lines(said)}")
    try_it(program)
    # As old as the sources that were read: an edit made meanwhile is newer.
    os.utime(program, (begun, begun))
    PROGRAM.parent.mkdir(exist_ok=True)
    put_in_place(program, PROGRAM)
    note = sources.note_of(MODULE)
    note.unlink(missing_ok=True)
    for place in (MODULE, *[Path(module)] * bool(module)):
        put_in_place(caught / "module.bc", place)
    if is_sure:  # an edit that was made meanwhile may be in the module or not
        note.write_text(f"{made_of}\n", encoding="ascii")


def put_in_place(source: Path, target: Path) -> None:
    """Copies a file so that the old one or the new one stands there, whole, at each moment."""
    beside = target.with_name(f".{target.name}.{os.getpid()}")
    try:
        shutil.copy2(source, beside)
        os.replace(beside, target)
    finally:
        beside.unlink(missing_ok=True)


def make_parser() -> argparse.ArgumentParser:
    parser = argparse.ArgumentParser(prog="build", description=__doc__, formatter_class=argparse.RawDescriptionHelpFormatter)
    parser.add_argument("--module", metavar="FILE", default="", help="leave the module there too")
    return parser


def main() -> int:
    words = make_parser().parse_args()
    for number in (signal.SIGTERM, signal.SIGHUP):
        signal.signal(number, end_by_signal)
    if not CRATE.is_dir():
        say(f"there are no sources in {TOP}: only a clone of the repository can be built")
        return 2
    begun = time.monotonic()
    try:
        toolchain = kit.folder()
        say("some two minutes of one processor, without proofs")
        with tempfile.TemporaryDirectory(prefix="nozhgiva-build-") as work:
            build(toolchain, Path(work), os.path.abspath(words.module) if words.module else "")
    except kit.NoKit as error:
        say(str(error))
        return 2
    except (Failed, OSError, subprocess.TimeoutExpired) as error:
        say(str(error))
        return 1
    except KeyboardInterrupt:
        return 130
    say(f"out/vr_app is there after {time.monotonic() - begun:.0f} s: compiled, not proved: `rt ci` proves it")
    return 0


def run() -> None:
    """Runs it to its end."""
    sys.exit(main())


if __name__ == "__main__":
    run()
