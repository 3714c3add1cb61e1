"""Replays the schedule of an example and prints each of its lines with what it gives, two spaces in, under it.

  run [--whole] [FILE]     without a file, the schedule comes from standard input

FILE may also be the name of one of the examples, as put-get. In it indented lines (old outputs), empty lines and lines that begin with # are left out;
with --whole those of the last two kinds are printed where they stand, so that what is printed is the example as a file. Where no program is built that
is newer than the sources, it says so, and compiles one first (`nozhgiva build`). At a line that is refused it stops, and says why on standard error.
Ends with 0, with 2 where the words are wrong or something is missing, with 3 where a line is refused, and else as the program or the build ends."""

import os
import subprocess
import sys
from typing import List, NoReturn

from nozhgiva_tools.operate import standard
from nozhgiva_tools.places import EXAMPLES, NOZHGIVA, TOP
from nozhgiva_tools.run import program, replays

from . import schedule

REFUSED, UNWRITTEN = 3, 6


class Wrong(Exception):
    """The words are wrong, or something is missing; the text says what."""


def file_of(word: str) -> str:
    """The file that a word names: itself, or one of the examples."""
    if os.path.isdir(word):
        raise Wrong(f"{word} is a folder")
    name = word[len("examples/"):] if word.startswith("examples/") else word
    for path in (word, str(EXAMPLES / name), str(EXAMPLES / f"{name}.txt")):
        if os.path.exists(path) and not os.path.isdir(path):
            return path
    raise Wrong(f"no file {word}, and no example of that name: examples/README.md has them all")


def read_lines(words: List[str]) -> List[str]:
    """The lines of what is to be played. A byte is a letter."""
    try:
        if words:
            with open(file_of(words[0]), "rb") as file:
                data = file.read()
        else:
            data = sys.stdin.buffer.read()
    except OSError as error:
        raise Wrong(f"{words[0] if words else 'standard input'}: {error.strerror}") from None
    lines = data.decode("latin-1").split("\n")
    return lines[:-1] if not lines[-1] else lines


def find_program() -> str:
    """The program, compiled first where there is none; what that says goes to standard error."""
    try:
        return program.find().path
    except program.Missing as why:
        if os.environ.get("NOZHGIVA_PROGRAM") or os.environ.get("PROGRAM") or not (TOP / "crates").is_dir():
            raise Wrong(str(why)) from None
    print("run: no program is built that is newer than the sources: it is compiled first, without proofs, in some two minutes", file=sys.stderr)
    status = subprocess.run([str(NOZHGIVA), "build"], stdout=sys.stderr, check=False).returncode
    if status:
        sys.exit(status)
    return program.find().path


def put(before: str, lines: List[str]) -> None:
    """Prints lines, each with what stands before it."""
    try:
        sys.stdout.write("".join(f"{before}{line}\n" for line in lines))
    except OSError:
        unwritten()


def unwritten() -> NoReturn:
    standard.forget_output()
    print("run: standard output can't be written", file=sys.stderr)
    sys.exit(UNWRITTEN)


def flush() -> None:
    try:
        sys.stdout.flush()
    except OSError:
        unwritten()


def explain(status: int, said: str, played: List[str], number: int) -> int:
    """Says why the program ended at a line otherwise than well, and gives the code for it; a line has its number in the file."""
    flush()
    if status == REFUSED:
        found = schedule.first_refused("".join(f"{line}\n" for line in played).encode("latin-1").split(b"\n"))
        said = f"line {number or found[0]} is refused: {found[1]} (docs/SCHEDULE.md, Why a line is refused)" if found else said
    if said:
        print(said, file=sys.stderr)
    return status if status >= 0 else 128 - status


def play(path: str, lines: List[str], is_whole: bool) -> int:
    replay = replays.Replay(path)
    played: List[str] = []
    try:
        for number, line in enumerate(lines, 1):
            if not line or line.startswith("#"):
                put("", [line] * is_whole)
            elif not line.startswith(" "):
                put("", [line])
                played.append(line)
                put("  ", replay.play(line))
        flush()
    except replays.Ended as ended:
        put("  ", ended.outputs)
        return explain(ended.status, ended.said, played, number)
    finally:
        status, said = replay.end()
    return 0 if status == 0 else explain(status, said, played, len(lines))


def parse_words() -> List[str]:
    """--whole, if it is there, and the file, if one is named."""
    words = sys.argv[1:]
    rest = words[1:] if words[:1] == ["--whole"] else words
    if len(rest) > 1 or (rest and rest[0].startswith("-")):
        raise Wrong("its words are [--whole] [FILE]")
    return words


def main() -> int:
    if sys.argv[1:] in (["-h"], ["--help"]):
        print(__doc__)
        return 0
    try:
        words = parse_words()
        is_whole = words[:1] == ["--whole"]
        lines = read_lines(words[is_whole:])
        return play(find_program(), lines, is_whole)
    except Wrong as why:
        print(f"run: {why}", file=sys.stderr)
        return 2


def run() -> None:
    standard.end(main)


if __name__ == "__main__":
    run()
