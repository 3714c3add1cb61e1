"""Compares each example with what the program makes of its schedule, line by line.

  ./nozhgiva test examples -- [--show] [FILE..]     with --show a file that differs is printed as it would have to be

In an example a line is a schedule line; the outputs that it gives stand under it, two spaces in; a line that begins with # is a comment, and empty
lines mean nothing."""

import argparse
import difflib
import os
import subprocess
import sys
from typing import List

from nozhgiva_tools.command import run
from nozhgiva_tools.operate import standard
from nozhgiva_tools.places import EXAMPLES, words_of_module
from nozhgiva_tools.run import program


def parse_words() -> argparse.Namespace:
    parser = argparse.ArgumentParser(prog="examples", description=__doc__, formatter_class=argparse.RawDescriptionHelpFormatter)
    parser.add_argument("--show", action="store_true", help="print a file that differs as it would have to be")
    parser.add_argument("files", nargs="*", metavar="FILE", help="these alone (default: those of examples/)")
    words = parser.parse_args()
    missing = [path for path in words.files if not os.path.isfile(path)]
    if missing:
        parser.error(f"no file {missing[0]}")
    words.files = words.files or sorted(map(str, EXAMPLES.glob("*.txt")))
    return words


def is_as_made(path: str, show: bool) -> bool:
    """Whether an example is what the program makes of it; where it isn't, that is told."""
    ran = subprocess.run(words_of_module(run, "--whole", path), stdout=subprocess.PIPE, text=True, check=False)
    with open(path, encoding="ascii") as file:
        wanted = file.read()
    if ran.returncode == 0 and ran.stdout == wanted:
        print(f"{os.path.basename(path)}: {sum('a' <= line[:1] <= 'z' for line in wanted.splitlines())} lines")
        return True
    told: List[str] = [ran.stdout] if show else list(difflib.unified_diff(wanted.splitlines(True), ran.stdout.splitlines(True), path, "made"))
    sys.stdout.write("".join(told))
    print(f"{os.path.basename(path)}: FAILED: it ends with {ran.returncode}", file=sys.stderr)
    return False


def main() -> int:
    words = parse_words()
    os.environ["NOZHGIVA_PROGRAM"] = program.or_end()
    good = [is_as_made(path, words.show) for path in words.files]
    return 0 if good and all(good) else 1


if __name__ == "__main__":
    standard.end(main)
