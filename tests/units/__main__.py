"""Runs the rows of tests/rows and the tests of tests/units. Nothing proves them; what they call is proved.

  ./nozhgiva test units                 all
  ./nozhgiva test units -- WORD..       those whose name has one of these words, as rows::disk
  ./nozhgiva test units -- --list       their names
  ./nozhgiva test units -- --format     lays their sources out, as `rt fmt` does; a run of all fails where one is laid out otherwise

They are compiled first with the crates that they call, as out/tests, where that isn't made of the sources as they are: some two minutes of one
processor. As in a program that `nozhgiva build` makes, an index out of bounds, an overflow or a failed unwrap ends a test by SIGILL. No contract is
checked: a test has to see itself that it meets the `requires` of what it calls. Rows are compared with the file `stdout` of their folder.
Ends with 0, with 1 where a test failed, or wasn't run, and with 2 where the words are wrong or the toolchain is missing."""

import argparse
import signal
import sys
from typing import NoReturn

from nozhgiva_tools.command import kit, tested
from nozhgiva_tools.places import TOP


def say(text: str) -> None:
    print(text, flush=True)


def end_by_signal(number: int, _: object) -> NoReturn:
    sys.exit(128 + number)


def make_parser() -> argparse.ArgumentParser:
    parser = argparse.ArgumentParser(prog="nozhgiva test units --", description=__doc__, formatter_class=argparse.RawDescriptionHelpFormatter)
    parser.add_argument("--list", action="store_true", help="the names of the tests")
    parser.add_argument("--format", action="store_true", help="lay the sources out")
    parser.add_argument("words", nargs="*", metavar="WORD", help="those tests alone whose name has one of these")
    return parser


def lay_out(is_written: bool) -> int:
    """How many sources are laid out otherwise than `rt fmt` does it; they are written so where that is asked for."""
    other = tested.other_layouts(TOP, str(kit.folder() / "bin" / "rt"))
    for path, text in other.items():
        say(f"{path.relative_to(TOP)}: {'laid out' if is_written else 'FAILED: not laid out as `./nozhgiva test units -- --format` does it'}")
        if is_written:
            path.write_bytes(text)
    return len(other)


def answer(words: argparse.Namespace) -> int:
    if words.format:
        lay_out(True)
        return 0
    otherwise = 0 if words.list or words.words else lay_out(False)
    if not tested.is_made(TOP):
        tested.build(TOP, say)
    if words.list:
        for test in tested.find(TOP):
            say(test.name)
        return 0
    return 1 if tested.run(TOP, words.words, say) + otherwise else 0


def main() -> int:
    words = make_parser().parse_args()
    for number in (signal.SIGTERM, signal.SIGHUP):
        signal.signal(number, end_by_signal)
    try:
        return answer(words)
    except kit.NoKit as error:
        say(str(error))
        return 2
    except tested.Failed as error:
        say(str(error))
        return 1


if __name__ == "__main__":
    try:
        sys.exit(main())
    except KeyboardInterrupt:
        sys.exit(130)
