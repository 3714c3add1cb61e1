"""Reads the data file of a member, by docs/FORMATS.md alone, and tells what it holds. It asks nobody, locks nothing and changes nothing.

  inspect FILE           what the superblock, the slots and the checkpoint hold, and what of them is damaged
  inspect FILE keys      the keys of the checkpoint with their values, a line each
  inspect FILE health    one line, for a supervisor
  inspect FILE json      what a script needs of it: group, member, version, numbers, damaged places

It may run beside the member: where it finds damage it looks again, twice, since what is being written may be seen half done. Its numbers are
those that were saved last, which is once in 32 operations and at each change of view; the member itself knows more. Of each damaged place it tells
what becomes of it while the member runs: it is mended; it is unsure, and waits for a further operation; or it is idle, and nothing stands on it.
Ends with 0: a member's file was read; with `health`, also that nothing is damaged, and with `keys`, that all keys were. 1: not so. 2: the words."""

import argparse
import json
import sys

from nozhgiva_tools.told import datafile

from . import standard


def make_parser() -> argparse.ArgumentParser:
    parser = argparse.ArgumentParser(prog="inspect", description=__doc__, formatter_class=argparse.RawDescriptionHelpFormatter)
    parser.add_argument("file", metavar="FILE", help="the member's data file")
    parser.add_argument("what", nargs="?", choices=["keys", "health", "json"], help="what is told (default: all but the keys)")
    return parser


def parse_words() -> argparse.Namespace:
    return make_parser().parse_args()


def tell_keys(report: datafile.Report) -> int:
    if report.value is None or report.checkpoint.keys is None:
        print(f"{report.path}: the keys can't be read", file=sys.stderr)
        return 1
    print("".join(f"{key} {value}\n" for key, value in report.checkpoint.pairs()), end="")
    return 0


def main() -> int:
    words = parse_words()
    try:
        report = datafile.look(words.file)
    except OSError as error:
        print(f"{words.file}: {error.strerror}", file=sys.stderr)
        return 1
    if words.what == "keys":
        return tell_keys(report)
    if words.what == "json":
        print(json.dumps(report.as_json()))
        return 0 if report.value else 1
    if words.what == "health":
        print(report.health())
        return 0 if report.damaged() == 0 else 1
    print("\n".join(report.lines()))
    return 0 if report.value else 1


def run() -> None:
    """Runs it to its end."""
    standard.end(main)


if __name__ == "__main__":
    run()
