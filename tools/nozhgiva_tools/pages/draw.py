"""Draws what a schedule comes to, as an SVG.
  ./nozhgiva draw FILE [> PICTURE.svg]

FILE is an example or a plain schedule. Time goes down, each replica is a line; a message is an arrow from where it is sent to each
of its deliveries; what a replica sends, commits, replies, chooses or waits for, its views, stops, starts and faults stand beside its
line. An example is drawn as it stands where it has its outputs under its lines; else the program is asked (the one that
./nozhgiva program finds; where there is none, ./nozhgiva run). It ends with 2 where its words are wrong, with 3 where the file can't be drawn."""

import argparse
import os
import sys

from nozhgiva_tools.told.memberlines import BadRun

from .explorer.members import is_outputs
from .explorer.picture import MOST_STEPS, Picture
from .explorer.reading import read_run, ShownRun


def read(path: str) -> ShownRun:
    """The run of a file; BadRun where it can't be drawn."""
    if is_outputs(path):
        raise BadRun(f"{path} has outputs without their schedule: ./nozhgiva explore shows such a run")
    run = read_run(path)
    if len(run["steps"]) > MOST_STEPS:
        raise BadRun(f"{path} has {len(run['steps']):,} lines, and no picture has more than {MOST_STEPS:,}: ./nozhgiva explore shows them")
    return run


def make_parser() -> argparse.ArgumentParser:
    parser = argparse.ArgumentParser(prog="draw", description=__doc__, formatter_class=argparse.RawDescriptionHelpFormatter)
    parser.add_argument("file", metavar="FILE", help="an example, or a plain schedule")
    return parser


def main() -> int:
    words = make_parser().parse_args()
    try:
        sys.stdout.write(Picture(read(words.file)).svg())
        sys.stdout.flush()
    except BadRun as error:
        print(f"draw: {error}", file=sys.stderr)
        return 3
    except UnicodeDecodeError:
        print("draw: the file isn't ASCII text", file=sys.stderr)
        return 3
    except BrokenPipeError:
        os.dup2(os.open(os.devnull, os.O_WRONLY), sys.stdout.fileno())
        return 0
    except OSError as error:
        print(f"draw: {error.filename}: {error.strerror}", file=sys.stderr)
        return 3
    return 0


def run() -> None:
    """Runs it to its end."""
    sys.exit(main())


if __name__ == "__main__":
    run()
