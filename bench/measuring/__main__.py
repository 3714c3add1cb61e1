"""Measures the program, and prints the table of docs/FIGURES.md that a figure has.

  bench/figures NAME [WORD..]     measures one; `bench/figures NAME --help` tells its words
  bench/figures --list            all, each with the time that it takes where nothing else runs, and the tools that it needs

The built program is measured, as ./nozhgiva program finds it. The table comes on standard output, with notes after it; what is measured now is told on
standard error. Instructions hardly depend on the machine. Times do: measure them where nothing else runs, else at real-time priority, as `chrt -f 10
bench/figures node`. With --write the table goes into docs/FIGURES.md, where that has a place for it.

It ends with 0; with 1 where what was measured isn't as it has to be, which the figure's line tells; with 2 where the words are wrong, a tool is missing,
or nothing could be measured. Ctrl-C ends all that was started."""

import argparse
import os
import signal
import sys
from typing import Dict, List, NoReturn

from . import crates, Figure, groups, PAGE, places, Refused, replays, tables

FIGURES: Dict[str, Figure] = {one.name: one for one in (*groups.FIGURES, *replays.FIGURES, *crates.FIGURES)}


def make_parser() -> argparse.ArgumentParser:
    form = argparse.ArgumentParser(
        prog="bench/figures", description=__doc__, formatter_class=argparse.RawDescriptionHelpFormatter,
        usage="%(prog)s NAME [--write] [--short] [WORD..]\n       %(prog)s --list")
    form.add_argument("--list", action="store_true", help="tells the figures, and measures nothing")
    names = form.add_subparsers(dest="name", metavar="NAME", help="a figure of --list")
    for one in FIGURES.values():
        part = names.add_parser(one.name, prog=f"bench/figures {one.name}", description=f"{one.what[0].upper()}{one.what[1:]}. {times_of(one)}.")
        if one.blocks:
            part.add_argument("--write", action="store_true", help="puts the table into docs/FIGURES.md")
        if one.has_short:
            part.add_argument("--short", action="store_true", help="small counts, to see whether it can be measured; their figures are for no page")
        one.add_words(part)
    return form


def times_of(one: Figure) -> str:
    """How long a figure takes, and what it needs."""
    time = f"some {one.seconds} s" if one.seconds < 120 else f"some {one.seconds // 60} minutes"
    return f"It takes {time}, and needs {', '.join(map(os.path.basename, one.needs)) or 'no tools'}"


def parse_words() -> argparse.Namespace:
    form = make_parser()
    words = form.parse_args()
    if words.list == bool(words.name):
        form.error("give the name of a figure, or --list alone")
    if getattr(words, "write", False) and getattr(words, "short", False):
        form.error("--short goes with no --write: its figures are for no page")
    return words


def listed() -> List[str]:
    return [f"{one.name:12}{one.what}. {times_of(one)}{'; docs/FIGURES.md has its table' if one.blocks else ''}" for one in FIGURES.values()]


def block_of(words: argparse.Namespace) -> str:
    """The place of the page that has the figure, measured so."""
    return f"{words.name} --tcp" if getattr(words, "tcp", False) else str(words.name)


def measure(words: argparse.Namespace) -> int:
    """Measures a figure, and tells or writes what came of it; its status."""
    figure = FIGURES[words.name]
    for tool, package in places.missing(figure.needs).items():
        raise Refused(f"{figure.name} needs {os.path.basename(tool)}, which isn't there (of Debian's packages: {package})")
    is_written = getattr(words, "write", False)
    if is_written:
        tables.page_with(block_of(words), [])
    outcome = figure.measure(words)
    if is_written and outcome.holds:
        tables.write(block_of(words), outcome.lines)
    elif is_written:
        print(f"bench/figures: {PAGE.name} stays as it is", file=sys.stderr)
    for line in (*outcome.lines, *outcome.notes):
        print(line)
    if not outcome.holds:
        print(f"bench/figures: it isn't as it has to be: {figure.name} ends with {figure.what.rpartition('; ')[2]}", file=sys.stderr)
    return 0 if outcome.holds else 1


def end_by_signal(number: int, _: object) -> NoReturn:
    raise SystemExit(128 + number)


def main() -> int:
    words = parse_words()
    if words.list:
        print("\n".join(listed()), flush=True)
        return 0
    for number in (signal.SIGTERM, signal.SIGHUP):
        signal.signal(number, end_by_signal)
    status = measure(words)
    sys.stdout.flush()
    return status


if __name__ == "__main__":
    try:
        sys.exit(main())
    except Refused as refused:
        print(f"bench/figures: {refused}", file=sys.stderr)
        sys.exit(2)
    except KeyboardInterrupt:
        sys.exit(130)
    except BrokenPipeError:
        os.dup2(os.open(os.devnull, os.O_WRONLY), sys.stdout.fileno())
        sys.exit(141)
