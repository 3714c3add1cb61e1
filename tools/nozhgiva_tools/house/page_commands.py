"""Runs the commands that the pages show in their blocks of code, in a copy of the clone, and tells each that fails.

  ./nozhgiva check-commands [PAGE..]   these pages alone, as docs/NODE.md
  ./nozhgiva check-commands --list     what commands there are, and which of them are run

So are those of sentences that tools/nozhgiva_tools/house/commanding/commands.txt names; the others are only spoken of. The commands of a page run in one shell,
in their order, each judged by its status, and by what the page shows of its output. Addresses become free ports of this machine, and folders such
as /tmp ones of a new folder, which is removed. Those that aren't run stand in that list with the reason. Told are also a command of another kind
that doesn't stand there, before any is run, and an entry that no page has. It takes the program that ./nozhgiva program finds.
Ends with 0 where nothing is told, else with 1; with 2 where the words are wrong, or there is no program."""

import argparse
import os
import shutil
import signal
import sys
import tempfile
from pathlib import Path
from typing import Dict, List, NoReturn

from nozhgiva_tools.command import checking
from nozhgiva_tools.places import TOP

from .commanding import finding, listing, running

PAGES = ("*.md", "docs/**/*.md", "clients/*/README.md", "*/README.md", "tests/*/README.md")


def read_pages() -> Dict[str, str]:
    paths = sorted(path for pattern in PAGES for path in TOP.glob(pattern))
    return {str(path.relative_to(TOP)): path.read_text(encoding="utf-8") for path in paths}


def end_by_signal(number: int, _: object) -> NoReturn:
    sys.exit(128 + number)


def tell(commands: List[finding.Command], listed: listing.Listing) -> None:
    for one in commands:
        way = listed.reason(one) or ("serves" if listed.serves(one) else "run")
        print(f"{one.page}:{one.line}: {way}: {one.text}")


def run_all(program: str, pages: Dict[str, str], commands: List[finding.Command], listed: listing.Listing) -> List[str]:
    faults: List[str] = []
    with tempfile.TemporaryDirectory(prefix="pages-") as folder:
        place = running.Place(Path(folder), program)
        running.copy(TOP, place)
        for name, text in pages.items():
            faults += running.Page(name, text, [one for one in commands if one.page == name], listed, place).run()
    return faults


def make_parser() -> argparse.ArgumentParser:
    parser = argparse.ArgumentParser(prog="check-commands", description=__doc__, formatter_class=argparse.RawDescriptionHelpFormatter)
    parser.add_argument("--list", action="store_true", help="what commands there are")
    parser.add_argument("pages", nargs="*", metavar="PAGE", help="these pages alone")
    return parser


def main() -> int:
    parser = make_parser()
    words = parser.parse_args()
    every = read_pages()
    unknown = set(words.pages) - set(every)
    if unknown:
        parser.error(f"no page {', '.join(sorted(unknown))}")
    if shutil.which("git") is None:
        parser.error("there is no git, which copies the clone")
    for number in (signal.SIGTERM, signal.SIGHUP):
        signal.signal(number, end_by_signal)
    found = {name: finding.find(name, text) for name, text in every.items()}
    commands = [one for some, _ in found.values() for one in some]
    listed = listing.read(listing.TABLE, frozenset(one.name for one in checking.read_table()))
    of_sentences = [finding.in_sentence(one.page, every.get(one.page, ""), one.text) for one in listed.ways[listing.ALSO]]
    commands += [one for one in of_sentences if one]
    if words.list:
        tell([one for one in commands if one.page in (words.pages or every)], listed)
        return 0
    faults = [*listed.faults, *(fault for _, some in found.values() for fault in some), *listed.idle(commands, frozenset(every))]
    if not any(listed.reason(one) is None for one in commands if one.page in (words.pages or every)):
        parser.error(f"nothing was tried: none of the commands of {', '.join(words.pages)} is run (--list)")
    neither = listed.neither(commands)
    chosen = {name: text for name, text in every.items() if name in (words.pages or every)}
    program = checking.find_program()
    if program is None:
        parser.error("there is no program: ./nozhgiva program says why")
    faults += neither or run_all(program, chosen, commands, listed)
    print(*faults, sep="\n", file=sys.stderr) if faults else None
    left = sum(listed.reason(one) is not None for one in commands)
    print(f"{len(commands)} commands of {len(every)} pages, {left} of them not run, by tools/nozhgiva_tools/house/commanding/commands.txt; {len(faults)} to mend")
    return 1 if faults else 0


def run() -> None:
    """Runs it to its end."""
    try:
        sys.exit(main())
    except KeyboardInterrupt:
        sys.exit(130)
    except BrokenPipeError:
        os.dup2(os.open(os.devnull, os.O_WRONLY), sys.stdout.fileno())
        sys.exit(141)


if __name__ == "__main__":
    run()
