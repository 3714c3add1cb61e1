"""Looks whether the pages are of this repository, and tells each place where one isn't.

  ./nozhgiva pages             ends with status 1 where there is any
  ./nozhgiva pages --write     first writes the counted numbers into the pages: crates, laws, how many crates stand above each (`./nozhgiva addresses --above`),
                          mutation tests in the gate and by hand, the longest chain, files that a message and a rule touch, the minutes of docs/README.md;
                          and the rows and sentences of crates.txt into docs/ARCHITECTURE.md

Told are: links that lead nowhere; pages that stand on no road of docs/README.md, or on two; what is wrong with crates.txt (as `./nozhgiva map --check`);
crates that a page names and it doesn't; crates, laws, commands and mutation tests of the abstract machine that aren't named where they should be; cells
of a promise and sentences that are too long; words that are spelled in two ways; rows of a table that stand twice, or outside of it; numbers that aren't
what is counted, blocks that aren't what crates.txt says, and more mutation tests than the gate may have. Other words than these end it with status 2."""

import argparse
import os
import sys
from typing import Dict

from nozhgiva_tools.places import TOP

from . import mapping
from .paging import checks, counting, Pages, read_pages, read_tree


def write(pages: Pages, numbers: counting.Numbers, blocks: Dict[str, str]) -> Pages:
    """Writes what is counted, and what is made of crates.txt, into the pages, and gives the pages as they are then."""
    changed = {path: counting.with_blocks(counting.put_right(text, numbers), blocks) for path, text in pages.items()}
    if checks.INDEX in changed:
        changed[checks.INDEX] = counting.with_minutes(changed, checks.INDEX)
    for path, text in changed.items():
        if text != pages[path]:
            (TOP / path).write_text(text, encoding="utf-8")
            print(f"written: {path}")
    return changed


def make_parser() -> argparse.ArgumentParser:
    parser = argparse.ArgumentParser(prog="pages", description=__doc__, formatter_class=argparse.RawDescriptionHelpFormatter)
    parser.add_argument("--write", action="store_true", help="write what is counted, and what is made of crates.txt, into the pages")
    return parser


def main() -> int:
    words = make_parser().parse_args()
    pages, tree = read_pages(), read_tree()
    missing = sorted({*checks.FIRST_PAGES, checks.MAP, checks.COMMANDS, checks.PROGRAM, checks.LADDER, checks.GUARDS} - set(pages))
    if missing:
        print("no page %s" % ", ".join(missing))
        return 1
    numbers, blocks = counting.count(tree), counting.blocks()
    if words.write:
        pages = write(pages, numbers, blocks)
    faults = [*mapping.faults(mapping.read(), mapping.folders()), *checks.faults(pages, tree)]
    faults += [*counting.bad_numbers(pages, numbers), *counting.bad_blocks(pages, blocks), *counting.bad_gate(numbers)]
    faults += counting.bad_minutes(pages, checks.INDEX)
    print("\n".join(faults) or f"{len(pages)} pages, nothing to mend")
    return 1 if faults else 0


def run() -> None:
    """Runs it to its end."""
    try:
        sys.exit(main())
    except KeyboardInterrupt:
        sys.exit(130)
    except BrokenPipeError:
        os.dup2(os.open(os.devnull, os.O_WRONLY), sys.stdout.fileno())
        sys.exit(141)


if __name__ == "__main__":
    run()
