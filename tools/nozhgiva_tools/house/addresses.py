"""Looks whether each citation names the crate and module where the definition or lemma stands, and each library of crates.txt is named.

  ./nozhgiva addresses             tells each place where one doesn't, and the longest chain of crates; ends with status 1 where there is any
  ./nozhgiva addresses --above     how many crates stand above each crate, row by row: so many are proved again where it changes

Citations are the imports of .rt and .antt files and the paths of `using(..)` and `unfolding(..)`. A module passes nothing on: whoever needs a name
imports it from its own module, and has that crate on its line of crates.txt. An entry there is idle where no file of the line's crate names it outside
comments. Other words than these end it with status 2."""

import argparse
import functools
import signal
import sys
from typing import Iterator, List, Mapping, Set

from nozhgiva_tools.places import TOP

from .addressing import checks, cited, Tree
from .mapping import read_map

Libraries = Mapping[str, List[str]]


def above(tree: Tree) -> Iterator[str]:
    """A line for each row of crates.txt: its crates, each with the number of those that stand on it, through others too."""
    @functools.lru_cache(maxsize=None)
    def below(crate: str) -> Set[str]:
        own = {library for library in tree.libraries[crate] if library in tree.libraries}
        return own.union(*map(below, own))

    for row in read_map((tree.top / "crates.txt").read_text(encoding="utf-8")):
        counts = ((crate.name, sum(crate.name in below(other) for other in tree.libraries)) for crate in row.crates)
        yield f"- *{row.name}*: " + ", ".join(f"`{crate}` {count}" for crate, count in counts)


def chain(libraries: Libraries, top: str) -> List[str]:
    """The longest chain of crates that begins at a crate."""
    @functools.lru_cache(maxsize=None)
    def longest(crate: str) -> List[str]:
        return [crate] + max((longest(library) for library in libraries[crate] if library in libraries), key=len, default=[])

    return longest(top)


def look(tree: Tree) -> int:
    faults = list(checks.faults(tree))
    for fault in faults:
        print(fault)
    count = sum(citation.module[0] in tree.libraries for crate in tree.libraries for path in tree.sources(crate) for citation in cited(crate, path))
    print(f"{count} citations of {len(tree.libraries)} crates, " + (f"{len(faults)} to mend" if faults else "nothing to mend"))
    longest: List[str] = max((chain(tree.libraries, crate) for crate in tree.libraries), key=len, default=[])
    print(f"longest chain: {len(longest)} crates, {' '.join(longest)}")
    return 1 if faults else 0


def make_parser() -> argparse.ArgumentParser:
    parser = argparse.ArgumentParser(prog="addresses", description=__doc__, formatter_class=argparse.RawDescriptionHelpFormatter)
    parser.add_argument("--above", action="store_true", help="tell how many crates stand above each")
    return parser


def main() -> int:
    words = make_parser().parse_args()
    tree = Tree(TOP)
    if not words.above:
        return look(tree)
    for line in above(tree):
        print(line)
    return 0


def run() -> None:
    """Runs it to its end."""
    signal.signal(signal.SIGPIPE, signal.SIG_DFL)
    try:
        sys.exit(main())
    except KeyboardInterrupt:
        sys.exit(130)


if __name__ == "__main__":
    run()
