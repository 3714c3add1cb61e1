"""Compares the contracts of this checkout's code with those of an earlier commit: what reads otherwise, by all that it cites.

  ./nozhgiva clauses COMMIT        tells each function whose clauses mean something else, and each definition that differs below any

A name counts for what it stands for, down to the kit's: a definition that was renamed or moved differs in nothing. For each function of both it tells
the clauses that are written otherwise; for those that only mean something else, the definitions below them that are written otherwise. New functions and
those that are gone are told by name. It ends with status 1 where anything is told but new functions, and with 2 where the words are wrong."""

import argparse
import signal
import subprocess
import sys
import tempfile
from pathlib import Path
from typing import Dict, Iterable, Iterator, List, NamedTuple, Set, Tuple

from nozhgiva_tools.places import TOP

from .addressing import Place, Tree
from .addressing.contracts import Contract, Meanings, Route

Both = Tuple[Meanings, Meanings]


class Compared(NamedTuple):
    """The functions of two checkouts."""

    moved: List[Tuple[Route, Route]]
    gone: List[Route]
    new: List[Route]
    changed: List[Route]  # those of both whose contracts mean something else


def take_out(commit: str, folder: Path) -> None:
    """Puts the crates of a commit into a folder."""
    packed = subprocess.run(["git", "-C", str(TOP), "archive", commit, "crates", "crates.txt"], stdout=subprocess.PIPE, check=True).stdout
    subprocess.run(["tar", "-x", "-C", str(folder)], input=packed, check=True)


def counted(contracts: Dict[Route, Contract]) -> str:
    return f"{len(contracts):,} functions with {sum(len(one.clauses) for one in contracts.values()):,} clauses"


def moves(old: Dict[Route, Contract], new: Dict[Route, Contract]) -> Iterator[Tuple[Route, Route]]:
    """Functions that stand elsewhere now, with a contract that means the same."""
    left = {(route[-1], contract.meanings): route for route, contract in new.items() if route not in old}
    for route, contract in old.items():
        if route not in new and (route[-1], contract.meanings) in left:
            yield route, left.pop((route[-1], contract.meanings))


def compare(old: Dict[Route, Contract], new: Dict[Route, Contract]) -> Compared:
    moved = list(moves(old, new))
    came, went = {there for _, there in moved}, {route for route, _ in moved}
    return Compared(
        moved,
        [route for route in old if route not in new and route not in went],
        [route for route in new if route not in old and route not in came],
        [route for route in old if route in new and old[route].meanings != new[route].meanings])


def dotted(route: Iterable[str]) -> str:
    return ".".join(route)


def differing(both: Both) -> Dict[Place, Tuple[str, str]]:
    """The declarations that are written otherwise, or that only one of them has."""
    before, now = (meanings.texts() for meanings in both)
    return {place: (before.get(place, ""), now.get(place, "")) for place in {**before, **now} if before.get(place) != now.get(place)}


def lines(sign: str, text: str) -> Iterator[str]:
    yield from (f"    {sign} {line}" for line in text.splitlines())


def own(old: Contract, new: Contract) -> Iterator[str]:
    """The clauses of one function that are written otherwise, of those that mean something else."""
    before, now = (set(one.meanings) for one in (old, new))
    went = {clause.text for clause in (old.head, *old.clauses) if clause.meaning not in now}
    came = {clause.text for clause in (new.head, *new.clauses) if clause.meaning not in before}
    yield from (f"    - {text}" for text in sorted(went - came))
    yield from (f"    + {text}" for text in sorted(came - went))


def tell(both: Both) -> Iterator[str]:
    """What differs, line by line."""
    old, new = (meanings.contracts() for meanings in both)
    compared = compare(old, new)
    yield f"before: {counted(old)}; now: {counted(new)}; moved as they are: {len(compared.moved)}"
    yield from (f"gone: {dotted(route)}" for route in compared.gone)
    yield from (f"new: {dotted(route)}" for route in compared.new)
    for route in compared.changed:
        written = list(own(old[route], new[route]))
        if written:
            yield f"clauses of {dotted(route)}:"
            yield from written
    users: Dict[Place, Set[Route]] = {}
    for route in compared.changed:
        for place in both[0].below(route) | both[1].below(route):
            users.setdefault(place, set()).add(route)
    for place, (before, now) in sorted(differing(both).items()):
        if place in users:
            yield f"definition {dotted(place[0])}.{place[1]}, of {len(users[place])} of the functions that read otherwise:"
            yield from lines("-", before)
            yield from lines("+", now)
    yield f"of both read otherwise: {len(compared.changed)}; gone: {len(compared.gone)}; new: {len(compared.new)}"


def make_parser() -> argparse.ArgumentParser:
    parser = argparse.ArgumentParser(prog="clauses", description=__doc__, formatter_class=argparse.RawDescriptionHelpFormatter)
    parser.add_argument("commit", metavar="COMMIT", help="the commit to compare with, as git names it")
    return parser


def main() -> int:
    words = make_parser().parse_args()
    with tempfile.TemporaryDirectory(prefix="nozhgiva-clauses-") as folder:
        try:
            take_out(words.commit, Path(folder))
        except subprocess.CalledProcessError:
            print(f"there is no commit {words.commit} with crates", file=sys.stderr)
            return 2
        both = (Meanings(Tree(Path(folder))), Meanings(Tree(TOP)))
        for line in tell(both):
            print(line)
        old, new = (meanings.contracts() for meanings in both)
        compared = compare(old, new)
    return 1 if compared.changed or compared.gone else 0


def run() -> None:
    """Runs it to its end."""
    signal.signal(signal.SIGPIPE, signal.SIG_DFL)
    try:
        sys.exit(main())
    except KeyboardInterrupt:
        sys.exit(130)


if __name__ == "__main__":
    run()
