"""Lists what one has to believe where one believes the clauses of `run`: the definitions that they cite, those that these cite, and so on down.

  ./nozhgiva believed              looks whether docs/BELIEVED.md has that list; ends with status 1 where it hasn't
  ./nozhgiva believed --write      writes the list into the page
  ./nozhgiva believed --list       prints each definition with its place and its lines, and writes nothing

Definitions are those of specs/, and types, traits and constants of src/ with what contracts see of them. What proofs/ has isn't among them: the prover
judges it. Comments, and lines of brackets alone, aren't counted. Other words than these end it with status 2."""

import argparse
import signal
import sys
from pathlib import Path
from typing import Dict, Iterable, Iterator, List, NamedTuple, Sequence, Set, Tuple

from nozhgiva_tools.places import TOP

from .addressing import code, Module, Place, Tree
from .addressing.definitions import Declaration, Definitions, readings, Scope

Found = Dict[Tuple[Path, int], Declaration]
MODULE, NAME, FIRST = ("vr_top", "command"), "run", "headline"
PAGE = TOP / "docs" / "BELIEVED.md"
BEGIN, END = "<!-- ./nozhgiva believed -->\n", "<!-- end -->"


class NoFunction(Exception):
    """There is no such function, or it has no contract."""


class Part(NamedTuple):
    """The declarations of one crate."""

    crate: str
    declarations: List[Declaration]

    @property
    def lines(self) -> int:
        return sum(declaration.lines for declaration in self.declarations)


def function(definitions: Definitions, module: Module, name: str) -> Tuple[code.Item, Scope]:
    """A function of code with what the names of its contract mean."""
    for item in definitions.items_of(definitions.source(module)):
        if item.kind == "fn" and item.name == name and item.clauses:
            return item, definitions.code_scope(module)
    raise NoFunction(f"no function {name} with a contract in {definitions.source(module)}")


def below(definitions: Definitions, texts: Iterable[str], scope: Scope) -> Found:
    """The declarations below some clauses."""
    found: Found = {}
    seen: Set[Place] = set()
    todo = [reading.place for text in texts for reading in readings(text, scope, set())]
    while todo:
        place = todo.pop()
        if place is None or place in seen:
            continue
        seen.add(place)
        for declaration in definitions.at(place):
            if (declaration.path, declaration.line) not in found:
                found[declaration.path, declaration.line] = declaration
                todo += [reading.place for reading in definitions.readings(declaration)]
    return found


def parts(found: Found, crates: Sequence[str], top: Path) -> List[Part]:
    """Declarations crate by crate, in the order of crates.txt, each crate's in the order of its files."""
    folder = top / "crates"
    by_crate: Dict[str, List[Declaration]] = {}
    for (path, _), declaration in sorted(found.items()):
        by_crate.setdefault(path.relative_to(folder).parts[0], []).append(declaration)
    return [Part(crate, by_crate[crate]) for crate in crates if crate in by_crate]


def counted(number: int, one: str) -> str:
    return f"{number:,} {one}" + ("" if number == 1 else "s")


def table(some: Sequence[Part], top: Path) -> Iterator[str]:
    """A row for each crate: its files with how many of their definitions, and the lines of these."""
    yield "| crate | lines | definitions of each file |"
    yield "|---|---|---|"
    for part in some:
        files: Dict[str, int] = {}
        for declaration in part.declarations:
            name = str(declaration.path.relative_to(top / "crates" / part.crate))
            files[name] = files.get(name, 0) + 1
        yield f"| `{part.crate}` | {part.lines:,} | " + ", ".join(f"`{name}` {count}" for name, count in files.items()) + " |"


def total(some: Sequence[Part]) -> str:
    files = len({declaration.path for part in some for declaration in part.declarations})
    definitions = counted(sum(len(part.declarations) for part in some), "definition")
    return f"{definitions} in {counted(sum(part.lines for part in some), 'line')} of {counted(files, 'file')}, of {counted(len(some), 'crate')}"


def found(tree: Tree) -> Tuple[Found, Found]:
    """What stands below the first clause, and what stands below the others alone."""
    definitions = Definitions(tree)
    run, scope = function(definitions, MODULE, NAME)
    first = below(definitions, [clause.text for clause in run.clauses if clause.label == FIRST], scope)
    every = below(definitions, [run.head, *(clause.text for clause in run.clauses)], scope)
    return first, {place: declaration for place, declaration in every.items() if place not in first}


def lists(tree: Tree, first: Found, others: Found) -> str:
    """The two lists, as lines of the page."""
    lines: List[str] = []
    for heading, some in ((f"## Below `{FIRST}`", first), ("## Below the other clauses alone", others)):
        told = parts(some, list(tree.libraries), tree.top)
        lines += [heading, "", total(told) + ".", "", *table(told, tree.top), ""]
    return "\n".join(lines)


def print_all(first: Found, others: Found) -> None:
    for (path, line), declaration in sorted({**first, **others}.items()):
        clause = "" if (path, line) in first else ", not below " + FIRST
        print(f"{path.relative_to(TOP)}:{line}: {declaration.name}, {counted(declaration.lines, 'line')}{clause}")


def make_parser() -> argparse.ArgumentParser:
    parser = argparse.ArgumentParser(prog="believed", description=__doc__, formatter_class=argparse.RawDescriptionHelpFormatter)
    which = parser.add_mutually_exclusive_group()
    which.add_argument("--write", action="store_true", help="write the list into the page")
    which.add_argument("--list", action="store_true", help="name each definition with its line")
    return parser


def main() -> int:
    words = make_parser().parse_args()
    tree = Tree(TOP)
    try:
        first, others = found(tree)
    except NoFunction as missing:
        print(missing)
        return 1
    if words.list:
        print_all(first, others)
        return 0
    page = PAGE.read_text(encoding="utf-8") if PAGE.is_file() else ""
    front, begin, rest = page.partition(BEGIN)
    if not begin or END not in rest:
        print(f"{PAGE.relative_to(TOP)} has no place for the list: lines {BEGIN.strip()} and {END}")
        return 1
    right = front + BEGIN + lists(tree, first, others) + END + rest.partition(END)[2]
    if words.write and page != right:
        PAGE.write_text(right, encoding="utf-8")
        print(f"written: {PAGE.relative_to(TOP)}")
    elif page != right:
        print(f"{PAGE.relative_to(TOP)} isn't what the clauses of {NAME} cite; ./nozhgiva believed --write puts it right")
        return 1
    print(f"{counted(len(first) + len(others), 'definition')} below the clauses of {NAME}, as {PAGE.relative_to(TOP)} says")
    return 0


def run() -> None:
    """Runs it to its end."""
    signal.signal(signal.SIGPIPE, signal.SIG_DFL)
    try:
        sys.exit(main())
    except KeyboardInterrupt:
        sys.exit(130)


if __name__ == "__main__":
    run()
