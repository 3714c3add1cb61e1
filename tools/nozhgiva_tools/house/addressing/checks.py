"""What isn't true of a checkout's citations and of its crates.txt. Each check tells the places."""

import re
from pathlib import Path
from typing import Iterator, Set

from . import Citation, cited, COMMENT, read_import, Tree


def place(tree: Tree, path: Path, line: int) -> str:
    return f"{path.relative_to(tree.top)}:{line}"


def home(tree: Tree, citation: Citation) -> str:
    """Where a citation leads to in the end, as it is written."""
    module, name = tree.place(citation.module, citation.name) if citation.name else (tree.home(citation.module), None)
    return ".".join(module) + (f".{name}" if name else "")


def untrue(tree: Tree, crate: str) -> Iterator[str]:
    """Citations of a crate's files whose definition or lemma stands in another module than the one that they name."""
    for path in tree.sources(crate):
        for citation in cited(crate, path):
            there = home(tree, citation)
            if there != str(citation):
                yield f"{place(tree, path, citation.line)}: {citation} stands in {there}"


def passed_on(tree: Tree, crate: str) -> Iterator[str]:
    """Lines by which a module would pass on what stands in another one."""
    for path in tree.sources(crate):
        for number, line in enumerate(path.read_text(encoding="utf-8").splitlines(), 1):
            found = read_import(line)
            if found and found.passes_on:
                yield f"{place(tree, path, number)}: {'.'.join(found.module)} is passed on; whoever needs it names it himself"


def words(tree: Tree, crate: str) -> Set[str]:
    """The words of a crate's files, without their comments."""
    found: Set[str] = set()
    for path in tree.sources(crate):
        found.update(re.findall(r"\w+", COMMENT[path.suffix].sub("", path.read_text(encoding="utf-8"))))
    return found


def idle(tree: Tree, crate: str) -> Iterator[str]:
    """Libraries on a crate's line of crates.txt that none of its files names."""
    said = words(tree, crate)
    for library in tree.libraries[crate]:
        if library not in said:
            yield f"crates.txt: {crate} doesn't name {library}"


def faults(tree: Tree) -> Iterator[str]:
    for crate in tree.libraries:
        for check in (untrue, passed_on, idle):
            yield from check(tree, crate)
