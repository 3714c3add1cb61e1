"""What ./nozhgiva pages looks at: the pages of this repository, its crates, and the commands that it has."""

import glob
import os
import re
import subprocess
from typing import Dict, List, NamedTuple, Set

from nozhgiva_tools import places
from nozhgiva_tools.command.commands import COMMANDS
from nozhgiva_tools.house import mapping
from nozhgiva_tools.house.mutations import edits_of
from nozhgiva_tools.places import TOP

Pages = Dict[str, str]

PLACES = ("docs/**/*.md", "*.md", "examples/README.md", "clients/*/README.md", "mutations/README.md", "tests/*/README.md", "tools/README.md", "bench/README.md", "operate/README.md",
          "packaging/README.md", "tests/README.md")
# A law: a public function that does nothing, whose contract is the statement.
LAW = re.compile(r"^pub fn (\w+)(?:<[^>]*>)?\(\)\n(?:    ensures .*\n)+\{\}", re.M)


class Tree(NamedTuple):
    """What pages are held against."""

    rows: Dict[str, List[str]]  # the crates of crates.txt, by its rows
    laws: Dict[str, List[str]]  # the laws of each crate that has any
    commands: Dict[str, bool]  # those of ./nozhgiva, and whether each is the program's own
    guards: List[str]  # the mutation tests of the abstract machine

    @property
    def crates(self) -> Set[str]:
        return {name for row in self.rows.values() for name in row}


def read(path: str) -> str:
    return (TOP / path).read_text(encoding="utf-8")


def found(pattern: str) -> List[str]:
    """The paths from the top that this pattern has."""
    return sorted(os.path.relpath(path, TOP) for path in glob.glob(str(TOP / pattern), recursive=True))


def read_pages() -> Pages:
    """Each page with its text, by its path from the top."""
    return {path: read(path) for place in PLACES for path in found(place)}


def read_commands() -> Dict[str, bool]:
    return {command.name: not command.calls for command in COMMANDS}


def read_tree() -> Tree:
    rows = {row.name: [crate.name for crate in row.crates] for row in mapping.read()}
    laws: Dict[str, List[str]] = {}
    for crate in (name for row in rows.values() for name in row):
        laws[crate] = [law for path in found(f"crates/{crate}/src/*.rt") for law in LAW.findall(read(path))]
    guards = [edit.name for edit in edits_of("law_1_machine", True)]
    return Tree(rows, {crate: named for crate, named in laws.items() if named}, read_commands(), guards)


def addresses_script(*words: str) -> str:
    """What `nozhgiva addresses` tells; it ends with 1 where a citation isn't true, which is none of this script's business."""
    return subprocess.run(places.words_of_module("nozhgiva_tools.house.addresses", *words), capture_output=True, text=True, check=False).stdout
