"""The modules of this repository's definitions and lemmas, and where the names stand that files cite from them."""

import re
from pathlib import Path
from typing import Dict, Iterator, List, NamedTuple, Optional, Set, Tuple

Module = Tuple[str, ...]  # as in a path without `Rattle`: crate, folder, names
Place = Tuple[Module, str]  # a name, and the module that has it

FOLDERS = ("specs", "proofs")
KINDS = (".rt", ".antt")
COMMENT = {".rt": re.compile(r"//.*"), ".antt": re.compile(r"--.*")}
NAME = r"[^\s{},;]+"
IMPORT = re.compile(
    r"(?P<indent>[ \t]*)(?P<marks>(?:unfoldable )?(?:pub )?(?:ghost )?)use Rattle\.(?P<module>" + NAME + r")"
    r"(?: as (?P<alias>" + NAME + r"))?(?P<end>;?)$")
ITEMS = re.compile(r"(?P<front>.*)\.\{(?P<items>[^{}]*)\}(?P<end>;?)$")
CHILD = re.compile(r"(?:pub )?mod (\S+)$")
ATTRIBUTE = re.compile(r"#\[[a-z_]+\(.*\)\]")
ATTRIBUTE_PATH = re.compile(r"\b(?P<crate>\w+)::(?P<folder>specs|proofs)(?P<rest>(?:::[^\s,():]+)+)")


class Item(NamedTuple):
    """A name in the braces of an import, and what it is called in the file."""

    name: str
    alias: Optional[str] = None

    def __str__(self) -> str:
        return f"{self.name} as {self.alias}" if self.alias else self.name

    @property
    def called(self) -> str:
        return self.alias or self.name


class Import(NamedTuple):
    """A line `use`: of a module, under an alias or its own name, or of items of one."""

    indent: str
    marks: str
    module: Module
    alias: Optional[str]
    items: Optional[Tuple[Item, ...]]
    end: str

    def __str__(self) -> str:
        tail = " as " + self.alias if self.alias else ""
        if self.items is not None:
            tail = ".{%s}" % ", ".join(map(str, self.items))
        return f"{self.indent}{self.marks}use Rattle.{'.'.join(self.module)}{tail}{self.end}"

    @property
    def passes_on(self) -> bool:
        return "pub " in self.marks


def read_import(line: str) -> Optional[Import]:
    """What a line imports from Rattle, if it does."""
    if "use Rattle." not in line:
        return None
    braces = ITEMS.match(line)
    found = IMPORT.match(braces["front"] + braces["end"] if braces else line)
    if not found:
        return None
    items = None
    if braces:
        parts = (part.split(" as ") for part in braces["items"].split(",") if part.strip())
        items = tuple(Item(part[0].strip(), part[1].strip() if part[1:] else None) for part in parts)
    return Import(found["indent"], found["marks"], tuple(found["module"].split(".")), found["alias"], items, found["end"])


class File(NamedTuple):
    """What a module's file brings: its children, the modules that it passes on, and the items."""

    children: Set[str]
    modules: Dict[str, Module]
    items: Dict[str, Place]


def read_module(path: Path) -> File:
    brought = File(set(), {}, {})
    for line in path.read_text(encoding="utf-8").splitlines():
        child, found = CHILD.match(line), read_import(line)
        if child:
            brought.children.add(child[1])
        if not found or not found.passes_on:
            continue
        if found.items is None:
            brought.modules[found.alias or found.module[-1]] = found.module
        for item in found.items or ():
            brought.items[item.called] = (found.module, item.name)
    return brought


def read_libraries(top: Path) -> Dict[str, List[str]]:
    """Each crate of crates.txt with the libraries that its line names."""
    libraries: Dict[str, List[str]] = {}
    for line in (top / "crates.txt").read_text(encoding="utf-8").splitlines():
        head, colon, named = line.split("#")[0].partition(":")
        if colon:
            libraries[head.split()[0]] = named.split()
    return libraries


class Tree:
    """The crates of a checkout, and the files of their modules as far as they were asked for."""

    def __init__(self, top: Path) -> None:
        self.top = top
        self.libraries = read_libraries(top)
        self.files: Dict[Module, Optional[File]] = {}
        self.homes: Dict[Module, Module] = {}
        self.places: Dict[Place, Place] = {}

    def path(self, module: Module) -> Path:
        """The file that a module has, if it isn't made by Rattle."""
        name = module[2:] or ("Lib",)
        return self.top.joinpath("crates", *module[:2], *name[:-1], name[-1] + ".antt")

    def file(self, module: Module) -> Optional[File]:
        if module not in self.files:
            path = self.path(module)
            is_own = len(module) > 1 and module[0] in self.libraries and module[1] in FOLDERS
            self.files[module] = read_module(path) if is_own and path.is_file() else None
        return self.files[module]

    def home(self, module: Module) -> Module:
        """The module that this path leads to, where others pass it on."""
        if module not in self.homes:
            self.homes[module] = self.next_home(module)
        return self.homes[module]

    def next_home(self, module: Module) -> Module:
        for length in range(2, len(module)):
            file = self.file(module[:length])
            if file and module[length] in file.modules:
                return self.home(file.modules[module[length]] + module[length + 1:])
        return module

    def place(self, module: Module, name: str) -> Place:
        """Where the name stands that a module has or passes on."""
        if (module, name) not in self.places:
            home = self.home(module)
            file = self.file(home)
            self.places[module, name] = self.place(*file.items[name]) if file and name in file.items else (home, name)
        return self.places[module, name]

    def sources(self, crate: str) -> Iterator[Path]:
        """The files of code, definitions and proofs of a crate."""
        for folder in ("src", *FOLDERS):
            for path in sorted((self.top / "crates" / crate / folder).rglob("*")):
                if path.suffix in KINDS and path.is_file():
                    yield path


class Citation(NamedTuple):
    """A name, or a module, that a line cites from a crate of the repository."""

    path: Path
    line: int
    module: Module
    name: Optional[str]

    def __str__(self) -> str:
        return ".".join(self.module) + (f".{self.name}" if self.name else "")


def attribute_paths(crate: str, line: str) -> Iterator[Place]:
    """The lemmas and definitions that the attributes of a line of code name."""
    for attribute in ATTRIBUTE.findall(line) if "#[" in line else ():
        for found in ATTRIBUTE_PATH.finditer(attribute):
            *module, name = found["rest"].split("::")[1:]
            yield (crate if found["crate"] == "crate" else found["crate"], found["folder"], *module), name


def cited(crate: str, path: Path) -> Iterator[Citation]:
    """What a file of a crate cites, of the libraries too."""
    for number, line in enumerate(path.read_text(encoding="utf-8").splitlines(), 1):
        found = read_import(line)
        if found and found.items is None:
            yield Citation(path, number, found.module, None)
        if found:
            yield from (Citation(path, number, found.module, item.name) for item in found.items or ())
        for module, name in attribute_paths(crate, line) if path.suffix == ".rt" else ():
            yield Citation(path, number, module, name)
