"""What clauses and definitions mean: each declaration of specs/ and of code, and the declarations that its text names."""

import re
from pathlib import Path
from typing import Dict, Iterator, List, NamedTuple, Optional, Set, Tuple

from . import code, COMMENT, Module, Place, read_import, Tree

MARKS = r"(?:(?:pattern|unfoldable|abbrev|axiom|pub) )*"
SIGNATURE = re.compile(MARKS + r"(?P<name>[^\s(){},;]+)(?: \{[^}]*\})? :(?: |$)")
TYPE = re.compile(MARKS + r"(?P<kind>data|record|ruleset) (?P<name>\S+)")
MEMBER = re.compile(r"  (?:pub )?(?P<name>[^\s(){},;]+) :(?: |$)")
SECTION = re.compile(r"module _\b")
NOTHING = re.compile(r"(?:infix[lr]? |(?:pub )?mod |mutual\b)")
WORD = re.compile(r"[^\s(){},;⟦⟧⟨⟩<>\"&]+")
BINDER = re.compile(r"[({]([^(){}:]+) : ")
GENERATED = ("declared", "contracts")


class Scope(NamedTuple):
    """What names mean in a file: those of items, and those before a dot."""

    items: Dict[str, Place]
    modules: Dict[str, Module]
    types: Dict[str, Place]  # types and constants of code


class Declaration(NamedTuple):
    """A definition, a declared type, trait or constant, or what implementations tell of one."""

    path: Path
    line: int
    kind: str
    name: str
    clauses: Tuple[str, ...]  # its signature and each of its clauses
    members: Tuple[str, ...]
    scope: Scope

    @property
    def lines(self) -> int:
        """How many lines it has, those of brackets alone aside."""
        return sum(re.search(r"\w", line) is not None for clause in self.clauses for line in clause.splitlines())


class Reading(NamedTuple):
    """A piece of a text: a word that names a declaration, with what stands before it in that word and after it; or any other text, as `front`."""

    front: str
    place: Optional[Place]
    tail: str


def sections(lines: List[str]) -> Iterator[Tuple[int, str]]:
    """The lines of a file with their numbers, without comments; what stands in a `module _` block as if it stood outside."""
    inside = False
    for number, line in enumerate(lines, 1):
        line = COMMENT[".antt"].sub("", line).rstrip()
        if not line or NOTHING.match(line) or read_import(line):
            continue
        if SECTION.match(line):
            inside = True
            continue
        if not line.startswith(" "):
            inside = False
        yield number, line[2:] if inside else line


def clauses_of(lines: List[str]) -> List[List[Tuple[int, str]]]:
    """The lines of a file that belong together: each begins without an indent."""
    found: List[List[Tuple[int, str]]] = []
    for number, line in sections(lines):
        if line.startswith(" ") and found:
            found[-1].append((number, line))
        else:
            found.append([(number, line)])
    return found


def declared(path: Path, scope: Scope) -> List[Declaration]:
    """The declarations of a file of definitions."""
    found: List[Declaration] = []
    for clause in clauses_of(path.read_text(encoding="utf-8").splitlines()):
        text = "\n".join(line for _, line in clause)
        kind = TYPE.match(text)
        head = kind or SIGNATURE.match(text)
        if head:
            members = tuple(member["name"] for _, line in clause[1:] if (member := MEMBER.match(line))) if kind else ()
            found.append(Declaration(path, clause[0][0], kind["kind"] if kind else "definition", head["name"], (text,), members, scope))
        elif found:
            found[-1] = found[-1]._replace(clauses=found[-1].clauses + (text,))
    return found


def binds(clause: str, first: bool, members: Tuple[str, ...]) -> Set[str]:
    """The variables that a clause has, which hide definitions of the same name."""
    names = {name for group in BINDER.findall(clause) for name in group.split()}
    if first:
        return names.union(members)
    front = clause.split(" =", 1)[0]
    return names | {word for word in WORD.findall(front)[1:] if not word[0].isupper()}


class Definitions:
    """The declarations of a checkout, as far as they were asked for."""

    def __init__(self, tree: Tree) -> None:
        self.tree = tree
        self.specs: Dict[Module, Dict[str, Declaration]] = {}
        self.codes: Dict[Module, Dict[str, List[Declaration]]] = {}
        self.items: Dict[Path, List[code.Item]] = {}

    # ---- files of code

    def source(self, module: Module) -> Path:
        """The file of a module of code: the crate's name, and the modules below it."""
        folder = self.tree.top / "crates" / module[0] / "src"
        if module[1:]:
            return folder.joinpath(*module[1:]).with_suffix(".rt")
        return folder / ("lib.rt" if (folder / "lib.rt").is_file() else "main.rt")

    def items_of(self, path: Path) -> List[code.Item]:
        if path not in self.items:
            self.items[path] = code.read_items(path.read_text(encoding="utf-8")) if path.is_file() else []
        return self.items[path]

    def route(self, module: Module, path: code.Route) -> Optional[Place]:
        """Where the item of code stands that a path leads to, from a module."""
        head, *rest = path
        if head == "crate":
            return self.lookup((module[0],), tuple(rest))
        if head == "self":
            return self.lookup(module, tuple(rest))
        if head == "super":
            return self.lookup(module[:-1], tuple(rest))
        if head in self.tree.libraries:
            return self.lookup((head,), tuple(rest))
        return self.lookup(module, path) if self.source(module + (head,)).is_file() else None

    def lookup(self, module: Module, names: Tuple[str, ...]) -> Optional[Place]:
        if not names:
            return None
        if self.source(module + names[:1]).is_file() and len(names) > 1:
            return self.lookup(module + names[:1], names[1:])
        items = self.items_of(self.source(module))
        if any(item.name == names[0] and item.kind in ("struct", "enum", "trait", "const", "type", "fn") for item in items):
            return module, names[0]
        there = code.brought(items).get(names[0])
        return self.route(module, there) if there else None

    def code_scope(self, module: Module, inner: Tuple[code.Item, ...] = ()) -> Scope:
        """What names mean in a file of code, or in a block of it that has imports of its own."""
        items = self.items_of(self.source(module))
        scope = Scope({}, {}, {})
        own = [item for item in (*items, *inner) if item.kind == "ghost use"]
        self.bring(scope, [item.text for item in own])
        for name, path in code.brought(items).items():
            place = self.route(module, path)
            if place:
                scope.types[name] = place
        for item in items:
            if item.kind in ("struct", "enum", "trait", "const", "type"):
                scope.types[item.name] = (module, item.name)
        return scope

    def coded(self, module: Module) -> Dict[str, List[Declaration]]:
        """What a file of code declares, and what implementations of it tell, by the names of types, traits and constants."""
        if module not in self.codes:
            found = self.codes[module] = {}
            path = self.source(module)
            for item in self.items_of(path):
                name, clauses = item.name, [item.text]
                if item.kind == "impl":
                    name = owner(item.head)
                    clauses = [item.head] + [one.text for one in item.inner if one.kind in ("ghost", "type", "const")]
                    if len(clauses) == 1 or not self.tells(module, item.head):
                        continue
                elif item.kind == "trait":
                    clauses += ["\n".join((one.text, *map(str, one.clauses))) for one in item.inner if one.kind != "ghost use"]
                elif item.kind not in ("struct", "enum", "const", "type"):
                    continue
                scope = self.code_scope(module, item.inner)
                found.setdefault(name, []).append(Declaration(path, item.line, item.kind, name, tuple(clauses), (), scope))
        return self.codes[module]

    def tells(self, module: Module, head: str) -> bool:
        """Whether an `impl` tells what clauses see of a type: by `Model`, or by a trait of the repository."""
        trait = re.match(r"impl(?:<.*?>(?= ))? (\w+).* for ", head)
        if not trait:
            return False
        return trait[1] == "Model" or trait[1] in {name for item in self.items_of(self.source(module)) for name in self.names(module, item)}

    def names(self, module: Module, item: code.Item) -> Iterator[str]:
        """The names of the repository's own items that an item brings."""
        if item.kind == "trait":
            yield item.name
        if item.kind == "use":
            yield from (name for name, path in code.brought([item]).items() if self.route(module, path))

    # ---- files of definitions

    def bring(self, scope: Scope, lines: List[str]) -> None:
        """Adds what the imports among these lines bring."""
        for line in lines:
            found = read_import(line.strip())
            if not found:
                continue
            if found.items is None:
                scope.modules[found.alias or found.module[-1]] = self.tree.home(found.module)
            for item in found.items or ():
                scope.items[item.called] = self.tree.place(found.module, item.name)

    def spec(self, module: Module) -> Dict[str, Declaration]:
        """The declarations of a module of definitions, by their names and those of their members that aren't fields."""
        if module in self.specs:
            return self.specs[module]
        names = self.specs[module] = {}
        path = self.tree.path(module)
        if not path.is_file() or module[0] not in self.tree.libraries:
            return names
        scope = Scope({}, {}, {})
        self.bring(scope, path.read_text(encoding="utf-8").splitlines())
        for declaration in declared(path, scope):
            names[declaration.name] = declaration
            names.update((member, declaration) for member in declaration.members if declaration.kind == "data")
            scope.items.update((name, (module, name)) for name in names)
        return names

    # ---- places

    def at(self, place: Place) -> List[Declaration]:
        """What is declared at a place; nothing where that is the kit's."""
        module, name = self.tree.place(*place)
        if module[0] not in self.tree.libraries:
            return []
        if len(module) > 2 and module[1] in ("specs", "proofs") and module[2] in GENERATED:
            return self.generated(module, name)
        if len(module) > 1 and module[1] in ("specs", "proofs"):
            found = self.spec(module).get(name)
            return [found] if found else []
        return self.coded(module).get(name, [])

    def generated(self, module: Module, name: str) -> List[Declaration]:
        """The declarations of code of which a module was made: the longest front of its path that is a file has the type, or the constant."""
        names = module[3:]
        for length in range(len(names) - 1, -1, -1):
            source = (module[0],) + names[:length]
            wanted = name if names[length] == "TheConstants" else names[length]
            if self.source(source).is_file() and wanted in self.coded(source):
                return self.coded(source)[wanted]
        return []

    def readings(self, declaration: Declaration) -> Iterator[Reading]:
        """The text of a declaration, in pieces, of which some name a declaration."""
        for number, clause in enumerate(declaration.clauses):
            fields = declaration.members if declaration.kind == "record" else ()
            hidden = set() if declaration.path.suffix == ".rt" else binds(clause, number == 0, fields)
            yield from readings(clause + "\n", declaration.scope, hidden)


def owner(head: str) -> str:
    """The type of which an `impl` is."""
    front = re.sub(r"^impl(?:<.*?>(?= ))?\s*", "", head)
    target = front.split(" for ")[-1]
    return re.sub(r"^[&\s]*(?:mut )?", "", target).split("<")[0].split(" ")[0].split("::")[-1]


def named(word: str, scope: Scope, hidden: Set[str]) -> Reading:
    """What a word names. `a.b.c` is a value's field, a module's name, or a trait's words of a type parameter."""
    parts = word.rstrip(".:").split(".")
    head = parts[0]
    whole = scope.items.get(word.rstrip(".:"))
    if head in hidden:
        return Reading(word, None, "")
    if whole:
        return Reading("", whole, word[len(word.rstrip(".:")):])
    if head in scope.modules and len(parts) > 1:
        return Reading("", (scope.modules[head], parts[1]), word[len(head) + 1 + len(parts[1]):])
    place = scope.items.get(head) or scope.types.get(head)
    if place:
        return Reading("", place, word[len(head):])
    if len(parts) > 1 and parts[1] in scope.types:
        return Reading(head + ".", scope.types[parts[1]], word[len(head) + 1 + len(parts[1]):])
    return Reading(word, None, "")


def readings(clause: str, scope: Scope, hidden: Set[str]) -> Iterator[Reading]:
    """A text in pieces, of which some name a declaration. An operator is named by its sign."""
    items = dict(scope.items)
    items.update((name.strip("◌"), place) for name, place in scope.items.items() if "◌" in name)
    end = 0
    for found in WORD.finditer(clause):
        yield Reading(clause[end:found.start()], None, "")
        yield named(found[0], scope._replace(items=items), hidden)
        end = found.end()
    yield Reading(clause[end:], None, "")
