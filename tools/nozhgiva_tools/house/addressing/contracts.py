"""The contracts of a checkout's functions, with all that they cite put in the place of its name, so that two checkouts can be compared."""

import hashlib
from typing import Dict, Iterable, Iterator, List, NamedTuple, Set, Tuple, Union

from . import code, Place, Tree
from .definitions import Declaration, Definitions, owner, Reading, readings, Scope

# A name is put in for what it stands for this many times over: more than there are definitions below one another.
ROUNDS = 96

Route = Tuple[str, ...]  # crate, modules, type or trait if any, function
Part = Union[str, Place]  # a word, or what a word names


class Clause(NamedTuple):
    """A line of a contract as it is written, and a sum of what it means."""

    text: str
    meaning: str


class Contract(NamedTuple):
    """What a function takes and gives, and its clauses."""

    head: Clause
    clauses: Tuple[Clause, ...]

    @property
    def meanings(self) -> Tuple[str, ...]:
        return (self.head.meaning, *sorted(clause.meaning for clause in self.clauses))


class Function(NamedTuple):
    """A function of code, and what the names of its contract mean."""

    route: Route
    item: code.Item
    scope: Scope


def sum_of(parts: Iterable[str]) -> str:
    return hashlib.sha256("\0".join(parts).encode()).hexdigest()[:24]


def one_line(text: str) -> str:
    return " ".join(text.split())


def functions(definitions: Definitions, crate: str) -> Iterator[Function]:
    """The functions with a contract that a crate's code has."""
    folder = definitions.tree.top / "crates" / crate / "src"
    for source in sorted(folder.rglob("*.rt")):
        module = (crate, *code.module_of(source, folder))
        for item in definitions.items_of(source):
            if item.kind == "fn" and item.clauses:
                yield Function((*module, item.name), item, definitions.code_scope(module))
            elif item.kind in ("impl", "trait"):
                name = owner(item.head) if item.kind == "impl" else item.name
                scope = definitions.code_scope(module, item.inner)
                yield from (Function((*module, name, one.name), one, scope) for one in item.inner if one.kind == "fn" and one.clauses)


class Meanings:
    """What the declarations of a checkout mean: a sum of each, in which another's name stands for that one's sum."""

    def __init__(self, tree: Tree) -> None:
        self.definitions = Definitions(tree)
        self.functions = {function.route: function for crate in tree.libraries for function in functions(self.definitions, crate)}
        self.declared: Dict[Place, List[Declaration]] = {}
        self.parts: Dict[Place, List[Part]] = {}
        self.find_all()
        self.sums: Dict[Place, str] = dict.fromkeys(self.declared, "")
        for _ in range(ROUNDS):
            self.sums = {place: self.meaning(parts) for place, parts in self.parts.items()}

    def find_all(self) -> None:
        """Finds each declaration below the contracts."""
        todo = [place for function in self.functions.values() for place in self.cited(function)]
        while todo:
            place = todo.pop()
            if place not in self.declared:
                self.declared[place] = self.definitions.at(place)
                self.parts[place] = list(self.split(reading for one in self.declared[place] for reading in self.definitions.readings(one)))
                todo += [part for part in self.parts[place] if not isinstance(part, str)]

    def split(self, some: Iterable[Reading]) -> Iterator[Part]:
        """A text as words, and places of what others of its words name."""
        for reading in some:
            yield from reading.front.split()
            if reading.place:
                yield self.definitions.tree.place(*reading.place)
                yield reading.tail

    def cited(self, function: Function) -> Iterator[Place]:
        for text in texts(function.item):
            yield from (part for part in self.split(readings(text, function.scope, set())) if not isinstance(part, str))

    def meaning(self, parts: Iterable[Part]) -> str:
        return sum_of(part if isinstance(part, str) else self.put(part) for part in parts)

    def put(self, place: Place) -> str:
        """What stands for a name: the sum of what it names, or the name itself where that is the kit's."""
        return self.sums[place] if self.declared.get(place) else ".".join((*place[0], place[1]))

    def contract(self, function: Function) -> Contract:
        head, *clauses = (Clause(one_line(text), self.meaning(self.split(readings(text, function.scope, set())))) for text in texts(function.item))
        return Contract(head, tuple(clauses))

    def contracts(self) -> Dict[Route, Contract]:
        return {route: self.contract(function) for route, function in self.functions.items()}

    def texts(self) -> Dict[Place, str]:
        """Each declaration below the contracts, as it is written."""
        return {place: "\n".join(clause for one in found for clause in one.clauses) for place, found in self.declared.items() if found}

    def below(self, route: Route) -> Set[Place]:
        """The declarations below one function's contract."""
        found: Set[Place] = set()
        todo = list(self.cited(self.functions[route]))
        while todo:
            place = todo.pop()
            if place not in found:
                found.add(place)
                todo += [part for part in self.parts[place] if not isinstance(part, str)]
        return found


def texts(item: code.Item) -> Tuple[str, ...]:
    """What a function takes and gives, and each of its clauses."""
    return (item.head, *map(str, item.clauses))
