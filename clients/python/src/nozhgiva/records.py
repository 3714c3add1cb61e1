"""`dataclass`, `field`, `replace` and `NamedTuple` as the library uses them, without the standard modules of these names.

Those two read some forty other modules. A program that asks once and ends would spend a third of all its system calls on them.
"""

from __future__ import annotations

from collections import namedtuple

TYPE_CHECKING = False  # what type checkers take for true

if TYPE_CHECKING:
    from typing import Any, Callable, Dict, Optional, Tuple

__all__ = ["NamedTuple", "dataclass", "field", "replace"]

MISSING = object()


class Field:
    """What is said of a field beside its name and its type."""

    def __init__(self, default: Any = MISSING, *, default_factory: Optional[Callable[[], Any]] = None, repr: bool = True, compare: bool = True) -> None:
        self.default, self.default_factory, self.repr, self.compare = default, default_factory, repr, compare

    @property
    def is_needed(self) -> bool:
        """Whether each record has to be given it."""
        return self.default is MISSING and self.default_factory is None


def _fields_of(cls: Any) -> Dict[str, Field]:
    """The fields of a class that is to be one of records, by their names. A default stays as the class's own attribute."""
    fields = {}
    for name in getattr(cls, "__annotations__", ()):  # In Python 3.9 a class without any has none.
        given = cls.__dict__.get(name, MISSING)
        fields[name] = given if isinstance(given, Field) else Field(given)
        if given is not MISSING and fields[name].default is MISSING:
            delattr(cls, name)
        elif given is not MISSING:
            setattr(cls, name, fields[name].default)
    return fields


def _init_of(cls: Any, fields: Dict[str, Field]) -> Any:
    """What sets the fields of a new record, with the words that a reader of its signature expects."""
    words = ", ".join(name if one.is_needed else f"{name}=MISSING" for name, one in fields.items())
    lines = [f"def __init__(self, {words}):"]
    for name, one in fields.items():
        if not one.is_needed:
            made = f"FIELDS[{name!r}].default" if one.default_factory is None else f"FIELDS[{name!r}].default_factory()"
            lines.append(f"    if {name} is MISSING: {name} = {made}")
        lines.append(f"    self.__dict__[{name!r}] = {name}")
    lines.append("    self.__post_init__()" if hasattr(cls, "__post_init__") else "    pass")
    space: Dict[str, Any] = {"MISSING": MISSING, "FIELDS": fields}
    exec("\n".join(lines), space)
    return space["__init__"]


def _refuse(self: Any, name: str, *_: Any) -> None:
    raise AttributeError(f"{type(self).__name__} can't be changed: {name}")


def _made_of(cls: Any, frozen: bool) -> Any:
    fields = _fields_of(cls)
    shown = [name for name, one in fields.items() if one.repr]
    compared = [name for name, one in fields.items() if one.compare]

    def values(self: Any) -> Tuple[Any, ...]:
        return tuple([self.__dict__[name] for name in compared])

    def __eq__(self: Any, other: Any) -> Any:
        return values(self) == values(other) if other.__class__ is self.__class__ else NotImplemented

    def __repr__(self: Any) -> str:
        return f"{type(self).__qualname__}({', '.join([f'{name}={self.__dict__[name]!r}' for name in shown])})"

    cls.__init__ = _init_of(cls, fields)
    cls.__eq__, cls.__repr__ = __eq__, __repr__
    cls.__match_args__ = tuple(fields)  # type: ignore[misc]
    cls.__hash__ = (lambda self: hash(values(self))) if frozen else None
    if frozen:
        cls.__setattr__ = cls.__delattr__ = _refuse
    return cls


class _Named(type):
    """Makes named tuples of classes."""

    def __new__(mcs, name: str, bases: Tuple[type, ...], space: Dict[str, Any]) -> Any:
        if not bases:
            return super().__new__(mcs, name, bases, space)
        names = list(space["__annotations__"])
        defaults = [space.pop(one) for one in names if one in space]
        made = namedtuple(name, names, defaults=defaults, module=space["__module__"])  # type: ignore[misc]
        return type(name, (made,), {"__slots__": (), **space})


if TYPE_CHECKING:
    from dataclasses import dataclass as dataclass
    from dataclasses import field as field
    from dataclasses import replace as replace
    from typing import NamedTuple as NamedTuple
else:
    field = Field

    def dataclass(cls=None, *, frozen=False):
        """A class whose fields are its annotations, compared and shown by them, as `dataclasses.dataclass` makes it."""
        return _made_of(cls, frozen) if cls is not None else lambda one: _made_of(one, frozen)

    def replace(record, **changes):
        """A record with other values in some of its fields, as `dataclasses.replace` makes it."""
        return type(record)(**{name: changes.get(name, record.__dict__[name]) for name in record.__match_args__})

    class NamedTuple(metaclass=_Named):
        """A tuple whose places have names, as `typing.NamedTuple`."""
