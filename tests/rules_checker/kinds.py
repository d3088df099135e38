"""Kinds. Two of them are alike exactly where they are equal. A host is the kind of all its values."""

import collections
import dataclasses

MOST = 2147483647
SCALARS = 65536
LEVELS = 32
MEMBERS = 64
ELEMENTS = 256
TUPLES = 1024


@dataclasses.dataclass(frozen=True)
class Ordinal:
    """Some values of a host; a range over all of them is not the host itself."""

    host: object
    low: int
    high: int
    is_range: bool = False

    @property
    def width(self):
        return self.high - self.low + 1


@dataclasses.dataclass(frozen=True)
class Set:
    """A set over a base; that of no base is `[ ]`, which has every host."""

    base: object

    @property
    def host(self):
        return self.base.host if self.base else None


@dataclasses.dataclass(frozen=True)
class Group:
    """An array, by its index and what it holds, or a record, by its fields in order."""

    index: object
    parts: tuple
    levels: int
    scalars: int

    @property
    def is_array(self):
        return self.index is not None


INTEGER = Ordinal("integer", -MOST, MOST)
BOOLEAN = Ordinal("boolean", 0, 1)
CHAR = Ordinal("char", 0, 127)
EMPTY = Set(None)
Value = collections.namedtuple("Value", "kind ordinal")


def levels(kind):
    return kind.levels if isinstance(kind, Group) else 0


def scalars(kind):
    return kind.scalars if isinstance(kind, Group) else 1


def is_ordinal(kind):
    return isinstance(kind, Ordinal)


def is_integer(kind):
    return is_ordinal(kind) and kind.host == "integer"


def is_boolean(kind):
    return is_ordinal(kind) and kind.host == "boolean"


def is_set(kind):
    return isinstance(kind, Set)


def have_one_host(one, other):
    """Whether both are ordinals, or both sets, of one host."""
    if is_ordinal(one) and is_ordinal(other):
        return one.host == other.host
    return is_set(one) and is_set(other) and (one == EMPTY or other == EMPTY or one.host == other.host)


def can_be_assigned(value, to):
    return have_one_host(value, to) or isinstance(value, Group) and value == to
