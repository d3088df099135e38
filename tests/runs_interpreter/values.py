"""Kinds and values.

An ordinal is a number, a set is a frozenset of numbers, a group is a tuple, and None is what is undefined. Of a value
of a trace a part that was not seen, or all of it, is UNSEEN.
"""

import dataclasses

MOST = 2147483647
MEMBERS = 64
UNSEEN = "?"


class Fault(Exception):
    """A block or guard meets a fault."""


class Limit(Exception):
    """A block or guard passes its limit."""


@dataclasses.dataclass(frozen=True)
class Host:
    """What an ordinal is of, with the names of its values where they have some. Each has an identity."""

    name: str
    low: int
    high: int
    names: tuple = ()
    own: object = None


@dataclasses.dataclass(frozen=True)
class Ordinal:
    """Some values of a host."""

    host: Host
    low: int
    high: int

    def values(self):
        return range(self.low, self.high + 1)


@dataclasses.dataclass(frozen=True)
class SetOf:
    base: Ordinal


@dataclasses.dataclass(frozen=True)
class ArrayOf:
    index: Ordinal
    of: object


@dataclasses.dataclass(frozen=True)
class Fields:
    fields: tuple

    def place_of(self, name):
        return [own for own, _ in self.fields].index(name)


def whole(host):
    return Ordinal(host, host.low, host.high)


INTEGER = whole(Host("integer", -MOST, MOST))
BOOLEAN = whole(Host("boolean", 0, 1, ("false", "true")))
CHAR = whole(Host("char", 0, 127))


def enumeration(names):
    return whole(Host("enumeration", 0, len(names) - 1, tuple(names), object()))


def is_group(kind):
    return isinstance(kind, (ArrayOf, Fields))


def part_kinds(kind):
    """The kinds of the parts of a group."""
    if isinstance(kind, ArrayOf):
        return [kind.of] * len(kind.index.values())
    return [own for _, own in kind.fields]


def undefined(kind):
    """The value that a variable has at first."""
    return tuple(undefined(part) for part in part_kinds(kind)) if is_group(kind) else None


def fitted(kind, value):
    """The value, which has to be in the range of a variable."""
    if isinstance(kind, Ordinal) and not kind.low <= value <= kind.high:
        raise Fault("range")
    if isinstance(kind, SetOf) and not all(kind.base.low <= member <= kind.base.high for member in value):
        raise Fault("range")
    return value


def with_part(value, path, part):
    """A group in which one part is another one."""
    if not path:
        return part
    at = path[0]
    return (*value[:at], with_part(value[at], path[1:], part), *value[at + 1 :])


def matches(seen, value):
    """Whether a value is one of which so much may have been seen."""
    if isinstance(seen, tuple) and isinstance(value, tuple):
        return len(seen) == len(value) and all(map(matches, seen, value))
    return seen == UNSEEN or seen == value


def is_partial(seen):
    """Whether not all of a value was seen."""
    return any(map(is_partial, seen)) if isinstance(seen, tuple) else seen == UNSEEN


def tuples_of(kinds):
    """All tuples of some ordinal kinds, in order."""
    found = [()]
    for kind in kinds:
        found = [(*before, value) for before in found for value in kind.values()]
    return found


class Writer:
    """Writes values in their canonical texts."""

    def value(self, kind, value):
        if value == UNSEEN:
            return UNSEEN
        if is_group(kind):
            return "(" + ", ".join(map(self.value, part_kinds(kind), value)) + ")"
        if value is None:
            return "_"
        if isinstance(kind, SetOf):
            return "[" + ", ".join(self.ordinal(kind.base, member) for member in self.members(value)) + "]"
        return self.ordinal(kind, value)

    def members(self, value):
        return sorted(value)

    def ordinal(self, kind, value):
        if kind.host.names:
            return kind.host.names[value]
        return self.character(value) if kind.host is CHAR.host else self.integer(value)

    def integer(self, value):
        return str(value)

    def character(self, value):
        if value == ord("'"):
            return "''''"
        return f"'{chr(value)}'" if 32 <= value <= 126 else f"chr({value})"


WRITER = Writer()
