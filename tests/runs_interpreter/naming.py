"""What names mean: what each declaration has, and the scopes."""

import dataclasses

from .values import BOOLEAN, CHAR, INTEGER, MOST, ArrayOf, Fields, Ordinal, SetOf, enumeration


@dataclasses.dataclass
class Constant:
    kind: Ordinal
    ordinal: int


@dataclasses.dataclass
class TypeName:
    kind: object


@dataclasses.dataclass(eq=False)
class Variable:
    """A variable of an instance, or one of a frame, which may stand for a place."""

    name: str
    kind: object
    is_of_row: bool = False
    is_by_place: bool = False


@dataclasses.dataclass(eq=False)
class AllChild:
    """The name of an `all` over a header."""

    header: object


@dataclasses.dataclass(eq=False)
class ModuleVariable:
    name: str
    dims: list
    header: object


@dataclasses.dataclass(eq=False)
class Interaction:
    name: str
    number: int
    params: list
    senders: set


@dataclasses.dataclass(eq=False)
class Channel:
    roles: list
    interactions: list

    def of_name(self, name):
        return next(each for each in self.interactions if each.name == name)


@dataclasses.dataclass(eq=False)
class Point:
    name: str
    dims: list
    channel: Channel
    role: str
    is_common: bool
    is_external: bool

    def sends(self, interaction):
        return self.role in interaction.senders

    def receives(self, interaction):
        return any(role != self.role for role in interaction.senders)


@dataclasses.dataclass(eq=False)
class Header:
    name: str
    params: list
    points: list
    exports: list


@dataclasses.dataclass(eq=False)
class State:
    name: str


@dataclasses.dataclass(eq=False)
class StateSet:
    states: list


@dataclasses.dataclass(eq=False)
class Predeclared:
    name: str


PREDECLARED = {
    "integer": TypeName(INTEGER),
    "boolean": TypeName(BOOLEAN),
    "char": TypeName(CHAR),
    "false": Constant(BOOLEAN, 0),
    "true": Constant(BOOLEAN, 1),
    "maxint": Constant(INTEGER, MOST),
}
PREDECLARED.update({name: Predeclared(name) for name in "ord chr succ pred abs odd sqr".split()})


class Scope:
    """The names that a region has in force."""

    def __init__(self, outer):
        self.outer, self.names = outer, {}

    def put(self, token, declared):
        self.names[token if isinstance(token, str) else token.text] = declared

    def meant(self, name):
        scope = self
        while scope:
            if name in scope.names:
                return scope.names[name]
            scope = scope.outer
        return PREDECLARED[name]


class Declarations:
    """Reads constants, types, variables and channels from a tree that breaks no rule."""

    def __init__(self):
        self.scope = Scope(None)

    def meant(self, token):
        return self.scope.meant(token.text)

    def within(self, scope, work, *given):
        """What some work yields in another scope."""
        outer, self.scope = self.scope, scope
        result = work(*given)
        self.scope = outer
        return result

    def constant(self, constant):
        sign, token = constant
        if token.kind == "character":
            return Constant(CHAR, ord(token.text[1]))
        if token.kind == "number":
            found = Constant(INTEGER, int(token.text))
        else:
            found = self.meant(token)
        is_minus = sign and sign.text == "-"
        return Constant(found.kind, -found.ordinal if is_minus else found.ordinal)

    def kind(self, text):
        return getattr(self, "kind_" + text[0])(*text[1:])

    def kind_named(self, name):
        return self.meant(name).kind

    def kind_range(self, first, low, high):
        low, high = self.constant(low), self.constant(high)
        return Ordinal(low.kind.host, low.ordinal, high.ordinal)

    def kind_enumeration(self, names):
        kind = enumeration([name.text for name in names])
        for ordinal, name in enumerate(names):
            self.scope.put(name, Constant(kind, ordinal))
        return kind

    def kind_set(self, first, of):
        return SetOf(self.kind(of))

    def kind_array(self, first, indices, of):
        indices = [self.kind(index) for index in indices]
        kind = self.kind(of)
        for index in reversed(indices):
            kind = ArrayOf(index, kind)
        return kind

    def kind_record(self, first, parts):
        return Fields(tuple(self.named_kinds(parts)))

    def named_kinds(self, parts):
        """(name, kind) of each name of some parts, each of which has names and a type."""
        found = []
        for names, text in parts:
            kind = self.kind(text)
            found += [(name.text, kind) for name in names]
        return found

    def sections(self, sections, is_of_row=False):
        """The variables that sections of constants, types and variables declare."""
        found = []
        for form, defs in sections:
            for names, of in defs:
                if form == "consts":
                    self.scope.put(names, self.constant(of))
                elif form == "types":
                    self.scope.put(names, TypeName(self.kind(of)))
                else:
                    found += self.variables(names, of, is_of_row)
        return found

    def variables(self, names, text, is_of_row):
        kind = self.kind(text)
        found = [Variable(name.text, kind, is_of_row) for name in names]
        for variable in found:
            self.scope.put(variable.name, variable)
        return found

    def channel(self, name, roles, by):
        channel = Channel([role.text for role in roles], [])
        for named, interactions in by:
            for own, params in interactions:
                number, senders = len(channel.interactions), {role.text for role in named}
                params = self.named_kinds(params)
                channel.interactions.append(Interaction(own.text, number, params, senders))
        self.scope.put(name, channel)

    def dims(self, dims):
        return [self.kind(each) for each in dims[1]] if dims else []
