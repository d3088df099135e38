"""The rules on constants, types, channels, headers and the variables and points that they describe."""

from .kinds import (
    CHAR, ELEMENTS, INTEGER, LEVELS, MEMBERS, MOST, SCALARS, Group, Ordinal, Set, Value, is_integer, is_ordinal, levels,
    scalars,
)
from .scopes import Declared, Scopes


class Declarations(Scopes):
    """Finds the pairs of the rules on declarations."""

    def __init__(self):
        super().__init__()
        # The scalars of the variables that the sections of a body, routine or block have so far.
        self.count = 0

    def sections(self, sections):
        for section in sections:
            getattr(self, section[0])(section[1])

    def consts(self, defs):
        for name, constant in defs:
            self.declare(name)
            self.put(name, Declared("constant", value=self.constant(constant)))

    def types(self, defs):
        for name, text in defs:
            self.declare(name)
            self.put(name, Declared("type", kind=self.kind(text)))

    def vars(self, defs):
        for names, text in defs:
            first = [self.declare(name) for name in names]
            kind = self.kind(text)
            for name in names:
                self.put(name, Declared("variable", kind=kind))
            self.count += scalars(kind) * sum(first) if kind else 0

    def constant(self, constant):
        """The value of a constant, or None where a rule is broken."""
        sign, token = constant
        minus = -1 if sign and sign.text == "-" else 1
        if token.kind == "character":
            return Value(CHAR, ord(token.text[1]))
        if token.kind == "number":
            if int(token.text) > MOST:
                self.broken(token, 5)
                return None
            return Value(INTEGER, minus * int(token.text))
        declared = self.used(token, "constant")
        if not declared or not declared.value:
            return None
        if sign and not is_integer(declared.value.kind):
            self.broken(token, 4)
            return None
        return Value(declared.value.kind, minus * declared.value.ordinal)

    def kind(self, text):
        """The kind of a type, or None where a rule is broken."""
        return getattr(self, "kind_" + text[0])(*text[1:])

    def kind_named(self, name):
        declared = self.used(name, "type")
        return declared.kind if declared else None

    def kind_range(self, first, low, high):
        low, high = self.constant(low), self.constant(high)
        if not low or not high:
            return None
        if low.kind != high.kind or low.ordinal > high.ordinal:
            self.broken(first, 6)
            return None
        return Ordinal(low.kind.host, low.ordinal, high.ordinal, is_range=True)

    def kind_enumeration(self, names):
        kind = Ordinal(object(), 0, len(names) - 1)
        # A doubled name leaves it without a kind, and its constants without a value.
        is_good = all([self.declare(name) for name in names])
        for ordinal, name in enumerate(names):
            self.put(name, Declared("constant", value=Value(kind, ordinal) if is_good else None))
        return kind if is_good else None

    def kind_set(self, first, of):
        base = self.ordinal(of)
        return self.within(first, base and Set(base), base and base.width <= MEMBERS)

    def kind_array(self, first, indices, of):
        indices = [self.ordinal(each) for each in indices]
        kind = self.kind(of)
        for index in reversed(indices):
            if not index or not kind:
                return None
            kind = self.sized(first, Group(index, (kind,), levels(kind) + 1, scalars(kind) * index.width))
        return kind

    def kind_record(self, first, parts):
        names, fields, is_new = set(), [], True
        for own, inner in parts:
            is_new = all([self.note(names, field) for field in own]) and is_new
            kind = self.kind(inner)
            fields += [(field.text, kind) for field in own]
        kinds = [kind for _, kind in fields]
        if None in kinds or not is_new:
            return None
        return self.sized(first, Group(None, tuple(fields), max(map(levels, kinds)) + 1, sum(map(scalars, kinds))))

    def sized(self, first, group):
        return self.within(first, group, group.levels <= LEVELS and group.scalars <= SCALARS)

    def within(self, first, kind, is_within):
        if kind is not None and not is_within:
            self.broken(first, 7)
            return None
        return kind

    def ordinal(self, text):
        """The kind of a type that has to be ordinal."""
        kind = self.kind(text)
        if kind is not None and not is_ordinal(kind):
            self.broken(text[1], 8)
            return None
        return kind

    def dims(self, dims):
        """The kinds of the dimensions."""
        if not dims:
            return []
        array, types = dims
        kinds = [self.ordinal(each) for each in types]
        if None not in kinds:
            count = 1
            for kind in kinds:
                count *= kind.width
            if count > ELEMENTS:
                self.broken(array, 7)
        return kinds

    def params(self, names, parts, wrap):
        """Declares parameters in a set of names: a list of names with what `wrap` makes of their kinds."""
        own = []
        for group, text in parts:
            for name in group:
                self.note(names, name)
            kind = self.kind(text)
            own += [(name.text, wrap(kind)) for name in group]
        return own

    def channel(self, name, roles, by):
        self.declare(name)
        names = set()
        for role in roles:
            self.note(names, role)
        sorts = {role.text: "role" for role in roles}
        for _, interactions in by:
            for interaction, _ in interactions:
                sorts.setdefault(interaction.text, "interaction")
        senders, params = {}, {}
        for named, interactions in by:
            for role in named:
                self.role(sorts, role)
            for interaction, parts in interactions:
                self.note(names, interaction)
                own = self.params(set(), parts, lambda kind: kind)
                params.setdefault(interaction.text, own)
                senders.setdefault(interaction.text, {role.text for role in named})
        role_names = [role.text for role in roles]
        self.put(name, Declared("channel", sorts=sorts, senders=senders, params=params, roles=role_names))

    def role(self, sorts, token):
        sort = sorts.get(token.text)
        if sort != "role":
            self.broken(token, 4 if sort else 1)

    def header(self, name, is_system, params, sections):
        self.declare(name)
        names = set()
        own = self.params(names, params, lambda kind: Declared("variable", kind=kind))
        count = len(own)
        exports = set()
        for form, items in sections:
            for item in items:
                if form == "exports":
                    part = self.params(names, [item], lambda kind: Declared("variable", kind=kind))
                    exports |= {each for each, _ in part}
                    own += part
                    continue
                for each in item[0]:
                    self.note(names, each)
                declared = self.point(item, is_external=True)
                own += [(each.text, declared) for each in item[0]]
        table = {}
        for each, declared in own:
            table.setdefault(each, declared)
        formals = [declared.kind for _, declared in own[:count]]
        self.put(name, Declared("header", is_system=is_system, own=table, exports=exports, formals=formals))

    def point(self, point, is_external=False):
        _, dims, channel, role = point
        kinds = self.dims(dims)
        declared = self.used(channel, "channel")
        if declared:
            self.role(declared.sorts, role)
        return Declared("point", channel=declared, role=role.text, dims=kinds, is_external=is_external)

    def points(self, points):
        for point in points:
            for name in point[0]:
                self.declare(name)
            declared = self.point(point)
            for name in point[0]:
                self.put(name, declared)

    def modvars(self, modvars, is_system):
        for names, dims, header in modvars:
            for name in names:
                self.declare(name)
            kinds = self.dims(dims)
            declared = self.used(header, "header")
            if declared and declared.is_system != is_system:
                self.broken(header, 15)
            for name in names:
                self.put(name, Declared("modvar", header=declared, dims=kinds))

    def states(self, names):
        for name in names:
            self.declare(name)
            self.put(name, Declared("state"))

    def statesets(self, sets):
        for name, states in sets:
            self.declare(name)
            for state in states:
                self.used(state, "state")
            self.put(name, Declared("stateset"))
