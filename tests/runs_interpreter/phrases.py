"""Draws expressions of a kind, and places of variables, from what a region has in force."""

from .values import (
    BOOLEAN, CHAR, INTEGER, ArrayOf, Fields, Ordinal, SetOf, is_group,
)


class NoPhrase(Exception):
    """Nothing of the kind can be said here."""


class Phrases:
    """Draws expressions."""

    def __init__(self, draw, region):
        self.draw, self.region = draw, region
        # How many subscripts are open.
        self.nested = 0

    def often(self, chance=0.5):
        return self.draw.random() < chance

    def choice(self, options):
        options = list(options)
        if not options:
            raise NoPhrase
        return self.draw.choice(options)

    def first_of(self, *forms):
        """What the first of some forms, in a random order, yields without failing."""
        forms = list(forms)
        self.draw.shuffle(forms)
        for form in forms:
            try:
                return form()
            except NoPhrase:
                continue
        raise NoPhrase

    # Constants.

    def literal(self, kind):
        """A constant of an ordinal kind."""
        return self.literal_of(kind, self.draw.randint(max(kind.low, -20), min(kind.high, 127)))

    def literal_of(self, kind, value):
        if kind.host is INTEGER.host:
            text = str(value).replace("-", "- ")
            return text if value >= 0 else f"( {text} )"
        if kind.host is CHAR.host:
            return self.character(value)
        return self.named(kind.host, kind.host.names[value])

    def character(self, code):
        if not 32 <= code <= 126:
            return self.applied("chr", str(code))
        return "''''" if code == 39 else f"'{chr(code)}'"

    def named(self, host, name):
        """The name of a value of a host, where it means that here."""
        item = self.region.items().get(name)
        if not item or item.sort != "constant" or item.kind.host is not host:
            raise NoPhrase
        return name

    # Places.

    def variables(self, is_written=False):
        found = self.region.of_sort("variable")
        if is_written:
            return [item for item in found if not item.is_fixed]
        return [item for item in found if item.is_known or self.often(0.02)]

    def place(self, test, is_written=False):
        """(text, kind) of a variable, or a part of one, whose kind passes a test.

        Where it is not written, it may be a part of the result of a function.
        """
        candidates = self.variables(is_written)
        if not is_written and self.often(0.3):
            candidates = self.functions_of_parts() or candidates
        exports = self.exports()
        for _ in range(12):
            if exports and self.often(0.2 if candidates else 1):
                text, kind = self.export(*self.choice(exports))
            else:
                item = self.choice(candidates)
                text, kind = item.name, item.kind
            while not test(kind) or is_group(kind) and self.often(0.2):
                if not is_group(kind):
                    break
                text, kind = self.part(text, kind)
            if test(kind):
                return text, kind
        raise NoPhrase

    def functions_of_parts(self):
        """The functions without formals whose results have parts."""
        return [item for item in self.region.of_sort("function") if not item.formals and is_group(item.kind)]

    def part(self, text, kind):
        if isinstance(kind, Fields):
            name, own = self.choice(kind.fields)
            return f"{text} . {name}", own
        subscripts, of = [], kind
        while isinstance(of, ArrayOf) and (not subscripts or self.often(0.6)):
            subscripts.append(self.subscript(of.index))
            of = of.of
        return f"{text} [ {' , '.join(subscripts)} ]", of

    def subscript(self, kind):
        """A subscript, mostly one within its type."""
        if self.nested or self.often(0.6):
            return self.literal(kind)
        self.nested += 1
        try:
            return self.within(kind, 1)
        finally:
            self.nested -= 1

    def exports(self):
        """(module variable or name of an `all`, (name, kind)) of each exported variable of a child."""
        return [(item, own) for item in self.modules() for own in item.header.exports]

    def modules(self):
        return [item for item in self.region.of_sort("module", "child") if item.is_known or self.often(0.03)]

    def export(self, item, own):
        return f"{self.at(item)} . {own[0]}", own[1]

    def at(self, item):
        """The name of a point or module variable, with subscripts."""
        if not item.dims:
            return item.name
        return f"{item.name} [ {' , '.join(self.subscript(kind) for kind in item.dims)} ]"

    # Expressions.

    def value(self, kind, depth=2):
        """An expression that can be assigned to a variable of a kind."""
        if isinstance(kind, SetOf):
            return self.of_set(kind.base.host, kind.base, depth)
        if is_group(kind):
            return self.of_group(kind, depth)
        return self.within(kind, depth)

    def leaves(self, text, kind):
        """(text, kind) of each scalar of a variable."""
        if isinstance(kind, ArrayOf):
            parts = [(f"{text} [ {self.literal_of(kind.index, value)} ]", kind.of) for value in kind.index.values()]
        elif isinstance(kind, Fields):
            parts = [(f"{text} . {name}", own) for name, own in kind.fields]
        else:
            return [(text, kind)]
        return [leaf for part in parts for leaf in self.leaves(*part)]

    def known(self, kind):
        """A scalar that asks for no variable."""
        if not isinstance(kind, SetOf):
            return self.literal(kind)
        members = [self.literal(kind.base) for _ in range(self.draw.choice([0, 1, 2]))]
        return f"[ {' , '.join(members)} ]"

    def within(self, kind, depth):
        """An ordinal that is mostly within its range."""
        is_whole = (kind.low, kind.high) == (kind.host.low, kind.host.high)
        if is_whole or self.often(0.04):
            return self.ordinal(kind.host, depth)
        if kind.host is INTEGER.host and kind.low >= 0 and self.often(0.4):
            text = f"( {self.ordinal(kind.host, depth)} ) mod {kind.high - kind.low + 1}"
            return text if kind.low == 0 else f"( {text} ) + {kind.low}"

        def alike():
            return self.place(lambda own: own == kind)[0]

        return self.first_of(lambda: self.literal(kind), lambda: self.literal(kind), alike)

    def ordinal(self, host, depth):
        """An ordinal of a host."""
        if host is INTEGER.host:
            return self.integer(depth)
        if host is BOOLEAN.host:
            return self.boolean(depth)
        kind = Ordinal(host, host.low, host.high)
        forms = [lambda: self.literal(kind), lambda: self.variable(host), lambda: self.variable(host)]
        if depth > 0:
            forms.append(lambda: self.applied(self.choice(["succ", "pred"]), self.ordinal(host, depth - 1)))
            forms.append(lambda: self.call(host, depth - 1))
            if host is CHAR.host:
                forms.append(lambda: self.applied("chr", self.integer(depth - 1)))
        return self.first_of(*forms)

    def variable(self, host):
        return self.place(lambda kind: isinstance(kind, Ordinal) and kind.host is host)[0]

    def applied(self, name, argument):
        if not self.region.is_seen(name, "predeclared"):
            raise NoPhrase
        return f"{name} ( {argument} )"

    def call(self, host, depth):
        """A call of a function whose result has a host."""
        functions = [
            item for item in self.region.of_sort("function")
            if isinstance(item.kind, Ordinal) and item.kind.host is host
        ]
        return self.called(self.choice(functions), depth)

    def called(self, item, depth):
        if not item.formals:
            return item.name
        arguments = " , ".join(self.value(kind, depth) for _, kind in item.formals)
        return f"{item.name} ( {arguments} )"

    def integer(self, depth):
        host, number = INTEGER.host, str(self.draw.randint(0, 9))
        simple = [lambda: number, lambda: self.variable(host), lambda: self.variable(host), self.constant]
        if depth <= 0:
            return self.first_of(*simple)

        def operand():
            return self.integer(depth - 1)

        def sum_of():
            return f"{operand()} {self.choice(['+', '-'])} {operand()}"

        def product():
            operator = self.choice(["*", "div", "mod", "mod"])
            is_small = operator in ("div", "mod") and self.often(0.8)
            right = str(self.draw.randint(1, 5)) if is_small else f"( {operand()} )"
            return f"( {operand()} ) {operator} {right}"

        def negative():
            return f"- ( {operand()} )"

        def of_ordinal():
            host = self.choice(self.hosts())
            return self.applied("ord", self.ordinal(host, depth - 1))

        def function():
            return self.applied(self.choice(["abs", "sqr", "succ", "pred"]), operand())

        return self.first_of(
            *simple, sum_of, sum_of, product, lambda: f"( {negative()} )", of_ordinal, function,
            lambda: self.call(host, depth - 1), lambda: self.call(host, depth - 1),
        )

    def constant(self):
        found = [item.name for item in self.region.of_sort("constant") if item.kind.host is INTEGER.host]
        return self.choice(found)

    def hosts(self):
        """The hosts of the types that are in force."""
        kinds = [item.kind for item in self.region.of_sort("type")]
        return [kind.host for kind in kinds if isinstance(kind, Ordinal)]

    def boolean(self, depth):
        host = BOOLEAN.host
        simple = [lambda: self.literal(BOOLEAN), lambda: self.variable(host)]
        if depth <= 0:
            return self.first_of(*simple)

        def compared():
            own = self.choice([INTEGER.host, INTEGER.host, *self.hosts()])
            operator = self.choice(["=", "<>", "<", "<=", ">", ">="])
            return f"( {self.ordinal(own, depth - 1)} {operator} {self.ordinal(own, depth - 1)} )"

        def of_sets():
            own = self.choice(self.set_bases())
            operator = self.choice(["=", "<>", "<=", ">="])
            return f"( {self.of_set(own.host, own, depth - 1)} {operator} {self.of_set(own.host, own, depth - 1)} )"

        def is_member():
            own = self.choice(self.set_bases())
            return f"( {self.ordinal(own.host, depth - 1)} in {self.of_set(own.host, own, depth - 1)} )"

        def joined():
            return f"( {self.boolean(depth - 1)} {self.choice(['and', 'or'])} {self.boolean(depth - 1)} )"

        return self.first_of(
            *simple, compared, compared, compared, of_sets, is_member, joined,
            lambda: f"not {self.boolean(depth - 1)}", lambda: self.applied("odd", self.integer(depth - 1)),
            lambda: self.call(host, depth - 1),
        )

    def set_bases(self):
        kinds = [item.kind for item in self.region.of_sort("type")]
        return [kind.base for kind in kinds if isinstance(kind, SetOf)]

    def of_set(self, host, base, depth):
        def constructed():
            members = []
            for _ in range(self.draw.choice([0, 1, 1, 2, 3])):
                member = self.within(base, depth - 1)
                members.append(f"{member} .. {self.within(base, depth - 1)}" if self.often(0.3) else member)
            return f"[ {' , '.join(members)} ]"

        def variable():
            return self.place(lambda kind: isinstance(kind, SetOf) and kind.base.host is host)[0]

        def operated():
            return f"( {self.of_set(host, base, depth - 1)} {self.choice('+-*')} {self.of_set(host, base, depth - 1)} )"

        return self.first_of(constructed, variable, variable, *([operated] if depth > 0 else []))

    def of_group(self, kind, depth):
        def function():
            found = [item for item in self.region.of_sort("function") if item.kind == kind]
            return self.called(self.choice(found), depth - 1)

        def variable():
            return self.place(lambda own: own == kind)[0]

        return self.first_of(variable, variable, *([function] if depth > 0 else []))
