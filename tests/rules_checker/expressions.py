"""The rules on expressions. What yields a kind yields None where a rule is broken in it."""

from .declarations import Declarations
from .kinds import (
    BOOLEAN, CHAR, EMPTY, INTEGER, MOST, Group, Set, can_be_assigned, have_one_host, is_boolean, is_integer,
    is_ordinal, is_set,
)

# Of each predeclared function: what its argument has to be, and what it yields.
FUNCTIONS = {
    "ord": (is_ordinal, lambda kind: INTEGER),
    "chr": (is_integer, lambda kind: CHAR),
    "succ": (is_ordinal, lambda kind: kind),
    "pred": (is_ordinal, lambda kind: kind),
    "abs": (is_integer, lambda kind: INTEGER),
    "sqr": (is_integer, lambda kind: INTEGER),
    "odd": (is_integer, lambda kind: BOOLEAN),
}


def is_ordinal_or_set(kind):
    return is_ordinal(kind) or is_set(kind)


def is_integer_or_set(kind):
    return is_integer(kind) or is_set(kind)


# Of each operator: what its left operand has to be. The right one has to be of the same host.
LEFT = {"=": is_ordinal_or_set, "<>": is_ordinal_or_set, "<=": is_ordinal_or_set, ">=": is_ordinal_or_set}
LEFT.update({"<": is_ordinal, ">": is_ordinal, "in": is_ordinal, "div": is_integer, "mod": is_integer})
LEFT.update({"+": is_integer_or_set, "-": is_integer_or_set, "*": is_integer_or_set})
LEFT.update({"or": is_boolean, "and": is_boolean})


def first_of(node):
    """The first token of an expression or of a part of one."""
    return node[1]


class Expressions(Declarations):
    """Finds the pairs of the rules on expressions."""

    def expr(self, node):
        _, _, left, relation = node
        kind = self.sum(left)
        if not relation:
            return kind
        operator, right = relation
        fits = self.operands(operator.text, first_of(node), kind, first_of(right), self.sum(right))
        return BOOLEAN if fits else None

    def sum(self, node):
        _, first, sign, term, rest = node
        kind = self.product(term)
        if sign:
            kind = INTEGER if self.has(first_of(term), kind, is_integer) else None
        return self.steps(first, kind, rest, self.product)

    def product(self, node):
        _, first, factor, rest = node
        return self.steps(first, self.factor(factor), rest, self.factor)

    def steps(self, first, kind, rest, operand):
        """The kind of a sum or product that begins at `first`."""
        for operator, right in rest:
            other = operand(right)
            fits = self.operands(operator.text, first, kind, first_of(right), other)
            kind = self.yielded(kind, other) if fits else None
        return kind

    @staticmethod
    def yielded(kind, other):
        if is_set(kind):
            return other if kind == EMPTY else kind
        return INTEGER if is_integer(kind) else BOOLEAN

    def operands(self, operator, first, left, second, right):
        """Whether both operands are of the kinds that the operator takes."""
        if not self.has(first, left, LEFT[operator]):
            return False
        if operator == "in":
            return self.has(second, right, lambda kind: is_set(kind) and have_one_host(kind, Set(left)))
        return self.has(second, right, lambda kind: have_one_host(left, kind))

    def has(self, token, kind, test):
        """Whether what begins at a token has a kind that passes a test."""
        if kind is not None and not test(kind):
            self.broken(token, 8)
            return False
        return kind is not None

    def condition(self, node):
        self.has(first_of(node), self.expr(node), is_boolean)

    def factor(self, node):
        return getattr(self, "factor_" + node[0])(*node[1:])

    def factor_number(self, token):
        if int(token.text) > MOST:
            self.broken(token, 5)
            return None
        return INTEGER

    def factor_character(self, token):
        return CHAR

    def factor_group(self, token, of):
        return self.expr(of)

    def factor_not(self, token, operand):
        return BOOLEAN if self.has(first_of(operand), self.factor(operand), is_boolean) else None

    def factor_members(self, token, members):
        kinds = []
        for low, high in members:
            for bound in (low, high) if high else (low,):
                kind = self.expr(bound)
                if kinds and kinds[0] is None:
                    continue
                first = kinds[0] if kinds else kind
                fits = self.has(first_of(bound), kind, lambda kind: is_ordinal(kind) and have_one_host(kind, first))
                kinds.append(kind if fits else None)
        if None in kinds:
            return None
        return Set(kinds[0]) if kinds else EMPTY

    def factor_apply(self, name, arguments):
        """A function with arguments."""
        function = self.used(name, "function")
        if function and not function.region:
            return self.predeclared(name, arguments)
        if not function:
            self.exprs(arguments)
            return None
        fits = self.arguments(name, arguments, function.formals)
        return function.kind if fits else None

    def predeclared(self, name, arguments):
        kinds = self.exprs(arguments)
        if len(arguments) != 1:
            self.broken(name, 9)
            return None
        takes, yields = FUNCTIONS[name.text]
        return yields(kinds[0]) if self.has(first_of(arguments[0]), kinds[0], takes) else None

    def exprs(self, nodes):
        return [self.expr(node) for node in nodes]

    def arguments(self, name, arguments, formals):
        """Value arguments, for formals of these kinds: whether they fit."""
        kinds = self.exprs(arguments)
        if len(arguments) != len(formals):
            self.broken(name, 9)
            return False
        return all([self.fits(node, kind, formal) for node, kind, formal in zip(arguments, kinds, formals)])

    def fits(self, node, kind, target):
        """Whether a value can be assigned to a variable of a kind."""
        if target is None:
            return kind is not None
        return self.has(first_of(node), kind, lambda kind: can_be_assigned(kind, target))

    def subscripts(self, nodes, kinds):
        """Whether subscripts have the hosts of these kinds. There may be more or fewer."""
        own = self.exprs(nodes)
        return all([self.fits_index(*each) for each in zip(nodes, own, kinds)])

    def fits_index(self, node, kind, index):
        """Whether a subscript has the host of its index."""
        if index is None:
            return False
        return self.has(first_of(node), kind, lambda kind: is_ordinal(kind) and have_one_host(kind, index))

    def factor_variable(self, name, path):
        """A name, with its selectors and without arguments."""
        declared = self.used(name, "constant", "variable", "modvar", "function")
        if not declared:
            self.path(path)
            return None
        if declared.sort == "variable":
            return self.selected(name, declared.kind, path)
        if declared.sort == "modvar":
            return self.of_module(name, declared, path)
        if declared.sort == "function":
            if not declared.region or declared.formals:
                self.broken(name, 9)
                self.path(path)
                return None
            return self.selected(name, declared.kind, path)
        kind = declared.value and declared.value.kind
        if path and kind:
            self.broken(name, 8)
        self.path(path)
        return None if path else kind

    def path(self, path):
        """Selectors by themselves."""
        for form, of in path:
            if form == "index":
                self.exprs(of)

    def selected(self, name, kind, path):
        """The kind of what selectors select of a variable, or of the result of a function."""
        for form, of in path:
            kind = self.element(name, kind, of) if form == "index" else self.field(name, kind, of)
        return kind

    def element(self, name, kind, nodes):
        for node in nodes:
            subscript = self.expr(node)
            if kind is None:
                continue
            if not isinstance(kind, Group) or not kind.is_array:
                self.broken(name, 8)
                kind = None
                continue
            kind = kind.parts[0] if self.fits_index(node, subscript, kind.index) else None
        return kind

    def field(self, name, kind, field):
        if kind is None:
            return None
        if not isinstance(kind, Group) or kind.is_array:
            self.broken(name, 8)
            return None
        found = dict(kind.parts).get(field.text)
        if not found:
            self.broken(field, 1)
        return found

    def of_module(self, name, module, path):
        """The kind of an exported variable."""
        path = self.after_subscripts(name, module, path)
        if path is None:
            return None
        if not path:
            self.broken(name, 8)
            return None
        return self.exported(name, module, path)

    def after_subscripts(self, name, module, path):
        """What stands after the subscripts of a module variable, where these are right."""
        count = next((at for at, (form, _) in enumerate(path) if form != "index"), len(path))
        given = path[0][1] if count else []
        if count > 1 or len(given) != len(module.dims):
            self.broken(name, 9)
            self.path(path)
            return None
        if not self.subscripts(given, module.dims):
            self.path(path[count:])
            return None
        return path[count:]

    def exported(self, name, module, path):
        """The kind of an exported variable, with selectors of its own, and the subscripts seen already."""
        field, header = path[0][1], module.header
        if header is None:
            self.path(path)
            return None
        declared = header.own.get(field.text)
        if not header.exports:
            self.broken(name, 8)
        elif not declared:
            self.broken(field, 1)
        elif field.text not in header.exports:
            self.broken(field, 4)
        else:
            return self.selected(name, declared.kind, path[1:])
        self.path(path[1:])
        return None
