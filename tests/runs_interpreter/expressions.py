"""Expressions. Each becomes its kind and a function of a run and a frame, which yields its value."""

from .frames import Frame, Place
from .naming import AllChild, Constant, Declarations, ModuleVariable, Predeclared, Variable
from .values import BOOLEAN, CHAR, INTEGER, MEMBERS, MOST, Fault, SetOf, fitted, undefined, whole


def in_range(value, kind=INTEGER):
    if not kind.low <= value <= kind.high:
        raise Fault("range")
    return value


def divided(left, right):
    if right == 0:
        raise Fault("divide")
    quotient = abs(left) // abs(right)
    return quotient if (left < 0) == (right < 0) else -quotient


def modulo(left, right):
    if right < 1:
        raise Fault("divide")
    return left % right


def united(left, right):
    union = left | right
    if len(union) > MEMBERS:
        raise Fault("range")
    return union


OF_INTEGERS = {
    "+": lambda left, right: in_range(left + right),
    "-": lambda left, right: in_range(left - right),
    "*": lambda left, right: in_range(left * right),
    "div": divided,
    "mod": modulo,
}
OF_SETS = {"+": united, "-": lambda left, right: left - right, "*": lambda left, right: left & right}
RELATIONS = {
    "=": lambda left, right: left == right,
    "<>": lambda left, right: left != right,
    "<": lambda left, right: left < right,
    "<=": lambda left, right: left <= right,
    ">": lambda left, right: left > right,
    ">=": lambda left, right: left >= right,
    "in": lambda left, right: left in right,
}


def stepped(by):
    """`succ` or `pred`, which go by the host of their argument."""

    def bind(kind):
        host = whole(kind.host)
        return host, lambda value: in_range(value + by, host)

    return bind


# Of each predeclared function: what it yields, of the kind of its argument.
FUNCTIONS = {
    "ord": lambda kind: (INTEGER, lambda value: value),
    "chr": lambda kind: (CHAR, lambda value: in_range(value, CHAR)),
    "succ": stepped(1),
    "pred": stepped(-1),
    "abs": lambda kind: (INTEGER, abs),
    "sqr": lambda kind: (INTEGER, lambda value: in_range(value * value)),
    "odd": lambda kind: (BOOLEAN, lambda value: value % 2),
}


def members_of(parts):
    """The set of some pairs of least and greatest members."""
    ranges = sorted((low, high) for low, high in parts if low <= high)
    count, end = 0, -MOST - 1
    for low, high in ranges:
        count += max(0, high - max(low, end + 1) + 1)
        end = max(end, high)
    if count > MEMBERS:
        raise Fault("range")
    return frozenset(value for low, high in ranges for value in range(low, high + 1))


class Expressions(Declarations):
    """Makes functions of expressions."""

    def expr(self, node):
        _, _, left, relation = node
        kind, first = self.sum(left)
        if not relation:
            return kind, first
        operator, right = relation
        apply, (_, second) = RELATIONS[operator.text], self.sum(right)

        def evaluate(run, frame):
            value = first(run, frame)
            return int(apply(value, second(run, frame)))

        return BOOLEAN, evaluate

    def value(self, node):
        """The function alone."""
        return self.expr(node)[1]

    def exprs(self, nodes):
        return [self.value(node) for node in nodes]

    def sum(self, node):
        _, _, sign, term, rest = node
        kind, first = self.product(term)
        if sign:
            kind, first = INTEGER, self.signed(sign.text, first)
        return self.steps(kind, first, rest, self.product)

    @staticmethod
    def signed(sign, operand):
        if sign == "+":
            return operand
        return lambda run, frame: -operand(run, frame)

    def product(self, node):
        _, _, factor, rest = node
        kind, first = self.factor(factor)
        return self.steps(kind, first, rest, self.factor)

    def steps(self, kind, first, rest, operand):
        for operator, right in rest:
            other_kind, second = operand(right)
            if operator.text in ("and", "or"):
                kind, first = BOOLEAN, self.early(operator.text == "or", first, second)
            elif isinstance(kind, SetOf):
                kind = kind if kind.base else other_kind
                first = self.applied(OF_SETS[operator.text], first, second)
            else:
                kind = INTEGER
                first = self.applied(OF_INTEGERS[operator.text], first, second)
        return kind, first

    @staticmethod
    def early(stops_at, first, second):
        """`and` or `or`, which looks at its right side only where the left one does not decide."""

        def evaluate(run, frame):
            value = first(run, frame)
            return value if bool(value) == stops_at else second(run, frame)

        return evaluate

    @staticmethod
    def applied(apply, first, second):
        def evaluate(run, frame):
            left = first(run, frame)
            return apply(left, second(run, frame))

        return evaluate

    def factor(self, node):
        return getattr(self, "factor_" + node[0])(*node[1:])

    def factor_number(self, token):
        number = int(token.text)
        return INTEGER, lambda run, frame: number

    def factor_character(self, token):
        code = ord(token.text[1])
        return CHAR, lambda run, frame: code

    def factor_group(self, token, of):
        return self.expr(of)

    def factor_not(self, token, operand):
        _, value = self.factor(operand)
        return BOOLEAN, lambda run, frame: 1 - value(run, frame)

    def factor_members(self, token, members):
        base, bounds = None, []
        for low, high in members:
            kind, first = self.expr(low)
            base = base or kind
            bounds.append((first, self.value(high) if high else None))

        def evaluate(run, frame):
            parts = []
            for low, high in bounds:
                first = low(run, frame)
                parts.append((first, high(run, frame) if high else first))
            return members_of(parts)

        return SetOf(base), evaluate

    def factor_apply(self, name, arguments):
        function = self.meant(name)
        if not isinstance(function, Predeclared):
            return function.kind, self.called(function, self.exprs(arguments))
        kind, value = self.expr(arguments[0])
        kind, apply = FUNCTIONS[name.text](kind)
        return kind, lambda run, frame: apply(value(run, frame))

    def factor_variable(self, name, path):
        declared = self.meant(name)
        if isinstance(declared, Constant):
            ordinal = declared.ordinal
            return declared.kind, lambda run, frame: ordinal
        if isinstance(declared, (Variable, ModuleVariable, AllChild)):
            kind, place = self.place(declared, path)
            return kind, self.reading(kind, place)
        return self.part_of_result(declared, path)

    # Functions.

    def part_of_result(self, routine, path):
        """A call of a function without formals, and then what selectors select of its result."""
        call = self.called(routine, [])
        kind, find = self.selected(routine.kind, lambda run, frame: Place(None, None, ()), path)

        def evaluate(run, frame):
            value = call(run, frame)
            for at in find(run, frame).path:
                value = value[at]
            if value is None:
                raise Fault("undefined")
            return value

        return kind, evaluate

    def called(self, routine, arguments):
        """A call of a function."""

        def evaluate(run, frame):
            values = [argument(run, frame) for argument in arguments]
            inner = Frame(frame.me, frame.level)
            for formal, value in zip(routine.formals, values):
                inner.names[formal] = fitted(formal.kind, value)
            inner.level = frame.deeper()
            inner.names[routine] = undefined(routine.kind)
            routine.run(run, inner)
            result = inner.names[routine]
            if result is None:
                raise Fault("undefined")
            return result

        return evaluate

    # Places.

    @staticmethod
    def reading(kind, place):
        """The value at a place, of which a scalar has to be defined."""

        def evaluate(run, frame):
            value = run.read(place(run, frame))
            if value is None:
                raise Fault("undefined")
            return value

        return evaluate

    def place(self, declared, path):
        """The kind of a variable with selectors, and a function that finds its place."""
        if isinstance(declared, Variable):
            return self.selected(declared.kind, self.base(declared), path)
        at = 1 if path[0][0] == "index" else 0
        child = self.child(declared, path[0][1] if at else [])
        field = path[at][1].text
        kind = dict(declared.header.exports)[field]
        return self.selected(kind, lambda run, frame: Place(child(run, frame), field, ()), path[at + 1 :])

    @staticmethod
    def base(variable):
        """The place of a variable, or the place for which it stands."""
        if variable.is_of_row:
            return lambda run, frame: Place(frame.me, variable.name, ())
        if variable.is_by_place:
            return lambda run, frame: frame.names[variable]
        return lambda run, frame: Place(frame.names, variable, ())

    def selected(self, kind, base, path):
        """The kind and the place of what selectors select."""
        steps = []
        for form, of in path:
            if form == "field":
                steps.append((None, kind.place_of(of.text)))
                kind = kind.fields[steps[-1][1]][1]
                continue
            for node in of:
                steps.append((kind.index, self.value(node)))
                kind = kind.of

        def find(run, frame):
            found = base(run, frame)
            parts = []
            for index, step in steps:
                parts.append(in_range(step(run, frame), index) - index.low if index else step)
            return found.part(tuple(parts))

        return kind, find

    def subscripts(self, nodes, kinds):
        """A function for subscripts, each of which is looked at before the next one is evaluated."""
        found = list(zip(self.exprs(nodes), kinds))
        return lambda run, frame: tuple([in_range(value(run, frame), kind) for value, kind in found])

    def child(self, declared, nodes):
        """A function for the number of the child that a module variable, or the name of an `all`, has."""
        if isinstance(declared, AllChild):

            def find(run, frame):
                number = frame.names[declared]
                run.living(number)
                return number

            return find
        subscripts = self.subscripts(nodes, declared.dims)

        def find_element(run, frame):
            element = declared.name, subscripts(run, frame)
            number = run.living(frame.me).children.get(element)
            run.living(number)
            return number

        return find_element
