"""Headers, bodies, transitions and the whole specification, as they are for its runs."""

import dataclasses
import itertools

from .naming import Header, ModuleVariable, Point, Scope, State, StateSet, Variable
from .reading import NEVER, SAME, WholeReader
from .statements import Statements
from .values import tuples_of

# Of what stands without a priority clause: behind every number.
LAST = float("inf")


class Body:
    """A body: its header and points by name, its variables, initialize part and transitions."""

    def __init__(self, name, header):
        self.name, self.header = name, header
        self.points = {point.name: point for point in header.points}
        self.variables = [*header.params, *header.exports]
        self.first = self.first_state = None
        self.transitions = []


@dataclasses.dataclass(eq=False)
class Clause:
    """A clause of a context: its kind, what it has, and the clauses before it."""

    kind: str
    of: object
    before: list
    names: dict


@dataclasses.dataclass(eq=False)
class When:
    point: Point
    subscripts: list
    interaction: object
    params: list


@dataclasses.dataclass(eq=False)
class Provided:
    """A condition, or with None the earlier ones to which an `otherwise` refers."""

    condition: object
    earlier: list


@dataclasses.dataclass(eq=False)
class Delay:
    least: object
    most: object


class Transition:
    """A transition with the clauses of its context."""

    def __init__(self, number, context, block):
        self.number, self.block = number, block
        of = {clause.kind: clause.of for clause in context}
        self.states, self.to, self.when = of.get("from"), of.get("to"), of.get("when")
        self.provided, self.delay = of.get("provided"), of.get("delay")
        self.priority = of.get("priority", LAST)
        variables = of.get("any", [])
        self.choices = [
            dict(zip(variables, values)) for values in tuples_of([variable.kind for variable in variables])
        ]


@dataclasses.dataclass(eq=False)
class Port:
    """An element of an interaction point of the system's header."""

    point: Point
    subscripts: tuple


class System(Statements):
    """A specification that breaks no rule."""

    def __init__(self, tokens):
        super().__init__()
        # All bodies, the one whose text is read, the `init` of the system, and the header that it names.
        self.bodies, self.own, self.start, self.top = [], None, None, None
        reader = WholeReader(tokens)
        parts = reader.specification()
        self.default = reader.default
        self.parts(parts)
        self.ports = [
            Port(point, subscripts)
            for point in self.top.points
            for subscripts in tuples_of(point.dims)
        ]
        self.port_numbers = {
            (port.point.name, port.subscripts): number for number, port in enumerate(self.ports)
        }

    def system(self, init):
        self.start = self.statement(init)
        self.top = self.meant(init[3]).header

    def parts(self, parts):
        for part in parts:
            getattr(self, part[0])(*part[1:])

    def consts(self, defs):
        self.sections([("consts", defs)])

    def types(self, defs):
        self.sections([("types", defs)])

    def vars(self, defs):
        found = self.sections([("vars", defs)], is_of_row=True)
        self.own.variables += [(variable.name, variable.kind) for variable in found]

    def header(self, name, is_system, params, sections):
        header = Header(name.text, self.named_kinds(params), [], [])
        for form, items in sections:
            for item in items:
                if form == "exports":
                    header.exports += self.named_kinds([item])
                else:
                    header.points += self.point(item, is_external=True)
        self.scope.put(name, header)

    def point(self, point, is_external=False):
        names, dims, channel, role, queue = point
        kinds, channel = self.dims(dims), self.meant(channel)
        is_common = (queue or self.default) == "common"
        return [
            Point(name.text, kinds, channel, role.text, is_common, is_external) for name in names
        ]

    def points(self, points):
        for each in points:
            for point in self.point(each):
                self.own.points[point.name] = point
                self.scope.put(point.name, point)

    def modvars(self, modvars):
        for names, dims, header in modvars:
            kinds, header = self.dims(dims), self.meant(header)
            for name in names:
                self.scope.put(name, ModuleVariable(name.text, kinds, header))

    def states(self, names):
        for name in names:
            self.scope.put(name, State(name.text))

    def statesets(self, sets):
        for name, states in sets:
            self.scope.put(name, StateSet([self.meant(state) for state in states]))

    # Bodies.

    def body(self, name, header, parts, first_state, first, groups):
        body = Body(name.text, self.meant(header))
        self.bodies.append(body)
        self.scope.put(name, body)
        outer, self.own = self.own, body
        self.within(Scope(self.scope), self.body_text, body, parts, first_state, first, groups)
        self.own = outer

    def body_text(self, body, parts, first_state, first, groups):
        header = body.header
        for name, kind in [*header.params, *header.exports]:
            self.scope.put(name, Variable(name, kind, is_of_row=True))
        for point in header.points:
            self.scope.put(point.name, point)
        self.parts(parts)
        if first:
            body.first = self.within(Scope(self.scope), self.block, first)
            body.first_state = self.meant(first_state) if first_state else None
        for group in groups:
            self.group(body, group)

    # Transitions.

    def group(self, body, group):
        """The transitions of one `trans`."""
        context, conditions = [], []
        for clauses, block in group:
            for clause in clauses:
                kinds = [each.kind for each in context]
                if clause[0] in kinds:
                    context = context[: kinds.index(clause[0])]
                own = self.clause(context, conditions, *clause)
                context = [*context, own]
            block = self.within(Scope(self.around(context)), self.block, block)
            body.transitions.append(Transition(len(body.transitions) + 1, context, block))

    def around(self, context):
        """The scope with the names of a context: the `any` variables, and then the `when` parameters."""
        scope = self.scope
        for kind in ("any", "when"):
            for clause in context:
                if clause.kind == kind:
                    scope = Scope(scope)
                    scope.names.update(clause.names)
        return scope

    def clause(self, context, conditions, kind, word, *of):
        read = getattr(self, "clause_" + kind)
        own = Clause(kind, None, context, {})
        self.within(self.around(context), read, own, *of)
        if kind == "provided":
            self.refer(own, conditions)
        return own

    @staticmethod
    def refer(own, conditions):
        """An `otherwise` refers to the earlier conditions that have the same clauses before them."""
        if own.of.condition is None:
            own.of.earlier = [each.of.condition for each in conditions if each.before == own.before]
        else:
            conditions.append(own)

    def clause_from(self, own, names):
        found = [self.meant(name) for name in names]
        own.of = set(itertools.chain(*(each.states if isinstance(each, StateSet) else [each] for each in found)))

    def clause_to(self, own, name):
        own.of = self.meant(name) if name else None

    def clause_when(self, own, at, signal):
        point = self.meant(at[0])
        interaction = point.channel.of_name(signal.text)
        params = [Variable(name, kind) for name, kind in interaction.params]
        own.names = {variable.name: variable for variable in params}
        own.of = When(point, list(zip(self.exprs(at[1]), point.dims)), interaction, params)

    def clause_provided(self, own, condition):
        own.of = Provided(self.value(condition) if condition else None, [])

    def clause_any(self, own, parts):
        for names, text in parts:
            kind = self.kind(text)
            for name in names:
                own.names[name.text] = Variable(name.text, kind)
        own.of = list(own.names.values())

    def clause_priority(self, own, first, constant):
        own.of = self.constant(constant).ordinal

    def clause_delay(self, own, least, most):
        least = self.value(least)
        own.of = Delay(least, {SAME: least, NEVER: None}[most] if most in (SAME, NEVER) else self.value(most))
