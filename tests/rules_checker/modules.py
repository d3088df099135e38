"""The rules on bodies, transitions, `init` and links."""

from .blocks import Blocks
from .expressions import first_of
from .kinds import SCALARS, TUPLES, is_integer
from .scopes import Declared, Region

OF_A_BLOCK = ("any", "when")


class Modules(Blocks):
    """Finds the pairs of all rules, and counts what a text has."""

    def __init__(self, parts):
        super().__init__()
        # What is in force where the statements of each block begin, and where each body ends.
        self.scopes, self.insides = [], []
        self.bodies = self.transitions = self.ports = 0
        self.parts(parts, is_system=True)

    def scope(self):
        return self.region, self.own_routine, self.inside

    def parts(self, parts, is_system=False):
        for part in parts:
            if part[0] == "modvars":
                self.modvars(part[1], is_system)
            else:
                getattr(self, part[0])(*part[1:])

    def system(self, init):
        """The `init` of the specification, whose module variable has the ports."""
        self.statement(init)
        declared, _ = self.meant(init[2][0].text)
        if declared and declared.header:
            for point in declared.header.own.values():
                if point.sort == "point":
                    self.ports += self.elements(point)

    @staticmethod
    def elements(point):
        count = 1
        for kind in point.dims:
            count *= kind.width if kind else 1
        return count

    # Bodies.

    def body(self, name, header, parts, first_state, first, groups):
        self.bodies += 1
        self.declare(name)
        body = Declared("body")
        self.put(name, body)
        body.header = self.used(header, "header")
        outer, outer_count = self.region, self.count
        self.region, self.count = Region(outer, is_body=True), 0
        if body.header:
            for own, declared in body.header.own.items():
                self.region.names.add(own)
                self.region.in_force[own] = declared.within(self.region)
        self.parts(parts)
        if any(part[0] == "states" for part in parts) and not first_state:
            self.broken(name, 14)
        if self.count > SCALARS:
            self.broken(name, 7)
        if first_state:
            self.used(first_state, "state")
        if first:
            self.block(first)
        for group in groups:
            self.group(group)
        self.insides.append(self.scope())
        self.region, self.count = outer, outer_count
        body.is_ended = True

    def block(self, block):
        sections, begin, statements = block
        outer, outer_count = self.region, self.count
        self.region, self.count = Region(outer), 0
        self.sections(sections)
        if self.count > SCALARS:
            self.broken(begin, 7)
        self.scopes.append(self.scope())
        self.statements(statements)
        self.region, self.count = outer, outer_count

    # Transitions.

    def group(self, group):
        """The transitions of one `trans`. The context has each clause with the names that it declares."""
        context = []
        outer = self.region
        for clauses, block in group:
            for clause in clauses:
                kinds = [kind for kind, _, _ in context]
                if clause[0] in kinds:
                    del context[kinds.index(clause[0]) :]
                self.region = self.around(outer, context)
                names = getattr(self, "clause_" + clause[0])(*clause[1:]) or {}
                context.append((clause[0], clause[1], names))
            words = {kind: word for kind, word, _ in context}
            if "delay" in words and ("when" in words or "any" in words):
                self.broken(words["delay"], 13)
            self.region = self.around(outer, context)
            self.transitions += 1
            self.block(block)
            self.region = outer

    @staticmethod
    def around(region, context):
        for kind in OF_A_BLOCK:
            for other, _, names in context:
                if other == kind:
                    region = Region(region)
                    for name, declared in names.items():
                        region.in_force[name] = declared.within(region)
        return region

    def clause_from(self, word, states):
        for state in states:
            self.used(state, "state", "stateset")

    def clause_to(self, word, state):
        if state:
            self.used(state, "state")

    def clause_when(self, word, at, signal):
        """The parameters of the interaction."""
        point = self.point_at(at)
        params = self.interaction(point, signal, is_sent=False)
        names = {}
        for name, kind in params or []:
            names.setdefault(name, Declared("variable", kind=kind, is_fixed=True))
        return names

    def clause_provided(self, word, condition):
        if condition:
            self.condition(condition)

    def clause_any(self, word, parts):
        seen, names, count, is_known = set(), {}, 1, True
        self.region = Region(self.region)
        for group, text in parts:
            for name in group:
                self.note(seen, name)
            kind = self.ordinal(text)
            for name in group:
                if name.text not in names:
                    names[name.text] = Declared("variable", kind=kind, is_fixed=True)
                    self.region.in_force[name.text] = names[name.text].within(self.region)
                    count *= kind.width if kind else 1
            is_known = is_known and kind is not None
        if is_known and count > TUPLES:
            self.broken(word, 7)
        return names

    def clause_priority(self, word, first, constant):
        value = self.constant(constant)
        if value and not (is_integer(value.kind) and value.ordinal >= 0):
            self.broken(first, 8)

    def clause_delay(self, word, bounds):
        for bound in bounds:
            self.has(first_of(bound), self.expr(bound), is_integer)

    # Points and interactions.

    def point_at(self, at):
        """The point that an access names."""
        name, subscripts = at
        return self.indexed(name, self.used(name, "point"), subscripts)

    def indexed(self, name, declared, subscripts):
        """A point or module variable, whose subscripts are looked at."""
        if not declared:
            self.exprs(subscripts)
            return None
        if len(subscripts) != len(declared.dims):
            self.broken(name, 9)
        self.subscripts_with(subscripts, declared.dims)
        return declared

    def subscripts_with(self, subscripts, kinds):
        self.exprs(subscripts[len(kinds) :])
        self.subscripts(subscripts[: len(kinds)], kinds)

    def interaction(self, point, signal, is_sent):
        """The parameters of an interaction of a point, where the point sends or receives it."""
        channel = point and point.channel
        sort = channel.sorts.get(signal.text) if channel else None
        if not channel:
            return None
        if sort != "interaction":
            self.broken(signal, 4 if sort else 1)
            return None
        roles = {point.role} if is_sent else set(channel.roles) - {point.role}
        if not roles & channel.senders[signal.text]:
            self.broken(signal, 12)
        return channel.params[signal.text]

    def do_output(self, first, sendings):
        for at, signal, arguments in sendings:
            params = self.interaction(self.point_at(at), signal, is_sent=True)
            if params is None:
                self.exprs(arguments)
            else:
                self.arguments(signal, arguments, [kind for _, kind in params])

    # Modules.

    def do_init(self, first, target, name, arguments):
        module = self.module_at(target)
        if module and module.is_of_all:
            self.broken(target[0], 10)
        body = self.used(name, "body")
        if body and (not body.is_ended or module and body.header is not module.header):
            self.broken(name, 16)
        if body and body.header:
            self.arguments(name, arguments, body.header.formals)
        else:
            self.exprs(arguments)

    def module_at(self, at):
        name, subscripts = at
        return self.indexed(name, self.used(name, "modvar"), subscripts)

    def do_release(self, first, target):
        self.module_at(target)

    # Links.

    def child_point(self, module_at, point_at):
        """The point of a child, which is looked up in the header of its module variable."""
        module = self.module_at(module_at)
        name, subscripts = point_at
        header = module and module.header
        point = header.own.get(name.text) if header else None
        if header and (not point or point.sort != "point"):
            self.broken(name, 4 if point else 1)
            point = None
        return self.indexed(name, point, subscripts)

    def own_or_child(self, end, *sorts):
        """(the point, whether it is a child's), or a module variable as a point."""
        first, second = end
        if second:
            return self.child_point(first, second), True
        return self.indexed(first[0], self.used(first[0], *sorts), first[1]), False

    def do_connect(self, first, one, other):
        left, right = self.connected(one), self.connected(other)
        if left and right and left.channel and right.channel:
            if left.channel is not right.channel or left.role == right.role:
                self.broken(other[0][0], 17)

    def connected(self, end):
        """The point of an end of a connection, or None where it can't be one."""
        point, is_child = self.own_or_child(end, "point", "modvar")
        if point and not is_child and (point.sort == "modvar" or point.is_external):
            self.broken(end[0][0], 17)
            return None
        return point

    def do_untie(self, first, end):
        self.own_or_child(end, "point", "modvar")

    def do_attach(self, first, own, child):
        point = self.point_at(own)
        if point and not point.is_external:
            self.broken(own[0], 17)
            point = None
        other = self.child_point(*child)
        if point and other and point.channel and other.channel:
            if point.channel is not other.channel or point.role != other.role:
                self.broken(child[0][0], 17)
