"""The rules on statements and routines."""

from .expressions import Expressions, first_of
from .kinds import SCALARS, have_one_host, is_ordinal
from .scopes import Declared, Region

VALUES = ("constant", "variable", "modvar", "function")


def as_variable(node):
    """(name, selectors) of an expression that is a variable and nothing else, or None."""
    _, _, (_, _, sign, (_, _, factor, factors), terms), relation = node
    if sign or factors or terms or relation or factor[0] != "variable":
        return None
    return factor[1:]


class Blocks(Expressions):
    """Finds the pairs of the rules on statements and routines."""

    def __init__(self):
        super().__init__()
        # The variables of the `for` statements around.
        self.loops = []

    @property
    def is_in_function(self):
        return self.own_routine is not None and self.own_routine.sort == "function"

    def statements(self, statements):
        for statement in statements:
            self.statement(statement)

    def statement(self, statement):
        form, first = statement[:2]
        links = ("output", "init", "release", "connect", "untie", "attach")
        if form in links and self.is_in_function:
            self.broken(first, 11)
        getattr(self, "do_" + form)(*statement[1:])

    def do_empty(self, first):
        pass

    def do_compound(self, first, turn):
        self.statements(turn)

    # What is written.

    def do_assign(self, name, path, value):
        target = self.target(name, path)
        self.fits(value, self.expr(value), target)

    def target(self, name, path):
        """The kind of the target of an assignment, of a `for`, or of a `var` argument."""
        declared = self.used(name, *VALUES)
        if not declared:
            self.path(path)
            return None
        if declared.sort == "modvar":
            return self.target_of_module(name, declared, path)
        if not self.may_be_written(declared):
            self.broken(name, 10)
            self.path(path)
            return None
        return self.selected(name, declared.kind, path)

    def may_be_written(self, declared):
        """Whether a constant, variable or function may be written here."""
        if declared.sort == "constant" or declared.is_fixed or declared in self.loops:
            return False
        if declared.sort == "function":
            return declared is self.own_routine
        return not self.is_in_function or declared.region is self.inside

    def target_of_module(self, name, module, path):
        after = self.after_subscripts(name, module, path)
        if self.is_in_function or not any(form == "field" for form, _ in path):
            self.broken(name, 10)
            return None
        return self.exported(name, module, after) if after else None

    def do_for(self, first, name, low, high, turn):
        kind = self.target(name, [])
        is_right = self.has(name, kind, is_ordinal)
        for bound in (low, high):
            self.fits(bound, self.expr(bound), kind if is_right else None)
        declared, _ = self.meant(name.text)
        self.loops.append(declared)
        self.statement(turn)
        self.loops.pop()

    def do_call(self, name, arguments):
        procedure = self.used(name, "procedure")
        if self.is_in_function:
            self.broken(name, 11)
        if not procedure:
            self.exprs(arguments)
            return
        if len(arguments) != len(procedure.formals):
            self.broken(name, 9)
        for at, argument in enumerate(arguments):
            if at >= len(procedure.formals):
                self.expr(argument)
            elif procedure.by_place[at]:
                self.place(argument, procedure.formals[at])
            else:
                self.fits(argument, self.expr(argument), procedure.formals[at])

    def place(self, argument, formal):
        """A `var` argument."""
        variable = as_variable(argument)
        if not variable:
            self.expr(argument)
            self.broken(first_of(argument), 10)
            return
        kind = self.target(*variable)
        if formal is not None:
            self.has(first_of(argument), kind, lambda kind: kind == formal)

    # Choices and loops.

    def do_if(self, first, condition, turns):
        self.condition(condition)
        self.statements(turns)

    def do_while(self, first, condition, turn):
        self.condition(condition)
        self.statement(turn)

    def do_repeat(self, first, turn, until):
        self.statements(turn)
        self.condition(until)

    def do_case(self, first, value, arms):
        kind = self.expr(value)
        is_right = self.has(first_of(value), kind, is_ordinal)
        found = set()
        for constants, turn in arms:
            for constant in constants:
                self.arm_constant(kind if is_right else None, constant, found)
            self.statement(turn)

    def arm_constant(self, kind, constant, found):
        value = self.constant(constant)
        if not value:
            return
        first = constant[0] or constant[1]
        if kind and not have_one_host(value.kind, kind):
            self.broken(first, 8)
        elif (value.kind, value.ordinal) in found:
            self.broken(first, 18)
        found.add((value.kind, value.ordinal))

    def do_all(self, first, name, over, turn):
        declared = None
        if over[0] == "named":
            declared = self.used(over[1], "type", "header")
        if declared and declared.sort == "header":
            own = Declared("modvar", header=declared, dims=[], is_of_all=True)
        elif declared or over[0] == "range":
            own = Declared("variable", kind=self.ordinal(over), is_fixed=True)
        else:
            own = Declared("variable", is_fixed=True)
        outer = self.region
        self.region = Region(outer)
        self.put(name, own)
        self.statement(turn)
        self.region = outer

    # Routines.

    def routine(self, is_function, name, formals, result, block):
        self.declare(name)
        routine = Declared("function" if is_function else "procedure", formals=[], by_place=[])
        self.put(name, routine)
        outer, outer_count = self.region, self.count
        self.region, self.count = Region(outer), 0
        self.own_routine, self.inside = routine, self.region
        for formal in formals:
            self.formal(routine, *formal)
        if result:
            declared = self.used(result, "type")
            routine.kind = declared.kind if declared else None
        sections, begin, statements = block
        self.sections(sections)
        if self.count > SCALARS:
            self.broken(name, 7)
        self.scopes.append(self.scope())
        self.statements(statements)
        self.own_routine = self.inside = None
        self.region, self.count = outer, outer_count

    def formal(self, routine, by_place, names, kind):
        if by_place and routine.sort == "function":
            self.broken(by_place, 11)
        for name in names:
            self.declare(name)
        declared = self.used(kind, "type")
        kind = declared.kind if declared else None
        for name in names:
            self.put(name, Declared("variable", kind=kind))
            routine.formals.append(kind)
            routine.by_place.append(bool(by_place))
