"""Statements. Each becomes a function of a run and a frame."""

from . import links
from .expressions import Expressions
from .frames import Frame, Place
from .naming import AllChild, Header, ModuleVariable, Scope, Variable
from .values import Fault, fitted, undefined


class Routine:
    """A procedure or function. Its text is known where it ends."""

    def __init__(self, kind):
        self.kind, self.formals, self.run = kind, [], None


def sequence(statements):
    def run_all(run, frame):
        for statement in statements:
            statement(run, frame)

    return run_all


class Statements(Expressions):
    """Makes functions of statements, blocks and routines."""

    def block(self, block):
        """A function that makes the variables of a block and runs its statements."""
        sections, _, statements = block
        variables = self.sections(sections)
        body = self.statements(statements)

        def run_block(run, frame):
            for variable in variables:
                frame.names[variable] = undefined(variable.kind)
            body(run, frame)

        return run_block

    def statements(self, nodes):
        return sequence([self.statement(node) for node in nodes])

    def statement(self, node):
        """A statement; entering it counts one."""
        work = getattr(self, "do_" + node[0])(*node[1:])

        def enter(run, frame):
            run.enter()
            work(run, frame)

        return enter

    def do_empty(self, first):
        return lambda run, frame: None

    def do_compound(self, first, turn):
        return self.statements(turn)

    def target(self, name, path):
        """The kind and the place of a target, which may be the result of the function around it."""
        declared = self.meant(name)
        if isinstance(declared, Routine):
            return self.selected(declared.kind, lambda run, frame: Place(frame.names, declared, ()), path)
        return self.place(declared, path)

    def do_assign(self, name, path, value):
        kind, place = self.target(name, path)
        value = self.value(value)

        def assign(run, frame):
            target = place(run, frame)
            store(run, kind, target, value(run, frame))

        return assign

    def do_call(self, name, arguments):
        routine = self.meant(name)
        given = []
        for formal, node in zip(routine.formals, arguments):
            given.append(self.variable_place(node) if formal.is_by_place else self.value(node))

        def call(run, frame):
            values = [argument(run, frame) for argument in given]
            inner = Frame(frame.me, frame.level)
            for formal, value in zip(routine.formals, values):
                inner.names[formal] = value if formal.is_by_place else fitted(formal.kind, value)
            inner.level = frame.deeper()
            routine.run(run, inner)

        return call

    def variable_place(self, node):
        """The place of an expression that is a variable."""
        _, name, path = node[2][3][2]
        return self.place(self.meant(name), path)[1]

    def do_if(self, first, condition, turns):
        condition = self.value(condition)
        turns = [self.statement(turn) for turn in turns]

        def choose(run, frame):
            if condition(run, frame):
                turns[0](run, frame)
            elif len(turns) > 1:
                turns[1](run, frame)

        return choose

    def do_case(self, first, value, arms):
        value, found = self.value(value), {}
        for constants, turn in arms:
            arm = self.statement(turn)
            found.update({self.constant(constant).ordinal: arm for constant in constants})

        def choose(run, frame):
            arm = found.get(value(run, frame))
            if arm is None:
                raise Fault("no case")
            arm(run, frame)

        return choose

    def do_while(self, first, condition, turn):
        condition, turn = self.value(condition), self.statement(turn)

        def loop(run, frame):
            while condition(run, frame):
                run.enter()
                turn(run, frame)

        return loop

    def do_repeat(self, first, turn, until):
        turn, until = self.statements(turn), self.value(until)

        def loop(run, frame):
            is_over = False
            while not is_over:
                run.enter()
                turn(run, frame)
                is_over = until(run, frame)

        return loop

    def do_for(self, first, name, low, is_down, high, turn):
        kind, place = self.target(name, [])
        low, high, turn = self.value(low), self.value(high), self.statement(turn)

        def loop(run, frame):
            begin, end = low(run, frame), high(run, frame)
            target = place(run, frame)
            values = range(begin, end - 1, -1) if is_down else range(begin, end + 1)
            for value in values:
                run.enter()
                store(run, kind, target, value)
                turn(run, frame)
            run.write(target, None)

        return loop

    def do_all(self, first, name, over, turn):
        over_header = self.meant(over[1]) if over[0] == "named" else None
        inner = Scope(self.scope)
        if isinstance(over_header, Header):
            own = AllChild(over_header)
            inner.put(name, own)
            return self.all_children(own, self.within(inner, self.statement, turn))
        own = Variable(name.text, self.kind(over))
        inner.put(name, own)
        turn = self.within(inner, self.statement, turn)

        def loop(run, frame):
            for value in own.kind.values():
                run.enter()
                frame.names[own] = value
                turn(run, frame)

        return loop

    @staticmethod
    def all_children(own, turn):
        def loop(run, frame):
            rows = run.situation.rows
            children = [
                row.number for row in rows.values()
                if row.parent == frame.me and row.body.header is own.header
            ]
            for number in children:
                if number in rows:
                    run.enter()
                    frame.names[own] = number
                    turn(run, frame)

        return loop

    # Modules and links.

    def do_output(self, first, sendings):
        found = [self.sending(*sending) for sending in sendings]
        return sequence(found)

    def sending(self, at, signal, arguments):
        point, end = self.own_point(at)
        interaction = point.channel.of_name(signal.text)
        values = self.exprs(arguments)

        def send(run, frame):
            sender = end(run, frame)
            given = [value(run, frame) for value in values]
            given = tuple(fitted(kind, value) for (_, kind), value in zip(interaction.params, given))
            links.output(run, sender, interaction, given)

        return send

    def own_point(self, at):
        """A point of this instance, and a function for the interaction point."""
        name, nodes = at
        point = self.meant(name)
        subscripts = self.subscripts(nodes, point.dims)
        return point, lambda run, frame: (frame.me, point.name, subscripts(run, frame))

    def child_point(self, module, at):
        """A function for an interaction point of a child."""
        declared = self.meant(module[0])
        child = self.child(declared, module[1])
        name, nodes = at
        point = next(each for each in declared.header.points if each.name == name.text)
        subscripts = self.subscripts(nodes, point.dims)

        def find(run, frame):
            number = child(run, frame)
            return number, point.name, subscripts(run, frame)

        return find

    def end(self, end):
        """A function for an interaction point, of this instance or of a child."""
        return self.child_point(*end) if end[1] else self.own_point(end[0])[1]

    def do_init(self, first, target, name, arguments):
        module, body = self.meant(target[0]), self.meant(name)
        subscripts, values = self.subscripts(target[1], module.dims), self.exprs(arguments)

        def begin(run, frame):
            element = module.name, subscripts(run, frame)
            given = [value(run, frame) for value in values]
            links.begin_child(run, frame, body, element, given)

        return begin

    def do_release(self, first, target):
        child = self.child(self.meant(target[0]), target[1])
        return lambda run, frame: links.release(run, child(run, frame))

    def do_connect(self, first, one, other):
        one, other = self.end(one), self.end(other)

        def connect(run, frame):
            left = one(run, frame)
            links.connect(run, left, other(run, frame))

        return connect

    def do_attach(self, first, own, child):
        _, own = self.own_point(own)
        child = self.child_point(*child)

        def attach(run, frame):
            left = own(run, frame)
            links.attach(run, left, child(run, frame))

        return attach

    def do_untie(self, word, end):
        untie = links.detach if word.text == "detach" else links.disconnect
        name, nodes = end[0]
        declared = self.meant(name)
        if end[1] or not isinstance(declared, (ModuleVariable, AllChild)):
            point = self.end(end)
            return lambda run, frame: untie(run, point(run, frame), frame.me)
        child = self.child(declared, nodes)

        def untie_all(run, frame):
            for each in links.external_points(run.living(child(run, frame))):
                untie(run, each, frame.me)

        return untie_all

    # Routines.

    def routine(self, is_function, name, formals, result, block):
        routine = Routine(self.meant(result).kind if is_function else None)
        self.scope.put(name, routine)
        self.within(Scope(self.scope), self.routine_text, routine, formals, block)

    def routine_text(self, routine, formals, block):
        for by_place, names, kind in formals:
            kind = self.meant(kind).kind
            for name in names:
                formal = Variable(name.text, kind, is_by_place=bool(by_place))
                routine.formals.append(formal)
                self.scope.put(name, formal)
        routine.run = self.block(block)


def store(run, kind, place, value):
    """Writes a value at a place, which has to be there still, and then in range."""
    run.values_of(place.holder)
    run.write(place, fitted(kind, value))
