"""Draws statements and expressions whose kinds mostly fit, from the names that are in force somewhere."""

from .expressions import FUNCTIONS
from .kinds import BOOLEAN, CHAR, EMPTY, INTEGER, Group, Set, can_be_assigned, is_integer, is_ordinal, is_set
from .scopes import PREDECLARED, Declared

HOSTS = (INTEGER, INTEGER, BOOLEAN, CHAR)


class Phrases:
    """Draws phrases for a scope of a checker that has read a text so far."""

    def __init__(self, draw, checker, scope, wrong):
        self.draw, self.wrong, self.level = draw, wrong, 0
        # The names of the `all` statements around over headers, and what controls the `for` statements around.
        self.of_all, self.loops = [], []
        self.region, self.routine, self.inside = scope
        checker.region = self.region
        self.named = {}
        region = self.region
        while region:
            for name in region.in_force:
                declared, is_seen = checker.meant(name)
                if name not in self.named and (is_seen or self.often(wrong)):
                    self.named[name] = declared
            region = region.outer
        for name, declared in PREDECLARED.items():
            self.named.setdefault(name, declared)

    def often(self, chance=0.5):
        return self.draw.random() < chance

    def some_of(self, names):
        """One name of a list or several, as they stand after `from`."""
        return " , ".join(self.draw.choice(names) for _ in range(self.draw.choice([1, 1, 2, 3, 4])))

    def some_states(self):
        """States and state sets, of which one may be something else."""
        return self.some_of([self.of_sort("state", "stateset")[0] for _ in range(4)])

    def one(self, *forms):
        form = self.draw.choice(forms)
        return form if isinstance(form, str) else form()

    def of_sort(self, *sorts):
        """(name, declared) of one of these sorts, or of any where there is none or where it is to be wrong."""
        found = [item for item in self.named.items() if item[1].sort in sorts]
        return self.draw.choice(found if found and not self.often(self.wrong / 4) else list(self.named.items()))

    # Variables.

    def variable(self, test, is_written=False):
        """A variable, or a part of the result of a function, whose kind passes a test, or None."""
        for _ in range(12):
            name, declared = self.of_sort("variable", "variable", "modvar", *["function"] * is_written)
            if not is_written and self.often(0.3):
                name, declared = self.function_of_parts() or (name, declared)
            text, kind = self.start_of(name, declared)
            if is_written and not self.often(self.wrong) and not self.is_writable(declared):
                continue
            while kind is not None:
                if test(kind) and (is_ordinal(kind) or is_set(kind) or self.often()):
                    return text
                if not isinstance(kind, Group):
                    break
                text, kind = self.inner(text, kind)
        return None

    def function_of_parts(self):
        """A function without formals whose result has parts, with its name; sometimes any function; or None."""
        is_any = self.often(self.wrong)
        found = [
            item for item in self.named.items()
            if item[1].sort == "function" and (is_any or isinstance(item[1].kind, Group) and not item[1].formals)
        ]
        return self.draw.choice(found) if found else None

    def is_writable(self, declared):
        if declared.sort == "function":
            return declared is self.routine and declared not in self.loops
        is_free = not self.routine or self.routine.sort != "function" or declared.region is self.inside
        return is_free and not declared.is_fixed and declared not in self.loops

    def start_of(self, name, declared):
        if declared.sort != "modvar" or not declared.header or self.often(self.wrong):
            return name, declared.kind
        exports = sorted(declared.header.exports)
        if not exports:
            return name, None
        export = self.draw.choice(exports)
        return f"{self.at(name, declared.dims)} . {export}", declared.header.own[export].kind

    def at(self, name, dims):
        """A name with as many subscripts as there are dimensions."""
        dims = dims[1:] if self.often(self.wrong) else dims
        dims = [INTEGER, *dims] if self.often(self.wrong / 2) else dims
        values = " , ".join(self.subscript(kind) for kind in dims)
        return f"{name} [ {values} ]" if values else name

    def inner(self, text, kind):
        if kind.is_array:
            return f"{text} [ {self.subscript(kind.index)} ]", kind.parts[0]
        field, inner = self.draw.choice(kind.parts)
        return f"{text} . {field if not self.often(self.wrong) else 'a'}", inner

    # Values.

    def any_kind(self):
        kinds = [declared.kind for declared in self.named.values() if declared.sort == "variable" and declared.kind]
        return self.draw.choice([*HOSTS, *kinds])

    def value(self, kind, depth=2):
        """An expression that can be assigned to a kind."""
        self.level += 1
        text = self.value_within(kind, depth if self.level < 4 else 0)
        self.level -= 1
        return text

    def value_within(self, kind, depth):
        if kind is None or self.often(self.wrong):
            kind = self.any_kind()
        test = lambda own: can_be_assigned(own, kind)
        forms = [lambda: self.variable(test) if self.level < 4 else self.plain(kind), lambda: self.literal(kind)]
        if depth:
            forms += [lambda: self.applied(test, depth - 1), lambda: self.operation(kind, depth - 1)] * 2
        for _ in range(4):
            if text := self.draw.choice(forms)():
                return f"( {text} )" if self.often(0.05) else text
        return self.literal(kind) or "a"

    def plain(self, kind):
        """The name of a variable of a kind, or None."""
        names = [name for name, declared in self.named.items() if declared.sort == "variable" and declared.kind == kind]
        return self.draw.choice(names) if names else None

    def subscript(self, kind):
        """A value that is short, since there are many."""
        if self.level < 2 and self.often(0.3):
            return self.value(kind, 1)
        if kind is None or self.often(self.wrong):
            kind = self.any_kind()
        return self.plain(kind) or self.literal(kind) or "1"

    def literal(self, kind):
        if isinstance(kind, Group):
            return None
        if is_set(kind):
            return self.set_of(kind)
        names = [
            name for name, declared in self.named.items()
            if declared.sort == "constant" and declared.value and declared.value.kind.host == kind.host
        ]
        if kind.host == "integer" and self.often(0.7):
            return self.draw.choice(["0", "1", "2", "7", "2147483647"] + ["2147483648"] * self.often(self.wrong))
        if kind.host == "char" and self.often(0.7):
            return self.draw.choice(["'a'", "''''"])
        return self.draw.choice(names) if names else None

    def set_of(self, kind):
        if kind == EMPTY or self.often(0.15):
            return "[ ]"
        members = []
        for _ in range(self.draw.choice([1, 1, 2])):
            low = self.value(kind.base, 0)
            members.append(f"{low} .. {self.value(kind.base, 0)}" if self.often(0.4) else low)
        return f"[ {' , '.join(members)} ]"

    def applied(self, test, depth):
        """A function of a kind, or None."""
        name, function = self.of_sort("function")
        if function.sort != "function":
            return f"{name} ( {self.value(INTEGER, 0)} )"
        if function.region:
            if not function.kind or not test(function.kind):
                return None
            return f"{name} {self.arguments(function.formals, depth)}"
        kind = self.draw.choice(HOSTS) if name in ("ord", "succ", "pred") else INTEGER
        if not test(FUNCTIONS[name][1](kind)):
            return None
        return f"{name} {self.arguments([kind], depth)}"

    def arguments(self, formals, depth=1):
        formals = formals[1:] if self.often(self.wrong / 2) else formals
        formals = [*formals, INTEGER] if self.often(self.wrong / 2) else formals
        values = " , ".join(self.value(kind, depth) for kind in formals)
        return f"( {values} )" if values else ""

    def operation(self, kind, depth):
        if isinstance(kind, Group):
            return None
        if is_set(kind):
            return self.between(kind, self.draw.choice("+-*"), depth)
        if kind.host == "integer":
            if self.often(0.2):
                return f"{self.draw.choice('+-')} {self.operand(kind, depth)}"
            return self.between(kind, self.draw.choice(["+", "-", "*", "div", "mod"]), depth)
        if kind.host == "boolean":
            return self.one(lambda: self.comparison(depth), lambda: self.comparison(depth), lambda: self.logical(depth))
        return f"{self.draw.choice(['succ', 'pred'])} ( {self.value(kind, depth)} )"

    def logical(self, depth):
        if self.often(0.3):
            return f"not {self.operand(BOOLEAN, depth)}"
        return self.between(BOOLEAN, self.draw.choice(["and", "or"]), depth)

    def comparison(self, depth):
        kind = self.any_kind()
        kind = kind if not isinstance(kind, Group) or self.often(self.wrong) else INTEGER
        if is_ordinal(kind) and self.often(0.2):
            return f"{self.operand(kind, depth)} in {self.operand(Set(kind), depth)}"
        signs = ["=", "<>", "<=", ">="] + ["<", ">"] * (is_ordinal(kind) or self.often(self.wrong))
        return self.between(kind, self.draw.choice(signs), depth)

    def between(self, kind, operator, depth):
        return f"{self.operand(kind, depth)} {operator} {self.operand(kind, depth)}"

    def operand(self, kind, depth):
        """A value that is mostly a factor."""
        text = self.value(kind, depth)
        return f"( {text} )" if " " in text and (text[0] in "+-" or self.often(0.8)) else text

    # Statements.

    def statement(self, depth=2):
        forms = [self.assign] * 3 + [self.call, self.output, self.init, self.links, self.release] * 2 + [self.links, ""]
        if depth:
            inner = lambda: self.statement(depth - 1)
            forms += [
                lambda: f"begin {inner()} ; {inner()} {self.last()} end",
                lambda: f"if {self.value(BOOLEAN)} then {inner()}" + (f" else {inner()}" if self.often(0.3) else ""),
                lambda: f"while {self.value(BOOLEAN)} do {inner()}",
                lambda: f"repeat {inner()} {self.last()} until {self.value(BOOLEAN)}",
                *[lambda: self.naming(depth)] * 6,
            ]
        return self.one(*forms) or ""

    def naming(self, depth=2):
        """A statement that has another one within, and names or constants in front of it."""
        return self.draw.choice([self.loop, self.case, self.all])(lambda: self.statement(depth - 1))

    def last(self):
        """What may stand after the last statement or arm."""
        return self.one("", "", "", ";")

    def assign(self):
        kind = self.any_kind()
        target = self.variable(lambda own: can_be_assigned(kind, own), is_written=True)
        if self.routine and self.routine.sort == "function" and self.often(0.3):
            return self.own_result()
        return f"{target} := {self.value(kind)}" if target else ""

    def own_result(self):
        """An assignment to the result of a function, mostly the own one, or to a part of it."""
        own = [item for item in self.named.items() if item[1] is self.routine]
        text, declared = own[0] if own and not self.often(self.wrong) else self.of_sort("function")
        kind = declared.kind
        while isinstance(kind, Group) and self.often(0.8):
            text, kind = self.inner(text, kind)
        return f"{text} := {self.value(kind)}"

    def call(self):
        name, procedure = self.of_sort("procedure")
        if procedure.sort != "procedure":
            return name
        return self.call_of(name, procedure)

    def call_of(self, name, procedure, taken=None, taken_kind=None):
        """A call of a procedure. What is taken stands for the `var` formals of its kind."""
        values = []
        for kind, by_place in zip(procedure.formals, procedure.by_place):
            place = self.variable(lambda own: own == kind, is_written=True) if by_place else None
            place = taken if taken and by_place and kind == taken_kind else place
            values.append(place if place and not self.often(self.wrong) else self.value(kind))
        values = values[1:] if self.often(self.wrong / 2) else values
        return f"{name} ( {' , '.join(values)} )" if values else name

    def loop(self, inner):
        is_written = self.often(min(0.6, self.wrong * 6))
        name, declared = self.controlling(is_written)
        kind = declared.kind if is_ordinal(declared.kind) else INTEGER
        bounds = f"{self.value(kind, 1)} {self.one('to', 'downto')} {self.value(kind, 1)}"
        self.loops.append(declared)
        turn = self.written(name, kind) if is_written else inner()
        self.loops.pop()
        return f"for {name} := {bounds} do {turn}"

    def controlling(self, is_written):
        """A variable, or the own function, that may control a `for`, with its name."""
        found = [
            item for item in self.named.items()
            if item[1].sort in ("variable", "function") and is_ordinal(item[1].kind) and self.is_writable(item[1])
        ]
        found = [item for item in found if is_written and self.takers(item[1].kind)] or found
        return self.draw.choice(found) if found and not self.often(self.wrong) else self.of_sort("variable")

    def takers(self, kind):
        """The procedures with a `var` formal of a kind, with their names."""
        return [
            (name, declared) for name, declared in self.named.items()
            if declared.sort == "procedure" and (True, kind) in zip(declared.by_place, declared.formals)
        ]

    def written(self, name, kind):
        """A statement that writes what controls a loop, which none may do."""
        takers = self.takers(kind)
        if takers and self.often(0.7):
            return self.call_of(*self.draw.choice(takers), taken=name, taken_kind=kind)
        if self.often():
            return f"{name} := {self.value(kind, 0)}"
        return f"for {name} := {self.value(kind, 0)} to {self.value(kind, 0)} do"

    def case(self, inner):
        kind = self.any_kind()
        kind = kind if is_ordinal(kind) else INTEGER
        constants = self.case_constants(kind)
        arms = [constants[:1]]
        for each in constants[1:]:
            if self.often(0.4):
                arms[-1].append(each)
            else:
                arms.append([each])
        arms = " ; ".join(f"{' , '.join(arm)} : {inner()}" for arm in arms)
        return f"case {self.value(kind)} of {arms} {self.last()} end"

    def case_constants(self, kind):
        """Constants of a kind, mostly of different values."""
        texts, found = [], set()
        for _ in range(self.draw.choice([1, 2, 3, 5])):
            own = self.draw.choice(HOSTS) if self.often(self.wrong) else kind
            text, sign = self.literal(own) or "1", ""
            if text[0] != "'" and (is_integer(own) or self.often(self.wrong)):
                sign = self.one("", "", "- ", "+ ")
            value = self.value_of(text) * (-1 if sign == "- " else 1)
            if value not in found or self.often(self.wrong * 2):
                texts.append(sign + text)
            found.add(value)
        return texts

    def value_of(self, literal):
        if literal[0] == "'":
            return ord(literal[1])
        return int(literal) if literal.isdigit() else self.named[literal].value.ordinal

    def all(self, inner):
        over, own = self.one_of_all()
        name = self.one(lambda: self.draw.choice(list(self.named)), "a", "z", "z")
        outer, is_module = self.named.get(name), own.sort == "modvar"
        self.named[name] = own
        self.of_all += [name] * is_module
        forms = [inner, f"{name} := {self.value(own.kind, 0)}" if self.often(self.wrong * 2) else inner]
        if is_module:
            forms += [self.links, self.links, self.links, self.release, self.assign] + [self.init] * 2
        turn = self.one(*forms)
        if is_module:
            self.of_all.pop()
        if outer:
            self.named[name] = outer
        else:
            del self.named[name]
        return f"all {name} : {over} do {turn}"

    def one_of_all(self):
        """What an `all` may go over, with what its name is then."""
        lot = self.draw.random()
        if lot < 0.3:
            text, kind = self.draw.choice([("1 .. 3", INTEGER), ("'a' .. 'z'", CHAR), ("false .. true", BOOLEAN)])
            return text, Declared("variable", self.region, kind=kind, is_fixed=True)
        name, declared = self.of_sort("type" if lot < 0.5 else "header")
        if declared.sort == "header":
            return name, Declared("modvar", self.region, header=declared, dims=[], is_of_all=True)
        return name, Declared("variable", self.region, kind=declared.kind, is_fixed=True)

    def output(self):
        return f"output {self.sending(is_sent=True)}" + (f" , {self.sending(True)}" if self.often(0.2) else "")

    def sending(self, is_sent):
        name, point = self.of_sort("point")
        if point.sort != "point" or not point.channel:
            return f"{name} . {name}"
        signal = self.signal(point, is_sent)
        formals = [kind for _, kind in point.channel.params.get(signal, ())] if is_sent else []
        return f"{self.at(name, point.dims)} . {signal} {self.arguments(formals) if is_sent else ''}"

    def signal(self, point, is_sent):
        """An interaction that a point mostly sends, or receives."""
        channel = point.channel
        roles = {point.role} if is_sent else set(channel.roles) - {point.role}
        fitting = [name for name, senders in channel.senders.items() if senders & roles]
        return self.draw.choice(fitting if fitting and not self.often(self.wrong) else list(channel.sorts))

    # Modules and links.

    def module(self):
        """(access, header) of a module variable."""
        name, module = self.of_sort("modvar")
        if self.of_all and self.often(0.6):
            name, module = self.of_all[-1], self.named[self.of_all[-1]]
        if module.sort != "modvar" or not module.header:
            return name, None
        return self.at(name, module.dims), module.header

    def init(self):
        target, header = self.module()
        bodies = [
            name for name, declared in self.named.items()
            if declared.sort == "body" and declared.header is header and declared.is_ended
        ]
        body = self.draw.choice(bodies) if bodies and not self.often(self.wrong) else self.of_sort("body")[0]
        if not bodies and not self.often(self.wrong * 3):
            return ""
        return f"init {target} with {body} {self.arguments(header.formals if header else [])}"

    def release(self):
        return f"release {self.module()[0]}"

    def end(self, is_external):
        """(text, channel, role) of an end that is a point."""
        if self.often(0.6):
            target, header = self.module()
            points = [name for name, own in header.own.items() if own.sort == "point"] if header else []
            if points:
                name = self.draw.choice(points)
                point = header.own[name]
                return f"{target} . {self.at(name, point.dims)}", point.channel, point.role
        name, point = self.of_sort("point")
        for _ in range(6):
            if point.sort == "point" and point.is_external == is_external:
                return self.at(name, point.dims), point.channel, point.role
            name, point = self.of_sort("point")
        return name, None, None

    def links(self):
        form = self.draw.choice(["connect", "connect", "attach", "attach", "detach", "disconnect"])
        one = self.end(is_external=form == "attach")
        if form in ("detach", "disconnect"):
            return f"{form} {self.one(one[0], lambda: self.module()[0], self.of_sort('point', 'modvar')[0])}"
        for _ in range(20):
            other = self.end(is_external=False)
            is_same = one[2] == other[2]
            if one[1] and one[1] is other[1] and is_same == (form == "attach"):
                break
        else:
            if not self.often(self.wrong * 3):
                return ""
        if form == "attach" and ("." in one[0] or "." not in other[0]) and not self.often(self.wrong):
            return ""
        return f"{form} {one[0]} to {other[0]}"
