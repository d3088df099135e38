"""Draws specifications that break no rule, mostly, and do something."""

import re

from .doings import Doings, Function
from .phrases import NoPhrase
from .regions import Item, OuterRegion, Region
from .values import CHAR, INTEGER, ArrayOf, Fields, Ordinal, SetOf, enumeration, is_group

QUEUES = ["", "", "individual queue", "common queue"]
LETTERS = Ordinal(CHAR.host, ord("a"), ord("e"))


class Context:
    """The clauses of a transition: their kinds, with the names that they declare."""

    def __init__(self):
        self.clauses = []

    def add(self, kind, items=()):
        kinds = self.kinds()
        if kind in kinds:
            del self.clauses[kinds.index(kind) :]
        self.clauses.append((kind, items))

    def kinds(self):
        return [kind for kind, _ in self.clauses]

    def region(self, outer):
        """The region in which the names of the clauses are in force."""
        for kind in ("any", "when"):
            for own, items in self.clauses:
                if own == kind:
                    outer = Region(outer)
                    for item in items:
                        outer.put(item)
        return outer


class Draft:
    """Draws one specification, line by line."""

    def __init__(self, draw):
        self.draw, self.lines = draw, []
        self.region = Region(OuterRegion())
        # The (channel, role) of points so far: those of parents and children are often to be tied.
        self.ends = []

    def often(self, chance=0.5):
        return self.draw.random() < chance

    def line(self, text):
        self.lines.append(text)

    def doings(self, region=None, own=None):
        return Doings(self.draw, region or self.region, own)

    def some(self, least, most):
        return range(self.draw.randint(least, most))

    def fresh(self, prefix):
        return self.region.fresh(self.draw, prefix)

    def written(self):
        return "\n".join(self.lines) + "\n"

    # Constants and types.

    def specification(self):
        queue = self.draw.choice(QUEUES)
        self.line(f"specification s ; {f'default {queue} ;' if queue else ''}")
        self.constants()
        self.types()
        channels = [self.channel() for _ in self.some(1, 2)]
        for _ in self.some(0, 2):
            self.routine(is_closed=True)
        top = self.header("systemactivity", channels)
        headers = [self.header("activity", channels) for _ in range(self.draw.choice([0, 1, 1, 2, 2, 3]))]
        outside = [header for header in headers if self.often(0.5)]
        for header in reversed(outside):
            self.body(header, [own for own in headers[headers.index(header) + 1 :]], [])
        inside = [header for header in headers if header not in outside]
        name = self.body(top, headers, inside)
        module = self.fresh("x")
        literals = self.doings()
        arguments = " , ".join(literals.literal(kind) for _, kind in top.formals)
        arguments = f"( {arguments} )" if arguments else ""
        dims, subscripts = self.draw.choice([("", "")] * 3 + [("array [ 1 .. 2 ] of", "[ 1 + 1 ]")])
        self.line(f"modvar {module} : {dims} {top.name} ;")
        self.line(f"initialize begin init {module} {subscripts} with {name} {arguments} end ;")
        self.line("end .")
        return self.written()

    def constants(self):
        for _ in self.some(0, 2):
            name = self.fresh("c")
            if self.often(0.7):
                number = self.draw.choice([0, 1, 1, 2, 2, 3, 5, 7, -1, -4, 2147483647])
                self.line(f"const {name} = {str(number).replace('-', '- ')} ;")
                self.region.put(Item("constant", name, INTEGER))
            else:
                self.line(f"const {name} = '{self.draw.choice('abcxyz')}' ;")
                self.region.put(Item("constant", name, CHAR))

    def types(self):
        self.type_named("t", self.enumeration)
        for form in (self.range_type, self.range_type, self.group_type, self.group_type, self.set_type):
            if self.often(0.75):
                self.type_named("t", form)

    def type_named(self, prefix, form):
        name = self.fresh(prefix)
        text, kind = form()
        self.line(f"type {name} = {text} ;")
        self.region.put(Item("type", name, kind))

    def enumeration(self):
        names = [self.fresh("e") for _ in self.some(2, 4)]
        kind = enumeration(names)
        for name in names:
            self.region.put(Item("constant", name, kind))
        return f"( {' , '.join(names)} )", kind

    def range_type(self):
        if self.often(0.15):
            return "'a' .. 'e'", LETTERS
        low = self.draw.choice([0, 0, 0, 1, -2])
        kind = Ordinal(INTEGER.host, low, low + self.draw.randint(1, 5))
        return f"{kind.low} .. {kind.high}".replace("-", "- "), kind

    def ordinal_type(self, most=6):
        """(text, kind) of an ordinal type of a few values."""
        types = [
            item for item in self.region.of_sort("type")
            if isinstance(item.kind, Ordinal) and len(item.kind.values()) <= most
        ]
        if types and self.often(0.6):
            item = self.draw.choice(types)
            return item.name, item.kind
        return self.range_type()

    def scalar_type(self):
        if self.often(0.5):
            item = self.draw.choice([item for item in self.region.of_sort("type") if not is_group(item.kind)])
            return item.name, item.kind
        return self.ordinal_type()

    def set_type(self):
        text, kind = self.ordinal_type()
        return f"set of {text}", SetOf(kind)

    def group_type(self):
        parts = [self.scalar_type, self.scalar_type, self.any_type]
        if self.often():
            indices = [self.ordinal_type(4) for _ in self.some(1, 2)]
            text, kind = self.draw.choice(parts)()
            if is_group(kind) and len(indices) > 1:
                indices.pop()
            for _, index in reversed(indices):
                kind = ArrayOf(index, kind)
            return f"array [ {' , '.join(own for own, _ in indices)} ] of {text}", kind
        names = self.draw.sample(["a", "b", "n", "m"], self.draw.randint(1, 3))
        types = [self.draw.choice(parts)() for _ in names]
        fields = " ; ".join(f"{name} : {text}" for name, (text, _) in zip(names, types))
        return f"record {fields} end", Fields(tuple((name, kind) for name, (_, kind) in zip(names, types)))

    def named_type(self):
        item = self.draw.choice(self.region.of_sort("type"))
        return item.name, item.kind

    def short_type(self):
        return self.named_type() if self.often(0.7) else self.range_type()

    def any_type(self):
        return self.draw.choice([self.named_type, self.named_type, self.range_type, self.set_type])()

    def variable_type(self):
        return self.draw.choice([self.any_type, self.any_type, self.any_type, self.group_type])()

    def params(self, count):
        """(texts, (name, kind) of each) of parameters."""
        names = self.draw.sample(["n", "m", "a", "b", "q"], count)
        types = [self.short_type() for _ in names]
        texts = [f"{name} : {text}" for name, (text, _) in zip(names, types)]
        return " ; ".join(texts), tuple((name, kind) for name, (_, kind) in zip(names, types))

    # Channels and headers.

    def channel(self):
        name, roles = self.fresh("ch"), ("u", "v")
        interactions, by = [], []
        for senders in (("u",), ("v",), ("u", "v"))[: self.draw.choice([2, 2, 3])]:
            own = []
            for _ in self.some(1, 2):
                text, formals = self.params(self.draw.choice([0, 0, 1, 1, 2]))
                signal = f"s{len(interactions)}"
                interactions.append(Item("interaction", signal, formals=formals, senders=senders))
                own.append(f"{signal} {f'( {text} )' if text else ''} ;")
            by.append(f"by {' , '.join(senders)} : {' '.join(own)}")
        self.line(f"channel {name} ( u , v ) ; {' '.join(by)}")
        return self.region.put(Item("channel", name, roles=roles, interactions=tuple(interactions)))

    def point(self, name, channels, is_external):
        dims = []
        if self.often(0.25):
            dims = [self.ordinal_type(3) for _ in self.some(1, 1 if self.often(0.8) else 2)]
        channel, role = self.draw.choice(channels), self.draw.choice(["u", "u", "v"])
        if self.ends and self.often(0.75):
            channel, role = self.draw.choice(self.ends)
            role = role if is_external else {"u": "v", "v": "u"}[role]
        if channel not in channels:
            raise NoPhrase
        self.ends.append((channel, role))
        text = f"array [ {' , '.join(own for own, _ in dims)} ] of" if dims else ""
        item = Item(
            "point", name, dims=tuple(kind for _, kind in dims), channel=channel, role=role, is_external=is_external
        )
        return f"ip {name} : {text} {channel.name} ( {role} ) {self.draw.choice(QUEUES)} ;", item

    def header(self, attribute, channels):
        name, region = self.fresh("h"), Region()
        text, formals = self.params(self.draw.choice([0, 0, 0, 1]))
        if attribute == "systemactivity" and any(not isinstance(kind, Ordinal) for _, kind in formals):
            text, formals = "", ()
        region.names.update(name for name, _ in formals)
        points, exports, sections = [], [], []
        for _ in self.some(1, 3 if attribute == "systemactivity" else 2):
            section, item = self.point(region.fresh(self.draw, "p"), channels, is_external=True)
            sections.append(section)
            points.append(item)
        for _ in self.some(0, 2):
            own, (short, kind) = region.fresh(self.draw, "w"), self.short_type()
            sections.append(f"export {own} : {short} ;")
            exports.append((own, kind))
        self.line(f"module {name} {attribute} {f'( {text} )' if text else ''} ; {' '.join(sections)} end ;")
        return self.region.put(
            Item("header", name, formals=formals, points=tuple(points), exports=tuple(exports))
        )

    # Routines.

    def routine(self, is_closed):
        outer, is_function = self.region, self.often()
        name = self.fresh("f")
        item = Item("function" if is_function else "procedure", name, is_closed=is_closed)
        region = Region(outer)
        formals, texts = [], []
        for _ in self.some(0, 2):
            text, kind = self.named_type()
            is_place = not is_function and self.often()
            own = region.put(Item("variable", region.fresh(self.draw, "v"), kind))
            formals.append((is_place, kind))
            texts.append((own, f"{'var ' if is_place else ''}{own.name} : {text}"))
        item.formals = tuple(formals)
        result = ""
        if is_function:
            text, item.kind = self.result_type()
            result = f": {text}"
        if self.often(0.7) or not is_function:
            outer.put(item)
        self.region = region
        locals_text, first = self.locals()
        own = Function(item, region.own.values()) if is_function else None
        doings = self.doings(own=own)
        outer.put(item)
        statements = first + [doings.statement(2) for _ in self.some(1, 2)]
        if is_function and is_group(item.kind) and region.items().get(name) is item:
            statements += self.first_values(Item("variable", name, item.kind))
        if is_function and self.often(0.9):
            statements.append(self.tried(doings.result))
        self.region = outer
        head = f"( {' ; '.join(text for _, text in texts)} )" if texts else ""
        word = "function" if is_function else "procedure"
        self.line(f"{word} {name} {head} {result} ; {locals_text} begin {' ; '.join(statements)} end ;")

    def result_type(self):
        types = self.region.of_sort("type")
        groups = [item for item in types if is_group(item.kind)]
        item = self.draw.choice(groups if groups and self.often(0.4) else types)
        return item.name, item.kind

    @staticmethod
    def tried(form):
        try:
            return form()
        except NoPhrase:
            return ""

    def locals(self):
        """Sections of a routine or block, whose names are put into its region, and first values."""
        found, items = [], []
        for _ in self.some(0, 2):
            name = self.fresh("v")
            text, kind = self.variable_type()
            items.append(self.region.put(Item("variable", name, kind, is_known=False)))
            found.append(f"var {name} : {text} ;")
        statements = [text for item in items for text in self.first_values(item)]
        return " ".join(found), statements

    # Bodies.

    def body(self, header, children, inside):
        """A body whose children may have some headers; the bodies of some of these stand in it."""
        name, outer = self.fresh("b"), self.region
        if name == header.name or outer.items().get(header.name) is not header:
            raise NoPhrase
        item = outer.put(Item("pending", name))
        self.line(f"body {name} for {header.name} ;")
        self.region = Region(outer, is_body=True)
        for own, kind in (*header.formals, *header.exports):
            self.region.put(Item("variable", own, kind))
        for point in header.points:
            self.region.put(point)
        if self.often(0.2):
            self.type_named("t", self.draw.choice([self.enumeration, self.range_type]))
        variables = [self.body_variable() for _ in self.some(1, 4)]
        for _ in self.some(0, 1 + bool(children)):
            text, point = self.point(self.fresh("i"), self.region.of_sort("channel"), is_external=False)
            self.line(text)
            self.region.put(point)
        for own in reversed(inside):
            self.body(own, [each for each in children if each is not own and self.often(0.3)], [])
        self.modules(children)
        for _ in self.some(0, 2):
            self.routine(is_closed=False)
        states = self.states()
        self.initialize(header, variables, states)
        self.transitions(states)
        self.line("end ;")
        self.region = outer
        item.sort, item.header = "body", header
        return name

    def body_variable(self):
        name = self.fresh("v")
        text, kind = self.variable_type()
        self.line(f"var {name} : {text} ;")
        return self.region.put(Item("variable", name, kind, is_known=False))

    def modules(self, headers):
        bodies = [item.header for item in self.region.of_sort("body")]
        for header in headers:
            if header not in bodies or not self.region.is_seen(header.name, "header"):
                continue
            dims = [self.ordinal_type(3)] if self.often(0.3) else []
            text = f"array [ {dims[0][0]} ] of" if dims else ""
            name = self.fresh("k")
            self.line(f"modvar {name} : {text} {header.name} ;")
            own = tuple(kind for _, kind in dims)
            self.region.put(Item("module", name, dims=own, header=header, is_known=False))

    def states(self):
        if self.often(0.25):
            return []
        names = [self.fresh("z") for _ in self.some(1, 3)]
        for name in names:
            self.region.put(Item("state", name))
        self.line(f"state {' , '.join(names)} ;")
        return names

    def initialize(self, header, variables, states):
        if not states and self.often(0.1):
            return
        first = f"to {self.draw.choice(states)} " if states else ""
        outer, self.region = self.region, Region(self.region)
        sections, statements = self.locals() if self.often(0.3) else ("", [])
        exports = [self.region.items()[name] for name, _ in header.exports if self.region.is_seen(name, "variable")]
        for item in [*variables, *exports]:
            if self.often(0.93) and self.region.items().get(item.name) is item:
                statements += self.first_values(item)
        statements += self.first_children()
        doings = self.doings()
        statements += [doings.statement(1) for _ in self.some(0, 2)]
        self.region = outer
        self.line(f"initialize {first}{sections} begin {' ; '.join(statements)} end ;")

    def first_values(self, item):
        """Assignments that give a variable, or some parts of it, values."""
        doings = self.doings()
        try:
            leaves = doings.leaves(item.name, item.kind)
            leaves = self.draw.sample(leaves, min(len(leaves), self.draw.choice([4, 6, 8])))
            found = [f"{text} := {doings.known(kind)}" for text, kind in leaves]
        except NoPhrase:
            return []
        item.is_known = True
        return found

    def first_children(self):
        """Statements that begin children, and tie them."""
        doings, found, ends = self.doings(), [], set()
        for item in self.region.of_sort("module"):
            if self.often(0.85):
                found += self.first_elements(doings, item)
        for _ in self.some(0, 4 if found else 0):
            text = self.tried(doings.tie)
            own = set(re.findall(r"\S.*?(?= to | ;|$)", text.partition(" ")[2].replace(" to ", " ; ")))
            if text and not own & ends:
                found.append(text)
                ends |= own
        return found

    def first_elements(self, doings, item):
        """An `init` of a module variable, or of most of its elements."""
        subscripts = [f"[ {doings.literal_of(kind, value)} ]" for kind in item.dims for value in kind.values()]
        found = []
        for at in subscripts or [""]:
            if not at or self.often(0.8):
                found.append(self.tried(lambda: doings.init_at(item, f"{item.name} {at}")))
        item.is_known = any(found)
        return found

    # Transitions.

    def transitions(self, states):
        count = self.draw.randint(1, 5)
        while count > 0:
            context, is_first = Context(), True
            for _ in self.some(1, 3):
                self.transition(context, states, is_first)
                is_first, count = False, count - 1

    def transition(self, context, states, is_first):
        clauses = self.clauses(context, states, is_first)
        region = Region(context.region(self.region))
        outer, self.region = self.region, region
        sections, statements = self.locals() if self.often(0.2) else ("", [])
        doings = self.doings()
        statements += [doings.statement(2) for _ in self.some(0, 3)]
        if self.often(0.6):
            statements.append(self.tried(doings.output))
        self.region = outer
        name = f"name {self.draw.choice(['a', 'n'])} : " if self.often(0.05) else ""
        head = "trans " if is_first else ""
        self.line(f"{head}{' '.join(clauses)} {name}{sections} begin {' ; '.join(statements)} end ;")

    def clauses(self, context, states, is_first):
        kinds = ["provided"] * self.often(0.4) + ["priority"] * self.often(0.25) + ["to", "from"] * bool(states)
        # What fires at any time keeps children from firing.
        kinds += ["when"] * self.often(0.75 if self.region.of_sort("module") else 0.5)
        kinds += ["any"] * self.often(0.2) + ["delay"] * self.often(0.25)
        self.draw.shuffle(kinds)
        if not is_first and "provided" in context.kinds() and self.often(0.6):
            kinds = ["otherwise"]
        return [self.tried(lambda: self.clause(context, states, kind)) for kind in kinds]

    def clause(self, context, states, kind):
        if kind in ("when", "any") and "delay" in context.kinds():
            return ""
        if kind == "delay" and {"when", "any"} & set(context.kinds()):
            return ""
        kinds = context.kinds()
        before = Context()
        before.clauses = context.clauses[: kinds.index(kind)] if kind in kinds else list(context.clauses)
        outer, self.region = self.region, before.region(self.region)
        try:
            text, items = getattr(self, "clause_" + kind)(states)
        finally:
            self.region = outer
        context.add("provided" if kind == "otherwise" else kind, items)
        return text

    def clause_from(self, states):
        return f"from {' , '.join(self.draw.sample(states, self.draw.randint(1, len(states))))}", ()

    def clause_to(self, states):
        return f"to {self.draw.choice([*states, 'same'])}", ()

    def clause_when(self, states):
        points = self.region.of_sort("point")
        doings = self.doings()
        point = doings.choice(points)
        signals = [
            signal for signal in point.channel.interactions if any(role != point.role for role in signal.senders)
        ]
        signal = doings.choice(signals)
        items = [Item("variable", name, kind, is_fixed=True) for name, kind in signal.formals]
        return f"when {doings.at(point)} . {signal.name}", items

    def clause_provided(self, states):
        return f"provided {self.doings().boolean(2)}", ()

    def clause_otherwise(self, states):
        return "provided otherwise", ()

    def clause_any(self, states):
        names = self.draw.sample(["n", "a", "j"], self.draw.choice([1, 1, 2]))
        texts, items = [], []
        for name in names:
            text, kind = self.ordinal_type(3)
            texts.append(f"{name} : {text}")
            items.append(Item("variable", name, kind, is_fixed=True))
        return f"any {' ; '.join(texts)} do", items

    def clause_priority(self, states):
        return f"priority {self.draw.randint(0, 3)}", ()

    def clause_delay(self, states):
        doings = self.doings()
        least = str(self.draw.randint(0, 4)) if self.often(0.7) else doings.integer(1)
        if self.often(0.4):
            return f"delay ( {least} )", ()
        most = "*" if self.often(0.4) else str(self.draw.randint(0, 9)) if self.often(0.7) else doings.integer(1)
        return f"delay ( {least} , {most} )".replace("( *", "( * "), ()


def drafted(draw):
    """The text of a specification, which may break a rule. Where nothing is left to choose from, another is drawn."""
    while True:
        try:
            return Draft(draw).specification()
        except (NoPhrase, IndexError):
            continue
