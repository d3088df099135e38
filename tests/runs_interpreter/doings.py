"""Draws statements."""

from .phrases import NoPhrase, Phrases
from .regions import Item, Region
from .values import INTEGER, Ordinal, is_group


class Doings(Phrases):
    """Draws the statements of a block or routine. `writes` tells which variables a function may write."""

    def __init__(self, draw, region, own=None):
        super().__init__(draw, region)
        # The function whose text is drawn.
        self.own = own

    def variables(self, is_written=False):
        found = super().variables(is_written)
        if self.own and is_written:
            return [item for item in found if item.name in self.own.locals and self.own.locals[item.name] is item]
        return found

    def exports(self):
        return [] if self.own else super().exports()

    def statements(self, count, depth=2):
        return " ; ".join(self.statement(depth) for _ in range(count))

    def statement(self, depth):
        for _ in range(5):
            try:
                return self.choice(self.forms(depth))()
            except NoPhrase:
                continue
        return ""

    def forms(self, depth):
        forms = [self.assign] * 5 + [lambda: ""]
        if depth > 0:
            forms += [lambda: self.branch(depth)] * 3 + [lambda: self.case(depth), lambda: self.loop(depth)]
            forms += [lambda: self.repeat(depth), lambda: self.count(depth), lambda: self.count(depth)]
            forms += [lambda: self.all_values(depth), lambda: self.compound(depth)]
        if self.own:
            return forms + [self.result] * 2
        forms += [self.call_procedure] * 3 + [self.output] * 7
        if self.region.of_sort("module", "child"):
            forms += [self.init] * 3 + [self.release] + [self.tie] * 5
            forms += [lambda: self.all_children(depth)] * 2 if depth > 0 else []
        return forms

    def inner(self, depth):
        return self.statement(depth - 1)

    def assign(self):
        text, kind = self.place(lambda kind: True, is_written=True)
        return f"{text} := {self.value(kind)}"

    def result(self):
        if not self.region.is_seen(self.own.item.name, "function"):
            raise NoPhrase
        text, kind = self.own.item.name, self.own.item.kind
        while is_group(kind) and self.often(0.7):
            text, kind = self.part(text, kind)
        return f"{text} := {self.value(kind)}"

    def branch(self, depth):
        text = f"if {self.boolean(2)} then {self.inner(depth)}"
        return f"{text} else {self.inner(depth)}" if self.often() and "if" not in text[3:] else text

    def compound(self, depth):
        return f"begin {self.statements(self.draw.choice([1, 2, 3]), depth - 1)} end"

    def case(self, depth):
        host = self.choice([INTEGER.host, *self.hosts()])
        names = list(host.names) or None
        if names:
            found = [self.named(host, name) for name in names]
        elif host is INTEGER.host:
            found = [str(number) for number in range(4)]
        else:
            found = ["'a'", "'b'", "'c'"]
        self.draw.shuffle(found)
        if self.often(0.2) and len(found) > 1:
            found.pop()
        cut = self.draw.randint(1, len(found))
        arms = [part for part in (found[:cut], found[cut:]) if part]
        text = " ; ".join(f"{' , '.join(part)} : {self.inner(depth)}" for part in arms)
        kind = Ordinal(host, 0, 3) if host is INTEGER.host else None
        value = self.within(kind, 1) if kind else self.ordinal(host, 1)
        return f"case {value} of {text} end"

    def loop(self, depth):
        """A `while` that mostly ends."""
        text, _ = self.place(lambda kind: kind == INTEGER, is_written=True)
        if self.often(0.15):
            return f"while {self.boolean(1)} do {self.inner(depth)}"
        step = f"{text} := {text} {self.choice('+-')} 1"
        turn = f"begin {step} ; {self.inner(depth)} end"
        bound = self.draw.randint(0, 4)
        value = f"abs ( {text} )" if self.region.is_seen("abs", "predeclared") else text
        return f"while {value} < {bound} do {turn}"

    def repeat(self, depth):
        text, _ = self.place(lambda kind: kind == INTEGER, is_written=True)
        return f"repeat {text} := {text} + 1 ; {self.inner(depth)} until {text} > {self.draw.randint(0, 4)}"

    def count(self, depth):
        """A `for`, whose variable may not be written in it."""
        candidates = [item for item in self.variables(is_written=True) if isinstance(item.kind, Ordinal)]
        item = self.choice(candidates)
        low, high = self.bound(item.kind), self.bound(item.kind)
        direction = self.choice(["to", "to", "downto"])
        item.is_fixed = True
        try:
            turn = self.inner(depth)
        finally:
            item.is_fixed = False
        return f"for {item.name} := {low} {direction} {high} do {turn}"

    def bound(self, kind):
        if kind.host is INTEGER.host and kind.low <= 0 and self.often(0.8):
            return str(self.draw.randint(0, min(3, kind.high))) if kind.high >= 0 else self.literal(kind)
        return self.within(kind, 1)

    def within_all(self, item, depth):
        """A statement in which the name of an `all` is in force."""
        outer, self.region = self.region, Region(self.region)
        self.region.put(item)
        try:
            return self.inner(depth)
        finally:
            self.region = outer

    def all_values(self, depth):
        name = self.choice(["n", "m", "a", "all1"])
        if self.often(0.6):
            low = self.draw.randint(-1, 2)
            high = low + self.draw.randint(0, 2)
            kind, text = Ordinal(INTEGER.host, low, high), f"{low} .. {high}".replace("-", "- ")
        else:
            types = [
                item for item in self.region.of_sort("type")
                if isinstance(item.kind, Ordinal) and len(item.kind.values()) <= 6
            ]
            item = self.choice(types)
            kind, text = item.kind, item.name
        return f"all {name} : {text} do {self.within_all(Item('variable', name, kind, is_fixed=True), depth)}"

    # What functions do not do.

    def call_procedure(self):
        item = self.choice(self.region.of_sort("procedure"))
        arguments = [self.place(lambda own: own == kind, is_written=True)[0] if is_place else self.value(kind, 1)
                     for is_place, kind in item.formals]
        return f"{item.name} ( {' , '.join(arguments)} )" if arguments else item.name

    def output(self):
        count = self.draw.choice([1, 1, 1, 2])
        return f"output {' , '.join(self.sending() for _ in range(count))}"

    def sending(self):
        point = self.choice(self.region.of_sort("point"))
        signals = [signal for signal in point.channel.interactions if point.role in signal.senders]
        signal = self.choice(signals)
        return f"{self.at(point)} . {self.with_arguments(signal.name, signal.formals)}"

    def with_arguments(self, name, formals):
        if not formals:
            return name
        return f"{name} ( {' , '.join(self.value(kind, 1) for _, kind in formals)} )"

    def module(self):
        return self.choice(self.modules())

    def init(self):
        return self.init_of(self.choice(self.region.of_sort("module")))

    def init_of(self, item):
        return self.init_at(item, self.at(item))

    def init_at(self, item, at):
        bodies = [body for body in self.region.of_sort("body") if body.header is item.header]
        body = self.choice(bodies)
        return f"init {at} with {self.with_arguments(body.name, item.header.formals)}"

    def release(self):
        return f"release {self.at(self.module())}"

    def all_children(self, depth):
        header = self.choice(self.region.of_sort("header"))
        item = Item("child", self.choice(["c", "child", "n"]), header=header)
        return f"all {item.name} : {header.name} do {self.within_all(item, depth)}"

    def end(self, is_external):
        """(text, point) of a child's point, or of an own one."""
        if self.often(0.6):
            item = self.module()
            point = self.choice(item.header.points)
            return f"{self.at(item)} . {self.at(point)}", point
        return self.own_end(is_external)

    def own_end(self, is_external):
        points = [item for item in self.region.of_sort("point") if item.is_external == is_external]
        point = self.choice(points)
        return self.at(point), point

    def tie(self):
        return self.choice([self.connect, self.connect, self.attach, self.attach, self.attach, self.untie])()

    def untie(self):
        word = self.choice(["detach", "disconnect"])
        if self.often(0.4):
            return f"{word} {self.at(self.module())}"
        return f"{word} {self.end(is_external=word == 'detach')[0]}"

    def connect(self):
        for _ in range(10):
            (one, first), (other, second) = self.end(False), self.end(False)
            if first.channel is second.channel and first.role != second.role:
                return f"connect {one} to {other}"
        raise NoPhrase

    def attach(self):
        for _ in range(10):
            own, first = self.own_end(True)
            item = self.module()
            second = self.choice(item.header.points)
            if first.channel is second.channel and first.role == second.role:
                return f"attach {own} to {self.at(item)} . {self.at(second)}"
        raise NoPhrase


class Function:
    """A function whose text is drawn: its item, and the variables that it may write."""

    def __init__(self, item, variables):
        self.item, self.locals = item, {own.name: own for own in variables}
