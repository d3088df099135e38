"""Draws parts of texts that declare things. Each part is a string, its tokens between blanks."""

import collections
import re

NAMES = "a b c d e f g h".split() + [f"n{number}" for number in range(40)]
TYPES = ["integer", "boolean", "char"]
OTHERS = ["true", "false", "maxint", "ord", "sqr"]
EDGES = """0 1 2 3 5 7 63 64 65 127 128 255 256 257 511 512 32768 65535 65536 65537 2147483646 2147483647 2147483648
4294967295 4294967296 999999999999999999""".split()


NAMED = r"(\w+(?: , \w+)*)"
# What a part declares after a word, until the next such word: the sort, and a form that has the names.
SORTS = {
    "const": [("constant", r"(\w+) = ")],
    "type": [("type", r"(\w+) = "), ("enumerated", rf"= \( {NAMED} \)")],
    "channel": [("channel", r"^ (\w+)"), ("role", r"^ \w+ \( (\w+ , \w+)")],
    "by": [("interaction", r": (\w+)")],
    "module": [("header", r"^ (\w+)")],
    "activity": [("variable", rf"^ \( {NAMED}")],
    "systemactivity": [("variable", rf"^ \( {NAMED}")],
    "body": [("body", r"^ (\w+)")],
    "ip": [("point", rf"{NAMED} : ")],
    "var": [("variable", rf"{NAMED} : ")],
    "export": [("variable", rf"{NAMED} : ")],
    "modvar": [("modvar", rf"{NAMED} : ")],
    "state": [("state", rf"^ {NAMED}")],
    "stateset": [("stateset", r"(\w+) = ")],
    "procedure": [("routine", r"^ (\w+)")],
    "function": [("routine", r"^ (\w+)")],
    "begin": [],
}
SECTION = re.compile(rf"\b({'|'.join(SORTS)})\b")
# Queue disciplines, of a specification and of interaction points.
QUEUES = ["", "individual queue", "common queue"]
# Dimensions of the module variable of the system, with subscripts for them.
SYSTEMS = [
    ("array [ 1 .. 2 ] of", "[ 1 ]"), ("array [ char ] of", "[ chr ( 7 ) ]"),
    ("array [ 1 .. 2 , boolean ] of", "[ 1 , true ]"), ("array [ 0 .. 3 , 0 .. 63 ] of", "[ 1 + 1 , ord ( 'a' ) ]"),
    ("array [ boolean , 1 .. 3 , 'a' .. 'c' ] of", "[ odd ( 1 ) , 3 , 'b' ]"),
]


class Maker:
    """Draws parts of texts. Each part is a string, its tokens between blanks."""

    def __init__(self, draw, parts=()):
        self.draw, self.known = draw, collections.defaultdict(list)
        for part in parts:
            self.note(part)

    def note(self, part):
        """Keeps the names that the part declares, by their sorts."""
        pieces = SECTION.split(part)
        for word, rest in zip(pieces[1::2], pieces[2::2]):
            for sort, form in SORTS[word]:
                for names in re.findall(form, rest):
                    self.known[sort] += names.split(" , ")

    def known_as(self, *sorts):
        """A name, mostly one that is declared somewhere as one of these sorts."""
        names = [name for sort in sorts for name in self.known[sort]]
        return self.draw.choice(names) if names and self.often(0.85) else self.name()

    def one(self, *parts):
        part = self.draw.choice(parts)
        return part if isinstance(part, str) else part()

    def often(self, chance=0.5):
        return self.draw.random() < chance

    def name(self):
        """A name, often one of a few, so that it is declared in several regions."""
        if self.often(0.03):
            return self.draw.choice(TYPES + OTHERS)
        return self.draw.choice(NAMES[:8] if self.often(0.3) else NAMES)

    def names(self):
        return " , ".join(self.name() for _ in range(self.draw.choice([1, 1, 1, 2, 3])))

    def several(self, word, definition):
        """A section of one definition or some, of which the later ones may name what the earlier ones declare."""
        known, section = self.known, word
        self.known = collections.defaultdict(list, {sort: list(names) for sort, names in known.items()})
        for _ in range(self.draw.choice([1, 1, 1, 2, 3])):
            more = definition()
            self.note(f"{word} {more}")
            section += f" {more}"
        self.known = known
        return section

    def number(self):
        return str(self.draw.randint(0, 9)) if self.often(0.8) else self.draw.choice(EDGES)

    def constant(self):
        value = self.one(
            self.number, self.number, lambda: self.known_as("constant", "enumerated"), "'a'", "''''",
            lambda: self.draw.choice(OTHERS[:3]),
        )
        return self.draw.choice(["+ ", "- "]) + value if value[0] != "'" and self.often(0.2) else value

    def bounds(self):
        """A range, mostly of bounds that fit."""
        if self.often(0.1):
            edges = ["0 .. 63", "1 .. 64", "0 .. 64", "1 .. 256", "0 .. 256", "1 .. 65536", "0 .. 65536"]
            return self.draw.choice(edges)
        if self.often(0.6):
            low, high = sorted([int(self.number()), int(self.number())])
            low = -low if self.often(0.3) else low
            return f"{low} .. {high}".replace("-", "- ")
        return f"{self.constant()} .. {self.constant()}"

    def type_name(self):
        return self.draw.choice(TYPES) if self.often(0.4) else self.known_as("type")

    def short(self):
        return self.one(self.type_name, self.bounds)

    def text(self, depth=2):
        if depth == 0 or self.often(0.4):
            return self.short()
        packed = "packed " if self.often(0.1) else ""

        def inner():
            return self.text(depth - 1)

        def array():
            index = " , ".join(self.one(self.short, self.short, inner) for _ in range(self.draw.choice([1, 1, 2, 3])))
            return f"{packed}array [ {index} ] of {inner()}"

        def record():
            fields = " ; ".join(f"{self.names()} : {inner()}" for _ in range(self.draw.choice([1, 2, 3])))
            return f"{packed}record {fields} {self.one('', '', ';')} end"

        def of_set():
            return f"{packed}set of {self.one(inner, '0 .. 63', '0 .. 64')}"

        def levels():
            return "array [ 0 .. 0 ] of " * self.draw.choice([10, 15, 16]) + self.known_as("type")

        return self.one(
            array, array, record, record, of_set, lambda: f"( {self.names()} )", levels
        )

    def params(self):
        parts = " ; ".join(f"{self.names()} : {self.short()}" for _ in range(self.draw.choice([1, 1, 2])))
        return f"( {parts} )" if self.often() else ""

    def dims(self):
        if self.often(0.7):
            return ""
        if self.often():
            return self.one("array [ 1 .. 256 ] of", "array [ 1 .. 257 ] of", "array [ 1 .. 16 , 1 .. 16 ] of")
        return "array [ " + " , ".join(self.short() for _ in range(self.draw.choice([1, 1, 2, 3]))) + " ] of"

    def start(self):
        """The beginning of a specification. The name of its time scale declares nothing."""
        queue = self.draw.choice(QUEUES)
        queue = f"default {queue} ;" if queue else ""
        return f"specification s ; {queue} {self.one('', lambda: f'timescale {self.name()} ;')}"

    def consts(self):
        return self.several("const", lambda: f"{self.name()} = {self.constant()} ;")

    def types(self):
        return self.several("type", lambda: f"{self.name()} = {self.text()} ;")

    def vars(self):
        return self.several("var", lambda: f"{self.names()} : {self.text()} ;")

    def full(self):
        """Variables of about as many scalars as there may be."""
        count = self.draw.choice(["65535", "65536", "32768", "65537"])
        large = f"{self.names()} : array [ 1 .. {count} ] of {self.type_name()}"
        return f"var {large} ; {self.names()} : {self.type_name()} ;"

    def channel(self):
        name, one, other = self.name(), self.name(), self.name()
        by = []
        for _ in range(self.draw.choice([1, 2])):
            roles = self.one(one, other)
            if self.often(0.3):
                roles = self.one(f"{one} , {other}", self.name)
            signals = " ".join(f"{self.name()} {self.params()} ;" for _ in range(self.draw.choice([1, 2])))
            by.append(f"by {roles} : {signals}")
        return f"channel {name} ( {one} , {other} ) ; {' '.join(by)}"

    def point(self):
        """The definition of interaction points, mostly of a role that their channel has."""
        channel, role = self.known_as("channel"), self.known_as("role")
        if channel in self.known["channel"] and self.often(0.95):
            at = self.known["channel"].index(channel) * 2
            role = self.draw.choice(self.known["role"][at : at + 2])
        return f"{self.names()} : {self.dims()} {channel} ( {role} ) {self.draw.choice(QUEUES)} ;"

    def points(self):
        return self.several("ip", self.point)

    def exports(self):
        return self.several("export", lambda: f"{self.names()} : {self.short()} ;")

    def header(self):
        sections = [self.one(self.points, self.exports) for _ in range(self.draw.choice([0, 1, 1, 2]))]
        attribute = self.one("activity", "activity", "systemactivity")
        return f"module {self.name()} {attribute} {self.params()} ; {' '.join(sections)} end ;"

    def modvars(self):
        return self.several("modvar", lambda: f"{self.names()} : {self.dims()} {self.known_as('header')} ;")

    def states(self):
        names = [self.name() for _ in range(self.draw.choice([1, 1, 2, 3, 4, 6]))]
        return f"state {' , '.join(names)} ;"

    def stateset(self):
        states = [self.known_as("state") for _ in range(self.draw.choice([1, 1, 2, 2, 3, 4]))]
        return f"{self.name()} = [ {' , '.join(states)} ] ;"

    def statesets(self):
        return self.several("stateset", self.stateset)

    def section(self):
        return self.one(self.consts, self.types, self.vars, self.vars, self.full)

    def block(self):
        """A block whose statements are still to come."""
        sections = " ".join(self.section() for _ in range(self.draw.choice([0, 0, 1, 2])))
        return f"{sections} begin end ;"

    def routine(self):
        is_function = self.often()
        formals = " ; ".join(
            f"{'var' if self.often(0.05 if is_function else 0.4) else ''} {self.names()} : {self.type_name()}"
            for _ in range(self.draw.choice([1, 1, 2]))
        )
        formals = f"( {formals} )" if self.often(0.4 if is_function else 0.6) else ""
        if not is_function:
            return f"procedure {self.name()} {formals} ; {self.block()}"
        pure = "pure " if self.often(0.1) else ""
        result = self.one(self.type_name, lambda: self.known_as("type"))
        return f"{pure}function {self.name()} {formals} : {result} ; {self.block()}"

    def tuples(self):
        small = self.one("1 .. 3", "boolean", "1 .. 32", "0 .. 1023", "1 .. 1025", self.short)
        return self.one(
            f"any {self.names()} : {small} do",
            f"any {self.name()} : {small} do",
            f"any {self.name()} : {self.short()} ; {self.names()} : {small} do",
        )

    def common(self):
        return self.one(
            self.consts, self.consts, self.types, self.types, self.channel, self.header, self.routine, self.routine,
            self.modvars,
        )

    def own(self):
        return self.one(self.points, self.points, self.vars, self.vars, self.full, self.states, self.statesets)
