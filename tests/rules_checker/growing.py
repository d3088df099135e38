"""Draws texts. A text grows part by part, and of the parts that break a rule only some are kept; then single
tokens of it are replaced, and parts of it are dropped and swapped."""

import functools

from .drawing import EDGES, NAMES, OTHERS, SYSTEMS, TYPES, Maker
from .kinds import BOOLEAN, INTEGER
from .phrasing import Phrases
from .tokens import WORDS, Refused, tokens_of
from .verdict import checked_tokens


@functools.lru_cache(5000)
def tokens_of_part(part):
    return tokens_of(part.encode())


def read(parts):
    """The checker that has read the text of the parts, with a blank between them."""
    tokens, at = [], 0
    for part in parts:
        tokens += [token._replace(at=token.at + at) for token in tokens_of_part(part)]
        at += len(part) + 1
    return checked_tokens(tokens)


def is_sentence(parts):
    try:
        return bool(read(parts))
    except Refused:
        return False


class Growth:
    """A text that grows. It has one body for its system, in which most of it stands."""

    def __init__(self, draw):
        self.draw, self.maker = draw, Maker(draw)
        self.parts = [self.maker.start()]
        self.chance = draw.choice([0, 0, 0, 0, 0.03])
        # While it begins, the names of the last `init` are still to come.
        self.broken = 2
        # Of each body that is open, outermost first: whether declarations (0), transitions (2) or neither may come.
        self.phases = [0]
        self.end = "initialize begin init a with b end ; end ."

    def often(self, chance=0.5):
        return self.draw.random() < chance

    def text_with(self, part, opened=0):
        ends = ["end ;"] * (len(self.phases) - 1 + opened)
        return [*self.parts, part, *ends, self.end]

    def count_of(self, parts):
        """How many pairs there are, without those of the first states that are still to come."""
        try:
            return sum(rule != 14 for _, rule in read(parts).pairs)
        except Refused:
            return 1000

    def add(self, part, opened=0):
        """Keeps a part that breaks no rule, and now and then one that does."""
        count = self.count_of(self.text_with(part, opened))
        if count > self.broken and (count == 1000 or not self.often(self.chance)):
            return False
        self.broken = max(count, self.broken)
        self.parts.append(part)
        self.maker.note(part)
        return True

    def add_some(self, form, opened=0):
        return any(self.add(form(), opened) for _ in range(40))

    def phrases(self, scope, checker):
        return Phrases(self.draw, checker, scope, self.draw.choice([0, 0, 0.05]))

    def filled(self, part):
        """The same part, with statements in its block, which is empty, and expressions in its clauses."""
        for _ in range(self.draw.choice([1, 2, 3])):
            checker = read(self.text_with(part))
            phrases = self.phrases(checker.scopes[-2 if part.startswith("body") else -1], checker)
            before, _, after = part.rpartition(" end ;")
            gap = " ; " if not before.endswith("begin") else " "
            fuller = f"{before}{gap}{phrases.statement()} end ;{after}"
            count = self.count_of(self.text_with(fuller))
            if count <= self.broken or count < 1000 and self.often(self.chance):
                part = fuller
        return part

    def here(self):
        """What is in force at the end of the innermost body that is open."""
        checker = read(self.text_with(""))
        return self.phrases(checker.insides[1 - len(self.phases)], checker)

    # Parts.

    def begin(self):
        """The channels, headers and the module variable of the system, and its body: whether they are right."""
        self.add_some(self.channel)
        self.add_some(self.maker.channel)
        for attribute in ("systemactivity", "activity", "activity"):
            self.add_some(lambda: self.header(attribute))
        if not self.maker.known["header"]:
            return False
        system = self.maker.known["header"][0]
        module, body = self.draw.sample(NAMES, 2)
        dims, subscripts = self.draw.choice(SYSTEMS) if self.often(0.4) else ("", "")
        self.add_some(lambda: f"modvar {module} : {dims} {system} ;{self.more_modvars(system)}")
        self.add_some(self.taker)
        if self.often(0.7):
            self.add_some(self.parted)
            self.add_some(self.giver)
        for _ in range(self.draw.choice([0, 2, 6])):
            self.add_declaration()
        if not self.add_some(lambda: f"body {body} for {system} ;", opened=1):
            return False
        self.phases.append(0)
        known = read(self.text_with("")).region.in_force.get(system)
        if not known or known.sort != "header":
            return False
        formals = known.formals
        literals = {"integer": "1", "boolean": "true", "char": "'a'"}
        values = " , ".join(literals.get(kind and kind.host, "1") for kind in formals)
        arguments = f"( {values} )" if values else ""
        last = ";" if self.often(0.2) else ""
        self.end = f"initialize begin init {module} {subscripts} with {body} {arguments} {last} end ; end ."
        self.broken = 0
        self.begin_body()
        for header in self.maker.known["header"][1:]:
            self.add_some(lambda: f"modvar {self.maker.names()} : {self.maker.dims()} {header} ;")
            if self.add_some(lambda: f"body {self.maker.name()} for {header} ;", opened=1):
                self.parts.append("end ;")
        return self.count_of(self.text_with("")) == 0

    def channel(self):
        names = iter(self.draw.sample(NAMES, 8))
        one, other = next(names), next(names)
        by = [f"by {role} : {next(names)} {self.maker.params()} ; {next(names)} ;" for role in (one, other)]
        if self.often(0.3):
            by.append(f"by {one} , {other} : {next(names)} ;")
        return f"channel {next(names)} ( {one} , {other} ) ; {' '.join(by)}"

    def header(self, attribute):
        maker = self.maker
        kinds = [self.draw.choice(TYPES) for _ in range(self.draw.choice([0, 0, 1, 2]))]
        params = " ; ".join(f"{maker.name()} : {kind}" for kind in kinds)
        sections = []
        for _ in range(self.draw.choice([1, 1, 2])):
            sections.append(maker.points())
            if self.often(0.7):
                sections.append(maker.exports())
        params = f"( {params} )" if params else ""
        return f"module {maker.name()} {attribute} {params} ; {' '.join(sections)} end ;"

    def taker(self):
        """A procedure with `var` formals."""
        known, maker = self.maker.known, self.maker
        formals = " ; ".join(
            f"{self.draw.choice(['var', 'var', ''])} {maker.name()} : {self.draw.choice(TYPES + known['type'])}"
            for _ in range(self.draw.choice([1, 2, 3]))
        )
        return f"procedure {maker.name()} ( {formals} ) ; begin end ;"

    def parted(self):
        """A type whose values have parts."""
        maker, kinds = self.maker, [self.draw.choice(TYPES) for _ in range(3)]
        record = f"record {maker.name()} : {kinds[0]} ; {maker.name()} : {kinds[1]} end"
        array = f"array [ {self.draw.choice(['1 .. 3', 'boolean', 'char , boolean'])} ] of {kinds[2]}"
        text = maker.one(record, array, f"array [ 1 .. 3 ] of {record}", f"record a : {array} ; b : {record} end")
        return f"type {maker.name()} = {text} ;"

    def giver(self):
        """A function without formals, mostly of a type that is declared."""
        result = self.draw.choice(self.maker.known["type"][-2:] or TYPES)
        part = f"function {self.maker.name()} : {result} ; begin end ;"
        return self.filled(part) if self.count_of(self.text_with(part)) <= self.broken else part

    def ordinals(self):
        """Variables that are mostly ordinal."""
        return f"var {self.maker.names()} : {self.draw.choice(TYPES + self.maker.known['type'])} ;"

    def begin_body(self):
        """Variables, points and module variables with which a body begins."""
        self.add_some(self.ordinals)
        if self.often():
            self.add_some(self.maker.points)
        if self.often():
            self.add_child()

    def more_modvars(self, header):
        """The definitions of some module variables more in a section."""
        count = self.draw.choice([0, 0, 1, 2])
        return "".join(f" {self.maker.names()} : {self.maker.dims()} {header} ;" for _ in range(count))

    def add_declaration(self):
        is_body = len(self.phases) > 1
        form = self.maker.own if is_body and self.often(0.6) else self.maker.common
        for _ in range(10):
            part = form()
            opens = part.split()[0] in ("procedure", "function", "pure")
            if opens and self.count_of(self.text_with(part)) <= self.broken:
                part = self.filled(part)
            if self.add(part):
                return

    def add_child(self):
        """A module variable of a header that is seen here."""
        header, _ = self.here().of_sort("header")
        more = self.more_modvars(header)
        self.add_some(lambda: f"modvar {self.maker.names()} : {self.maker.dims()} {header} ;{more}")

    def add_states(self):
        """A section of states, or one of state sets of the states that are in force."""
        here = self.here()
        states = [name for name, declared in here.named.items() if declared.sort == "state"]
        if not states:
            self.add_some(self.maker.states)
            return
        self.add_some(
            lambda: self.maker.several("stateset", lambda: f"{self.maker.name()} = [ {here.some_of(states)} ] ;")
        )

    def add_body(self):
        header, _ = self.here().of_sort("header")
        for _ in range(10):
            if self.add(f"body {self.maker.name()} for {header} ;", opened=1):
                self.phases.append(0)
                self.begin_body()
                return

    def first_state(self):
        states = [name for name, declared in self.here().named.items() if declared.sort == "state"]
        return f"to {self.draw.choice(states)} " if states else ""

    def add_initialize(self):
        part = f"initialize {self.first_state()}{self.maker.block()}"
        if self.count_of(self.text_with(part)) <= self.broken:
            part = self.filled(part)
        if self.add(part):
            self.phases[-1] = 1

    def add_transition(self):
        here, clauses = self.here(), []
        if self.often(0.3):
            clauses.append(self.maker.tuples())
        if self.often(0.4):
            clauses.append(f"when {here.sending(is_sent=False)}")
        states = [name for name, declared in here.named.items() if declared.sort in ("state", "stateset")]
        if states and self.often():
            clauses.append(f"from {here.some_of(states)}")
        if states and self.often():
            clauses.append(self.draw.choice(["to same", f"to {self.draw.choice(states)}"]))
        if self.often(0.2):
            clauses.append(self.draw.choice(["priority 1", "priority 0", f"priority {self.maker.constant()}"]))
        self.draw.shuffle(clauses)
        name = "name a : " if self.often(0.1) else ""
        head = "trans " if self.phases[-1] < 2 or self.often(0.3) else ""
        block = self.maker.block()
        clauses = head + " ".join(clauses)
        if self.count_of(self.text_with(f"{clauses} {name}{block}")) <= self.broken:
            clauses = self.guarded(clauses, block)
        part = f"{clauses} {name}{block}"
        if self.count_of(self.text_with(part)) <= self.broken:
            part = self.filled(part)
        if self.add(part):
            self.phases[-1] = 2

    def guarded(self, clauses, block):
        """The same clauses with a condition or a delay more."""
        checker = read(self.text_with(f"{clauses} {block}"))
        phrases = self.phrases(checker.scopes[-1], checker)
        more = phrases.one(
            "", "", "provided otherwise", lambda: f"provided {phrases.value(BOOLEAN)}",
            lambda: f"delay ( {phrases.value(INTEGER)} )",
            lambda: f"delay ( {phrases.value(INTEGER)} , {phrases.one('*', lambda: phrases.value(INTEGER))} )",
        )
        guarded = f"{clauses} {more}"
        return guarded if self.count_of(self.text_with(f"{guarded} {block}")) <= self.broken else clauses

    def close(self):
        if self.phases[-1] == 0 and self.often(0.99):
            self.add_initialize()
            if self.phases[-1] == 0 and self.first_state():
                self.add(f"initialize {self.first_state()}begin end ;")
        self.phases.pop()
        self.parts.append("end ;")

    def grow(self, count):
        for _ in range(count):
            phase, lot = self.phases[-1], self.draw.random()
            if lot < 0.1 and len(self.phases) > 2:
                self.close()
            elif phase == 0 and lot < 0.2 and len(self.phases) < 4:
                self.add_body()
            elif phase == 0 and lot < 0.35:
                self.add_child()
            elif phase == 0 and lot < 0.45:
                self.add_states()
            elif phase == 0 and lot < 0.75:
                self.add_declaration()
            elif phase == 0:
                self.add_initialize()
            else:
                self.add_transition()
        while len(self.phases) > 1:
            self.close()
        return [*self.parts, self.end]


def grown(draw):
    """The parts of a random sentence."""
    while True:
        growth = Growth(draw)
        if growth.begin():
            return growth.grow(draw.choice([15, 25, 40]))


def mutated(draw, parts):
    """The same with a change or two, mostly such that it is a sentence still."""
    change = draw.choice([
        *[with_a_statement] * 5, *[with_a_clause] * 2, *[changed_once] * 4, with_another_end, with_a_function,
    ])
    for _ in range(10):
        changed = change(draw, parts)
        if is_sentence(changed):
            break
    return changed


def with_a_statement(draw, parts):
    """The same with a statement or two more in a block, in which something may be wrong."""
    parts = list(parts)
    blocks = [at for at, part in enumerate(parts[:-1]) if "begin" in part.split()]
    if not blocks:
        return changed_once(draw, parts)
    for _ in range(draw.choice([1, 1, 2])):
        number = draw.randrange(len(blocks))
        checker = read(parts)
        phrases = Phrases(draw, checker, checker.scopes[number], draw.choice([0, 0, 0.05, 0.1, 0.2, 0.3]))
        before, _, _ = parts[blocks[number]].rpartition(" end ;")
        text = f"{before} ; {phrases.one(phrases.statement, phrases.naming)} end ;"
        if is_sentence([*parts[: blocks[number]], text, *parts[blocks[number] + 1 :]]):
            parts[blocks[number]] = text
    return parts


def with_a_clause(draw, parts):
    """The same with a clause more in front of a block, in which something may be wrong."""
    parts = list(parts)
    blocks = [at for at, part in enumerate(parts[:-1]) if "begin" in part.split()]
    number = draw.randrange(len(blocks)) if blocks else 0
    words = parts[blocks[number]].split() if blocks else ["procedure"]
    if words[0] in ("procedure", "function", "pure", "initialize"):
        return with_a_statement(draw, parts)
    checker = read(parts)
    phrases = Phrases(draw, checker, checker.scopes[number], draw.choice([0, 0.05, 0.1, 0.3]))
    clause = phrases.one(
        lambda: f"delay ( {phrases.value(INTEGER)} )", lambda: f"delay ( {phrases.value(INTEGER)} , * )",
        lambda: f"when {phrases.sending(is_sent=False)}", lambda: f"provided {phrases.value(BOOLEAN)}",
        Maker(draw, parts).tuples, lambda: f"priority {phrases.literal(INTEGER)}", "provided otherwise",
        lambda: f"from {phrases.some_states()}", lambda: f"to {phrases.of_sort('state')[0]}",
    )
    at = 1 if words[0] == "trans" else 0
    parts[blocks[number]] = " ".join([*words[:at], clause, *words[at:]])
    return parts


def with_another_end(draw, parts):
    """The same with another last statement, in which something may be wrong."""
    checker = read(parts)
    phrases = Phrases(draw, checker, (checker.region, None, None), draw.choice([0, 0.05, 0.2]))
    init, last = phrases.init(), draw.choice(["", ";"])
    return [*parts[:-1], f"initialize begin {init} {last} end ; end ."] if init else changed_once(draw, parts)


def with_a_function(draw, parts):
    """The same with `var` before formals of a function, which may be one more."""
    parts, maker = list(parts), Maker(draw, parts)
    functions = [at for at, part in enumerate(parts) if "function" in part.split()[:2]]
    if functions and draw.random() < 0.5:
        at = draw.choice(functions)
        tokens = parts.pop(at).split()
    else:
        at = draw.randrange(1, len(parts))
        formals = " ; ".join(f"{maker.names()} : {maker.type_name()}" for _ in range(draw.choice([1, 2, 3])))
        tokens = f"function {maker.name()} ( {formals} ) : {maker.type_name()} ; {maker.block()}".split()
    parts.insert(at, with_var_formals(draw, tokens))
    return parts


def with_var_formals(draw, tokens):
    """The tokens of a function with `var` before some of its formals."""
    start = tokens.index("function") + 2
    if tokens[start] == "(":
        places = [at + 1 for at in range(start, tokens.index(")")) if tokens[at] in ("(", ";")]
        for at in sorted(draw.sample(places, draw.randrange(1, len(places) + 1)), reverse=True):
            tokens = [*tokens[:at], *["var"] * (tokens[at] != "var"), *tokens[at:]]
    return " ".join(tokens)


def changed_once(draw, parts):
    """The same with a token replaced, with a part more, or with parts dropped or swapped."""
    parts, maker = list(parts), Maker(draw, parts)
    for _ in range(draw.choice([1, 1, 1, 2])):
        at = draw.randrange(1, len(parts))
        form = draw.randrange(14)
        if form == 0 and len(parts) > 2:
            del parts[at if parts[at] != "end ;" else 1]
        elif form == 1:
            other = draw.randrange(1, len(parts))
            parts[at], parts[other] = parts[other], parts[at]
        elif form < 5:
            form = draw.choice([maker.types, maker.types, maker.vars, maker.full, maker.consts, maker.points,
                                maker.modvars, maker.statesets, maker.routine, maker.header])
            parts.insert(at, form())
        elif form < 8:
            sections = [at for at in range(1, len(parts)) if parts[at].split()[0] in SECTIONS]
            if sections:
                at = draw.choice(sections)
                parts[at] = replaced(draw, maker, parts[at].split())
        else:
            blocks = [at for at in range(1, len(parts)) if parts[at] != "end ;"]
            at = draw.choice(blocks)
            parts[at] = touched(draw, parts[at].split(), " ".join(parts).split())
    return parts


HIDDEN = ["variable", "modvar", "state", "stateset", "point", "routine"]
SECTIONS = "const type var channel module body ip modvar state stateset procedure function".split()
OPERATORS = "+ - * = <> < <= > >= div mod and or in".split()
LINKS = "connect attach".split()
ENDS = "detach disconnect release".split()


def replaced(draw, maker, tokens):
    """The tokens with one name or number replaced that stands before the first `begin`, or with a sign or
    `var` more, or another attribute."""
    end = tokens.index("begin") if "begin" in tokens else len(tokens)
    places = [at for at in range(1, end) if tokens[at][0].isalnum() and tokens[at] not in WORDS]
    at = draw.choice(places)
    sorts = list(maker.known) if draw.random() < 0.5 else HIDDEN
    names = [name for sort in sorts for name in maker.known[sort]] or NAMES
    if tokens[0] == "module" and draw.random() < 0.3:
        return " ".join([*tokens[:2], draw.choice(["activity", "systemactivity"]), *tokens[3:]])
    if draw.random() < 0.1:
        return " ".join([*tokens[:at], "-", *tokens[at:]])
    if tokens[at][0].isdigit():
        tokens[at] = draw.choice(EDGES + names)
    else:
        tokens[at] = draw.choice(names * 2 + TYPES + OTHERS)
    return " ".join(tokens)


def touched(draw, tokens, others):
    """The tokens with one of them replaced by one like it, or with a few more after it."""
    if draw.random() < 0.25:
        at = draw.randrange(1, len(tokens)) if len(tokens) > 1 else 0
        more = draw.choice(
            ["[ 1 ]", "( 1 )", ". a", "not", "-", "+ 1", "[ ]", "( true )", ", 1", "[ true ]", "; release a"]
        )
        return " ".join([*tokens[:at], more, *tokens[at:]])
    for _ in range(20):
        at = draw.randrange(len(tokens))
        token = tokens[at]
        if token in OPERATORS:
            tokens[at] = draw.choice(OPERATORS)
        elif token in LINKS + ENDS:
            tokens[at] = draw.choice(LINKS if token in LINKS else ENDS)
        elif token[0] == "'" or token[0].isdigit():
            tokens[at] = draw.choice([*EDGES, "true", "'a'", "''''", "[ ]"])
        elif token[0].isalpha() and token not in WORDS:
            names = [other for other in others if other[0].isalpha() and other not in WORDS]
            tokens[at] = draw.choice(names + OTHERS)
        else:
            continue
        break
    return " ".join(tokens)


def spelled(draw, parts):
    """The text of the parts, with other blanks, comments and letters here and there."""
    text = ""
    for token in " ".join(parts).split():
        text += token.upper() if draw.random() < 0.03 and token[0] != "'" else token
        text += draw.choice(["\n", " {x} ", "\t", "(* y\n *)"]) if draw.random() < 0.08 else " "
    return text.encode()
