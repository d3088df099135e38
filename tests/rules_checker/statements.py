"""Reads statements and expressions as trees.

A statement is ("word", first token, ..). An expression is ("expr", first token, left, None or (operator, right)),
of two sums ("sum", first token, sign, term, [(operator, term)]), of products ("product", first token, factor,
[(operator, factor)]), of factors whose second item is the first token.
"""

from .tokens import Refused, Token

LEVELS = 32
OPENERS = ("begin", "if", "case", "while", "repeat", "for", "all")


class TokenReader:
    """Takes tokens from left to right."""

    def __init__(self, tokens):
        self.tokens, self.place, self.depth = tokens, 0, 0

    def next(self):
        return self.tokens[self.place] if self.place < len(self.tokens) else Token("end", "", 0)

    def is_next(self, *spelled):
        token = self.next()
        return token.kind == "word" and token.text in spelled

    def may(self, *spelled):
        if self.is_next(*spelled):
            self.place += 1
            return self.tokens[self.place - 1]
        return None

    def must(self, *spelled):
        return self.may(*spelled) or self.refuse()

    def refuse(self):
        raise Refused

    def is_kind(self, kind):
        return self.next().kind == kind

    def take(self, kind):
        if not self.is_kind(kind):
            raise Refused
        self.place += 1
        return self.tokens[self.place - 1]

    def name(self):
        return self.take("ident")

    def open(self):
        self.depth += 1
        if self.depth > LEVELS:
            raise Refused

    def close(self):
        self.depth -= 1

    def names(self):
        return self.several(self.name)

    def several(self, item, between=","):
        items = [item()]
        while self.may(between):
            items.append(item())
        return items

    def while_names(self, item):
        items = [item()]
        while self.is_kind("ident"):
            items.append(item())
        return items


class StatementReader(TokenReader):
    """Reads the statements of a block."""

    def constant(self):
        """(sign or None, token)."""
        if self.is_kind("character"):
            return None, self.take("character")
        sign = self.may("+", "-")
        return sign, self.take("number" if self.is_kind("number") else "ident")

    def shorttype(self):
        first = self.next()
        low = self.constant()
        if low[0] is None and low[1].kind == "ident" and not self.is_next(".."):
            return ("named", low[1])
        self.must("..")
        return ("range", first, low, self.constant())

    def statements(self):
        return self.several(self.statement, ";")

    def statement(self):
        first = self.next()
        if self.is_kind("ident"):
            return self.assign_or_call(self.name())
        if first.kind == "word" and first.text in OPENERS:
            self.open()
            node = getattr(self, "read_" + first.text)(self.must(first.text))
            self.close()
            return node
        word = self.may("output", "init", "release", "connect", "disconnect", "attach", "detach")
        return getattr(self, "read_" + word.text)(word) if word else ("empty", first)

    def assign_or_call(self, name):
        if not self.is_next("[", ".", ":="):
            return ("call", name, self.arguments())
        path = self.selectors()
        self.must(":=")
        return ("assign", name, path, self.expr())

    def read_output(self, word):
        return ("output", word, self.several(self.sending))

    def sending(self):
        at = self.access()
        self.must(".")
        return at, self.name(), self.arguments()

    def read_init(self, word):
        target = self.access()
        self.must("with")
        return ("init", word, target, self.name(), self.arguments())

    def read_release(self, word):
        return ("release", word, self.access())

    def read_connect(self, word):
        one = self.end_point()
        self.must("to")
        return ("connect", word, one, self.end_point())

    def read_disconnect(self, word):
        return ("untie", word, self.end_point())

    read_detach = read_disconnect

    def read_attach(self, word):
        own = self.access()
        self.must("to")
        child = self.access()
        self.must(".")
        return ("attach", word, own, (child, self.access()))

    def end_point(self):
        """(access, access or None)."""
        first = self.access()
        return first, self.access() if self.may(".") else None

    def access(self):
        """(name, subscripts)."""
        return self.name(), self.subscripts()

    def read_begin(self, word):
        turn = self.statements()
        self.must("end")
        return ("compound", word, turn)

    def read_if(self, word):
        condition = self.expr()
        self.must("then")
        turns = [self.statement()]
        if self.may("else"):
            turns.append(self.statement())
        return ("if", word, condition, turns)

    def read_case(self, word):
        value = self.expr()
        self.must("of")
        arms = [self.arm()]
        while self.may(";"):
            if self.is_next("end"):
                break
            arms.append(self.arm())
        self.must("end")
        return ("case", word, value, arms)

    def arm(self):
        constants = self.several(self.constant)
        self.must(":")
        return constants, self.statement()

    def read_while(self, word):
        condition = self.expr()
        self.must("do")
        return ("while", word, condition, self.statement())

    def read_repeat(self, word):
        turn = self.statements()
        self.must("until")
        return ("repeat", word, turn, self.expr())

    def read_for(self, word):
        name = self.name()
        self.must(":=")
        first = self.expr()
        self.must("to", "downto")
        last = self.expr()
        self.must("do")
        return ("for", word, name, first, last, self.statement())

    def read_all(self, word):
        name = self.name()
        self.must(":")
        over = self.shorttype()
        self.must("do")
        return ("all", word, name, over, self.statement())

    # Expressions.

    def subscripts(self):
        return self.bracketed("[", self.expr, "]") if self.is_next("[") else []

    def arguments(self):
        return self.bracketed("(", self.expr, ")") if self.is_next("(") else []

    def bracketed(self, opens, item, closes):
        self.open()
        self.must(opens)
        items = self.several(item)
        self.must(closes)
        self.close()
        return items

    def selectors(self):
        """("index", expressions) and ("field", name)."""
        path = []
        while self.is_next("[", "."):
            path.append(("field", self.name()) if self.may(".") else ("index", self.subscripts()))
        return path

    def expr(self):
        first = self.next()
        left = self.sum()
        operator = self.may("=", "<>", "<", "<=", ">", ">=", "in")
        return ("expr", first, left, (operator, self.sum()) if operator else None)

    def sum(self):
        first = self.next()
        sign = self.may("+", "-")
        term, rest = self.product(), []
        while operator := self.may("+", "-", "or"):
            rest.append((operator, self.product()))
        return ("sum", first, sign, term, rest)

    def product(self):
        first = self.next()
        factor, rest = self.factor(), []
        while operator := self.may("*", "div", "mod", "and"):
            rest.append((operator, self.factor()))
        return ("product", first, factor, rest)

    def factor(self):
        first = self.next()
        if first.kind in ("number", "character"):
            return (first.kind, self.take(first.kind))
        if self.is_next("("):
            return ("group", first, self.in_parentheses())
        if self.is_next("["):
            return ("members", first, self.members())
        if self.is_next("not"):
            self.open()
            self.must("not")
            operand = self.factor()
            self.close()
            return ("not", first, operand)
        name = self.name()
        if self.is_next("("):
            return ("apply", name, self.arguments())
        return ("variable", name, self.selectors())

    def in_parentheses(self):
        self.open()
        self.must("(")
        of = self.expr()
        self.must(")")
        self.close()
        return of

    def members(self):
        self.open()
        self.must("[")
        members = [] if self.is_next("]") else self.several(self.member)
        self.must("]")
        self.close()
        return members

    def member(self):
        low = self.expr()
        return low, self.expr() if self.may("..") else None
