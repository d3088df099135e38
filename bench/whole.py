"""Texts of the whole language as a user would write them, and Pascal programs of the same content."""

import random

STATES = [f"S{i}" for i in range(16)]
LOOPS = ["i", "j", "k"]
OPERATIONS = ["+", "-", "*", "div", "mod"]
RELATIONS = ["=", "<>", "<", "<=", ">", ">="]


class Text:
    """Draws the parts of one unit: a constant, types, variables, routines and transitions, whose names
    end in its number. Statements and expressions are the same in Estelle and in Pascal."""

    def __init__(self, draw, number):
        self.draw = draw
        self.number = number

    def name(self, what):
        return f"{what}{self.number}"

    def variable(self, depth):
        table, frame = self.name("table"), self.name("frame")
        forms = ["count", "size", self.name("total"), f"{frame}.length", f"{frame}.sent[{self.digit()}]"]
        forms += [f"{table}[{loop}]" for loop in LOOPS[:depth]]
        return self.draw.choice(forms)

    def digit(self):
        return str(self.draw.randint(0, 9))

    def operand(self, depth, brackets):
        form = self.draw.random()
        if form < 0.45:
            return self.variable(depth)
        if form < 0.7:
            return str(self.draw.randint(1, 99))
        if form < 0.8 and depth:
            return self.draw.choice(LOOPS[:depth])
        if form < 0.9 and brackets:
            return f"({self.sum(depth, brackets - 1)})"
        if brackets:
            return f"{self.name('least')}({self.sum(depth, brackets - 1)}, {self.variable(depth)})"
        return self.name("limit")

    def sum(self, depth, brackets=2):
        text = self.variable(depth)
        for _ in range(self.draw.randint(0, 2)):
            operation = self.draw.choice(OPERATIONS)
            if operation in ("div", "mod"):
                text += f" {operation} {self.draw.randint(1, 9)}"
            else:
                text += f" {operation} {self.operand(depth, brackets)}"
        return text

    def condition(self, depth):
        form = self.draw.random()
        if form < 0.15:
            return f"not {self.name('frame')}.last"
        if form < 0.3:
            low = self.draw.randint(0, 50)
            return f"{self.variable(depth)} in [{low}, {low + 2}..{low + 9}]"
        one = f"{self.sum(depth, 1)} {self.draw.choice(RELATIONS)} {self.operand(depth, 1)}"
        if form < 0.7:
            return one
        joined = self.draw.choice(["and", "or"])
        return f"({one}) {joined} ({self.variable(depth)} {self.draw.choice(RELATIONS)} {self.digit()})"

    def statements(self, indent, depth, nested, count):
        return ";\n".join(self.statement(indent, depth, nested) for _ in range(count))

    def turn(self, indent, depth, nested):
        """A compound statement, without its indentation."""
        inner = self.statements(indent + "  ", depth, nested, self.draw.randint(1, 3))
        return f"begin\n{inner}\n{indent}end"

    def statement(self, indent, depth, nested):
        form = self.draw.random() if nested else self.draw.random() * 0.55
        if form < 0.45:
            return f"{indent}{self.variable(depth)} := {self.sum(depth)}"
        if form < 0.55:
            return f"{indent}{self.name('note')}({self.sum(depth)}, {self.variable(depth)})"
        if form < 0.7:
            text = f"{indent}if {self.condition(depth)} then {self.turn(indent, depth, nested - 1)}"
            if self.draw.random() < 0.5:
                text += f" else {self.turn(indent, depth, nested - 1)}"
            return text
        if form < 0.8 and depth < len(LOOPS):
            loop = LOOPS[depth]
            return f"{indent}for {loop} := 0 to {self.digit()} do {self.turn(indent, depth + 1, nested - 1)}"
        if form < 0.87:
            return f"{indent}while {self.condition(depth)} do {self.turn(indent, depth, nested - 1)}"
        if form < 0.93:
            inner = self.statements(indent + "  ", depth, nested - 1, 2)
            return f"{indent}repeat\n{inner}\n{indent}until {self.condition(depth)}"
        arms = []
        for arm in range(self.draw.randint(2, 4)):
            arms.append(f"{indent}  {2 * arm}, {2 * arm + 1}: {self.turn(indent + '  ', depth, nested - 1)}")
        return f"{indent}case {self.variable(depth)} of\n" + ";\n".join(arms) + f"\n{indent}end"

    def declarations(self):
        table, frame = self.name("table"), self.name("frame")
        return (
            f"const\n  {self.name('limit')} = {self.draw.randint(1, 99)};\n"
            f"type\n  {self.name('place')} = 0..9;\n"
            f"  {self.name('kind')} = ({self.name('data')}, {self.name('answer')}, {self.name('refusal')});\n"
            f"  {self.name('list')} = array[{self.name('place')}] of integer;\n"
            f"  {self.name('unit')} = record\n    length: integer;\n    last: boolean;\n"
            f"    sent: {self.name('list')};\n    what: set of {self.name('kind')}\n  end;\n"
            f"var\n  {table}: {self.name('list')};\n  {frame}: {self.name('unit')};\n"
            f"  {self.name('total')}: integer;\n"
        )

    def routines(self):
        """A function, a procedure that the others of the unit call, and some more procedures."""
        least, note = self.name("least"), self.name("note")
        text = (
            f"{{ The lesser of two numbers. }}\nfunction {least}(a, b: integer): integer;\n"
            f"begin\n  if a < b then {least} := a else {least} := b\nend;\n"
            f"{{ Notes what was counted. }}\nprocedure {note}(a: integer; var b: integer);\n"
            f"begin\n  b := a + {self.name('limit')};\n  {self.name('frame')}.what := [{self.name('data')}];\n"
            f"  {self.name('frame')}.last := b > a\nend;\n"
        )
        for routine in range(3):
            text += (
                f"{{ Step {routine} of unit {self.number}. }}\n"
                f"procedure step{routine}of{self.number}(size: integer);\n"
                f"var\n  i, j, k, count: integer;\nbegin\n  count := 0;\n"
                f"{self.statements('  ', 0, 3, self.draw.randint(4, 8))}\nend;\n"
            )
        return text

    def transition(self, order):
        """A transition, and the procedure that stands for it."""
        here, there = self.draw.choice(STATES), self.draw.choice(STATES)
        when = self.draw.random() < 0.6
        least = self.draw.randint(0, 9)
        provided = self.condition(0)
        inner = self.statements("    ", 0, 2, self.draw.randint(2, 4))
        sent = self.sum(0), self.variable(0)
        name = f"t{order}of{self.number}"
        variables = "    var i, j, k, count, size: integer;\n    begin\n"
        estelle = f"  {{ From {here} to {there}. }}\n  trans from {here} to {there}"
        estelle += " when P.Go\n" if when else f" delay({least}, {least + 5})\n"
        estelle += f"    provided {provided}\n    priority {least}\n    name {name}:\n{variables}"
        estelle += f"    size := {'n' if when else '1'};\n    count := 1;\n{inner};\n"
        estelle += f"    output P.Left({sent[0]}, {sent[1]}), P.Right\n    end;\n"
        pascal = f"  {{ From {here} to {there}. }}\n  procedure {name}(n: integer);\n{variables}"
        pascal += f"    size := {'n' if when else '1'};\n    count := 1;\n    priority({least});\n"
        pascal += "" if when else f"    delay({least}, {least + 5});\n"
        pascal += f"    if (state = {here}) and ({provided}) then begin\n{inner};\n"
        pascal += f"    left({sent[0]}, {sent[1]}); right;\n    state := {there}\n    end end;\n"
        return estelle, pascal


ESTELLE_HEAD = (
    "specification Large;\ntimescale seconds;\n"
    "channel C(A, B);\n  by A: Go(n: integer);\n  by B: Left(n, m: integer); Right;\n"
    "module M systemactivity;\n  ip P: C(B) individual queue;\nend;\nbody MB for M;\n"
    "var\n  count, size: integer;\n"
)
ESTELLE_MIDDLE = "state " + ", ".join(STATES) + ";\ninitialize to S0 begin end;\n"
ESTELLE_TAIL = "end;\nmodvar X: M;\ninitialize begin init X with MB end;\nend.\n"
PASCAL_HEAD = (
    "program large;\ntype states = (" + ", ".join(STATES) + ");\nvar state: states;\n  count, size: integer;\n"
    "procedure left(n, m: integer); begin end;\nprocedure right; begin end;\n"
    "procedure priority(n: integer); begin end;\nprocedure delay(n, m: integer); begin end;\n"
)
PASCAL_TAIL = "begin\nend.\n"


def both(size, seed):
    """An Estelle text of nearly `size` bytes, and a Pascal program of the same content."""
    draw = random.Random(seed)
    parts, transitions, procedures = [], [], []
    length = len(ESTELLE_HEAD) + len(ESTELLE_MIDDLE) + len(ESTELLE_TAIL)
    number = 0
    while True:
        number += 1
        text = Text(draw, number)
        part = text.declarations() + text.routines()
        pairs = [text.transition(order) for order in range(4)]
        unit = len(part) + sum(len(estelle) for estelle, _ in pairs)
        if length + unit > size:
            break
        length += unit
        parts.append(part)
        transitions += [estelle for estelle, _ in pairs]
        procedures += [pascal for _, pascal in pairs]
    estelle = ESTELLE_HEAD + "".join(parts) + ESTELLE_MIDDLE + "".join(transitions) + ESTELLE_TAIL
    return estelle, PASCAL_HEAD + "".join(parts + procedures) + PASCAL_TAIL


def whole(size, seed):
    return both(size, seed)[0]


def whole_pascal(size, seed):
    return both(size, seed)[1]
