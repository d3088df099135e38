"""Texts of one construct that is repeated: each as dense as the language lets it be, with names of one
letter, so that a byte of text makes as much of a tree as it can."""

HEAD = "specification L;"
TAIL = "initialize begin init a with b end;end."

# What stands before and after the parts of a body, its statements, and an expression.
PARTS = HEAD + "body b for m;", "end;" + TAIL
STATEMENTS = HEAD + "body b for m;initialize begin ", "end;end;" + TAIL
EXPRESSION = STATEMENTS[0] + "a:=", " " + STATEMENTS[1]
CALL = STATEMENTS[0] + "a(", ")" + STATEMENTS[1]

# So many levels are left within a body.
LEVELS = 31


def within(around, before, after):
    """The same, with more within."""
    return around[0] + before, after + around[1]


def nested(levels, before, inner, after):
    return before * levels + inner + after * levels


def chain(levels):
    """An `if` of so many levels, each in the `else` of the one above."""
    return "if a then b else " * (levels - 1) + "if a then b else c;"


# For each construct what stands around it, and what is repeated.
CONSTRUCTS = {
    "constants": (within(PARTS, "const ", ""), "a=1;"),
    "named constants": (within(PARTS, "const ", ""), "a=-b;"),
    "types": (within(PARTS, "type ", ""), "a=b;"),
    "ranges": (within(PARTS, "type ", ""), "a=1..2;"),
    "variables": (within(PARTS, "var ", ""), "a:b;"),
    "names of variables": (within(PARTS, "var a", ":b;"), ",a"),
    "an enumeration": (within(PARTS, "type a=(b", ");"), ",c"),
    "a record": (within(PARTS, "type a=record ", "end;"), "a:b;"),
    "dimensions": (within(PARTS, "type a=array[b", "]of c;"), ",c"),
    "records, 31 deep": (within(PARTS, "type ", ""), "a=" + nested(LEVELS, "record a:", "b", " end") + ";"),
    "arrays, 31 deep": (within(PARTS, "type ", ""), "a=" + nested(LEVELS, "array[b]of ", "c", "") + ";"),
    "sections": (PARTS, "const a=1;type a=b;var a:b;"),
    "states": (within(PARTS, "state a", ";"), ",a"),
    "state sets": (within(PARTS, "stateset ", ""), "a=[b];"),
    "modules": (PARTS, "modvar a:b;"),
    "a sum": (EXPRESSION, "a+", "a"),
    "a product": (EXPRESSION, "a*", "a"),
    "relations": (EXPRESSION, "(a=b)+", "a"),
    "relations of sums": (EXPRESSION, "(a+1<b*2)or", "(a)"),
    "negations": (EXPRESSION, "not a and ", "a"),
    "arguments": (CALL, "a,", "a"),
    "numbers as arguments": (CALL, "1,", "1"),
    "a set": (within(EXPRESSION, "[", "]"), "a,", "a"),
    "ranges of a set": (within(EXPRESSION, "[", "]"), "1..2,", "a"),
    "subscripts": (within(STATEMENTS, "a", ":=b "), "[c]"),
    "fields": (within(STATEMENTS, "a", ":=b "), ".c"),
    "calls within": (EXPRESSION, "f(a)+", "a"),
    "brackets, 31 deep": (STATEMENTS, "a:=" + nested(LEVELS, "(", "b", ")") + ";"),
    "sets, 31 deep": (STATEMENTS, "a:=" + nested(LEVELS, "[", "b", "]") + ";"),
    "calls, 31 deep": (STATEMENTS, "a:=" + nested(LEVELS, "f(", "b", ")") + ";"),
    "a case": (within(STATEMENTS, "case a of ", "end "), "1:;"),
    "labels of a case": (within(STATEMENTS, "case a of 1", ":end "), ",1"),
    "empty statements": (STATEMENTS, ";"),
    "assignments": (STATEMENTS, "a:=b;"),
    "calls": (STATEMENTS, "a;"),
    "calls with arguments": (STATEMENTS, "a(b);"),
    "outputs": (STATEMENTS, "output a.b;"),
    "sendings": (within(STATEMENTS, "output a.b", " "), ",a.b"),
    "loops": (STATEMENTS, "for i:=1 to 9 do a;"),
    "links": (STATEMENTS, "connect a to b;"),
    "attachments": (STATEMENTS, "attach a to b.c;"),
    "begin, 31 deep": (STATEMENTS, nested(LEVELS, "begin ", "", " end") + ";"),
    "while, 31 deep": (STATEMENTS, nested(LEVELS, "while a do ", "", "") + ";"),
    "repeat, 31 deep": (STATEMENTS, nested(LEVELS, "repeat ", "", " until a") + ";"),
    "case, 31 deep": (STATEMENTS, nested(LEVELS, "case a of 1:", "", " end") + ";"),
    "if, 31 deep": (STATEMENTS, nested(LEVELS, "if a then ", "", "") + ";"),
    "chains of else": (STATEMENTS, chain(LEVELS)),
    "a channel": ((HEAD + "channel c(a,b);by a:", TAIL), "a;"),
    "parameters": ((HEAD + "channel c(a,b);by a:a(", "c:d);" + TAIL), "a:b;"),
    "parts of a channel": ((HEAD + "channel c(a,b);", TAIL), "by a:a;"),
    "points and exports": ((HEAD + "module m activity;", "end;" + TAIL), "ip a:b(c);export a:b;"),
    "points": ((HEAD + "module m activity;ip ", "end;" + TAIL), "a:b(c);"),
    "headers": ((HEAD, TAIL), "module m activity;end;"),
    "routines": (PARTS, "procedure a;begin end;"),
    "functions": (PARTS, "function a(b:c):d;begin a:=b end;"),
    "formals": (within(PARTS, "procedure p(", "a:b);begin end;"), "a:b;"),
    "transitions": (
        PARTS,
        "trans from a to b when p.g provided a priority 1 any a:b do delay(1,2)name t:begin output p.g(1)end;",
    ),
    "empty transitions": (within(PARTS, "trans ", ""), "begin end;"),
    "groups of transitions": (PARTS, "trans begin end;"),
    "clauses": (within(PARTS, "trans ", "begin end;"), "to a "),
    "bodies": ((HEAD, TAIL), "body b for m;end;"),
    "bodies, 30 deep": ((HEAD, TAIL), nested(30, "body b for m;", "", "end;")),
    "comments": ((HEAD, TAIL), "{}"),
    "blanks": ((HEAD, TAIL), " \n"),
}


def named(number):
    return list(CONSTRUCTS)[number]


def construct(size, number):
    """A text of at most `size` bytes, in which the construct with this number is repeated."""
    (before, after), repeated, *last = CONSTRUCTS[named(number)]
    after = "".join(last) + after
    return before + repeated * ((size - len(before) - len(after)) // len(repeated)) + after
