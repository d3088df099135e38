"""Texts of declarations that break no rule, each of which names others: as a check has to look each name
up, and to find its kind. Names are of some letters and a number, so that all of them differ."""

import itertools

HEAD = "specification L;module zm systemactivity;end;body zb for zm;end;modvar zx:zm;"
TAIL = "initialize begin init zx with zb end;end.\n"

# So many levels of arrays and records may lie within one another, and so many bodies.
LEVELS = 32
BODIES = 30

# So many variables stand in one body, which may have a few more.
VARIABLES = 60_000


def constants():
    """Each is the one before."""
    yield "const c0=1;"
    for n in itertools.count(1):
        yield f"c{n}=c{n - 1};"


def types():
    """Each is an array of the one before, as far as levels go."""
    yield "type t0=char;"
    for n in itertools.count(1):
        yield f"t{n}=char;" if n % LEVELS == 0 else f"t{n}=array[1..1]of t{n - 1};"


def ranges():
    """Each begins with a constant of the enumeration before it."""
    yield "type e0=(a0,b0);"
    for n in itertools.count(1):
        yield f"r{n}=a{n - 1}..b{n - 1};e{n}=(a{n},b{n});"


def bodies():
    """Nested as far as levels go; each constant is one of the body around."""
    yield "module m activity;end;const c0=1;"
    for n in itertools.count(1):
        if (n - 1) % BODIES == 0:
            yield f"body b{n} for m;const c{n}=c0;"
        else:
            yield f"body b{n} for m;const c{n}=c{n - 1};"
        if n % BODIES == 0:
            yield "end;" * BODIES


def routines():
    """Each has a parameter and a local of the type before, and calls the routine before."""
    yield "type t=1..9;procedure p0;begin end;"
    for n in itertools.count(1):
        yield f"procedure p{n}(a:t);var b:t;begin p{n - 1}{'(a)' if n > 1 else ''} end;"


def enumeration():
    """One, of all names."""
    yield "type e=(n0"
    for n in itertools.count(1):
        yield f",n{n}"


def record():
    """One of many fields, the kind of many types: a fifth of the text is the record."""
    fields = 20_000
    yield "type r=record f0"
    yield from (f",f{n}" for n in range(1, fields))
    yield ":char end;"
    for n in itertools.count():
        yield f"t{n}=array[1..1]of r;"


def variables():
    """Of types by name: a body may have 65,536 scalars."""
    yield "type t=1..9;"
    for n in itertools.count():
        if n % VARIABLES == 0:
            yield ("end;" if n else "") + f"body b{n} for m;var "
        yield f"v{n}:t;"


def transitions():
    """With variables of `any` and parameters of `when`, and a constant in each block."""
    yield "channel k(x,y);by x:s(d:char);module m activity;ip p:k(y);end;body b for m;"
    for n in itertools.count():
        yield f"trans any i:1..2 do when p.s const c{n}={n};begin end;"


# For each what closes it. The ones that stand in a body get its header before them.
DECLARATIONS = {
    "constants, each of the one before": (constants, ""),
    "types, each of the one before": (types, ""),
    "enumerations and ranges of them": (ranges, ""),
    "bodies, 30 deep": (bodies, None),
    "routines, each calls the one before": (routines, ""),
    "one enumeration": (enumeration, ");"),
    "one record, the kind of many types": (record, ""),
    "variables": (variables, "end;"),
    "transitions with parameters": (transitions, "end;"),
}


def named(number):
    return list(DECLARATIONS)[number]


def declarations(size, number):
    """The text of at most this size."""
    of, after = DECLARATIONS[named(number)]
    front = "module m activity;end;" if of is variables else ""
    parts, length = [], size - len(HEAD + front + TAIL) - len(after or "end;" * BODIES)
    left, open_bodies = length, 0
    for part in of():
        if len(part) > left:
            break
        parts.append(part)
        left -= len(part)
        if after is None:
            open_bodies += part.count("body ") - part.count("end;" * BODIES) * BODIES
    closing = "end;" * open_bodies if after is None else after
    return HEAD + front + "".join(parts) + closing + TAIL
